"""Has random words of every row of instructions printed, and compares the words that GNU as makes of the lines. Lines that
as doesn't take as they are, and those of which it makes another word, must be in spellings that docs/ASSEMBLY.md says are
the program's alone."""
import collections
import random
import re
import struct
import subprocess
import sys

sys.path.insert(0, "bench")
sys.path.insert(0, "peers")
from files import identifier, number, run
from words import ROWS

# Spellings that are the program's alone: a number where as wants a label, and a register offset of bytes that is shifted by 0.
NUMBERED = re.compile(r"(b|bl|b\.\w+|cbn?z|tbn?z|adrp?|ldr|ldrsw) (\w+, )*#-?\d+$")
BYTE_SHIFTED = re.compile(r"(ldrb|strb|ldrsb) \w+, \[\w+, \w+, \w+ #0\]$")


def random_word(chance):
    bits = ""
    for part in chance.choice(ROWS).split():
        name, _, width = part.partition(":")
        bits += format(chance.getrandbits(int(width)), f"0{width}b") if width else part
    return int(bits, 2)


def module(words):
    """A file of one module, whose one block has the words."""
    code, start = identifier(4, 0), identifier(1, 0)
    block = run(2, number(1, 0), run(2, run(1, start), number(3, 4 * len(words))))
    text = run(5, run(1, code), block, number(6, 4 * len(words)), run(7, struct.pack(f"<{len(words)}I", *words)))
    section = run(12, run(1, identifier(5, 0)), run(2, b".text"), text, number(6, 4))
    return b"GTIRB\0\0\4" + run(1, identifier(6, 0)) + run(3, run(1, identifier(3, 0)), number(6, 7), section, run(18, start), number(19, 2)) + number(6, 4)


def assembled(lines, folder):
    """What as says against each line that it refuses, by its number, from 0."""
    with open(f"{folder}/lines.s", "w") as file:
        file.write("\n".join(lines) + "\n")
    done = subprocess.run(["aarch64-linux-gnu-as", "-march=armv8-a", "-o", f"{folder}/lines.o", f"{folder}/lines.s"], capture_output=True, text=True)
    return {int(line) - 1: said for line, said in re.findall(r":(\d+): Error: (.*)", done.stderr)}


def main():
    program, folder, count = sys.argv[1], sys.argv[2], int(sys.argv[3])
    chance = random.Random(1)
    words = [random_word(chance) for _ in range(count)]
    with open(f"{folder}/module", "wb") as file:
        file.write(module(words))
    subprocess.run([program, "print", f"in={folder}/module", f"out={folder}/text"], check=True)
    with open(f"{folder}/text") as file:
        lines = [line.strip() for line in file if line.startswith("    ")]
    assert len(lines) == count
    named = [k for k in range(count) if not lines[k].startswith(".inst")]
    ours = [k for k in named if NUMBERED.match(lines[k])]
    tried = [k for k in named if not NUMBERED.match(lines[k])]
    refused = assembled([lines[k] for k in tried], folder)
    taken = [k for place, k in enumerate(tried) if place not in refused]
    assert not assembled([lines[k] for k in taken], folder)
    subprocess.run(["aarch64-linux-gnu-objcopy", "-O", "binary", "-j", ".text", f"{folder}/lines.o", f"{folder}/made"], check=True)
    with open(f"{folder}/made", "rb") as file:
        made = struct.unpack(f"<{len(taken)}I", file.read())
    other = [k for k, word in zip(taken, made) if word != words[k]]
    unlisted = [k for k in other if not BYTE_SHIFTED.match(lines[k])]
    shapes = collections.Counter(re.sub(r"\d+", "N", lines[tried[place]]) for place in refused)
    print(f"{count} words: {count - len(named)} printed as .inst, {len(ours)} with a number in the place of a label, {len(tried)} given to as")
    print(f"as makes the same word of {len(taken) - len(other)}, another of {len(other)} ({len(unlisted)} in no listed spelling), and refuses {len(refused)}")
    for shape, times in shapes.most_common(20):
        print(f"  refused {times} times: {shape}")
    for k in unlisted[:20]:
        print(f"  another word than {words[k]:08x}: {lines[k]}")
    return 1 if refused or unlisted else 0


if __name__ == "__main__":
    sys.exit(main())
