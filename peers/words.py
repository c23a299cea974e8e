"""Compares which words the program decodes with what objdump names, over each row of instructions, each of its
fields at its corners, and each word that differs from such a row in one fixed bit."""
import concurrent.futures
import itertools
import os
import re
import struct
import subprocess
import sys

# Each row from the left: fixed bits, and fields with their widths. Small letters before a colon are fields whose
# values are all taken together; capital ones are registers, and those that begin with "imm" are immediates.
ROWS = """
op:1 lo:2 10000 immhi:19 Rd:5
sf:1 op:1 s:1 100010 sh:1 imm12:12 Rn:5 Rd:5
sf:1 op:1 s:1 01011 shift:2 0 Rm:5 imm6:6 Rn:5 Rd:5
sf:1 op:1 s:1 01011001 Rm:5 option:3 imm3:3 Rn:5 Rd:5
sf:1 opc:2 01010 shift:2 n:1 Rm:5 imm6:6 Rn:5 Rd:5
sf:1 opc:2 100100 n:1 immr:6 s:6 Rn:5 Rd:5
sf:1 opc:2 100101 hw:2 imm16:16 Rd:5
sf:1 opc:2 100110 n:1 immr:6 imms:6 Rn:5 Rd:5
sf:1 00 100111 n:1 0 Rm:5 imms:6 Rn:5 Rd:5
sf:1 00 11010110 Rm:5 opcode:6 Rn:5 Rd:5
sf:1 10 11010110 00000 opcode:6 Rn:5 Rd:5
sf:1 00 11011 op:3 Rm:5 o:1 Ra:5 Rn:5 Rd:5
sf:1 op:1 s:1 11010000 Rm:5 000000 Rn:5 Rd:5
sf:1 op:1 1 11010010 Rm:5 cond:4 i:1 0 Rn:5 0 immnzcv:4
sf:1 op:1 0 11010100 Rm:5 cond:4 0 o:1 Rn:5 Rd:5
op:1 00101 imm26:26
01010100 imm19:19 0 cond:4
sf:1 011010 op:1 imm19:19 Rt:5
b:1 011011 op:1 immb:5 imm14:14 Rt:5
11010110000 11111 000000 Rn:5 00000
11010110001 11111 000000 Rn:5 00000
11010110010 11111 000000 Rn:5 00000
11010100000 imm16:16 00001
11010100001 imm16:16 00000
0000000000000000 imm16:16
11010101000000110010 number:7 11111
opc:2 011000 imm19:19 Rt:5
size:2 111001 opc:2 imm12:12 Rn:5 Rt:5
size:2 111000 opc:2 0 imm9:9 idx:2 Rn:5 Rt:5
size:2 111000 opc:2 1 Rm:5 option:3 s:1 10 Rn:5 Rt:5
opc:2 1010 idx:3 l:1 imm7:7 Rt2:5 Rn:5 Rt:5
""".strip().splitlines()

MNEMONICS = set("""
adr adrp add adds sub subs cmp cmn neg negs and ands orr eor bic bics orn eon mvn tst mov movn movz movk
sbfm bfm ubfm sbfiz sbfx asr lsr lsl sxtb sxth sxtw uxtb uxth ubfiz ubfx bfi bfxil bfc extr ror udiv sdiv
rbit rev16 rev rev32 clz cls madd msub mul mneg smaddl smsubl smull smnegl smulh umaddl umsubl umull umnegl umulh
adc adcs sbc sbcs ngc ngcs ccmn ccmp csel csinc csinv csneg cset csetm cinc cinv cneg b bl cbz cbnz tbz tbnz
br blr ret svc brk udf ldr ldrsw ldrb ldrh ldrsb ldrsh str strb strh ldur ldursw ldurb ldurh ldursb ldursh
stur sturb sturh ldp ldpsw stp
""".split())


def corners(name, width):
    """The values of a field that isn't taken with all others."""
    top = 2 ** width - 1
    if name[0].isupper():
        return [0, 1, 30, 31]
    return sorted({0, 1, top // 2, top // 2 + 1, top, min(31, top), min(32, top)})


def words_of(row):
    parts = row.split()
    fields = [(name, int(width)) for name, _, width in (part.partition(":") for part in parts) if width]
    together = [(name, width) for name, width in fields if not name[0].isupper() and not name.startswith("imm")]
    apart = [(name, width) for name, width in fields if (name, width) not in together]

    def word(values):
        bits, flips = "", []
        for part in parts:
            name, _, width = part.partition(":")
            if width:
                bits += format(values[name], f"0{width}b")
            else:
                flips += range(len(bits), len(bits) + len(part))
                bits += part
        assert len(bits) == 32, row
        return int(bits, 2), [31 - flip for flip in flips]

    plain = {name: (index + 1) % 2 ** width for index, (name, width) in enumerate(apart)}
    equal = {name: 5 if name[0].isupper() else 2 ** width - 1 for name, width in apart}
    highest = {name: 2 ** width - 1 for name, width in apart}
    found = set()
    for choice in itertools.product(*(range(2 ** width) for _, width in together)):
        chosen = dict(zip((name for name, _ in together), choice))
        for base in (plain, equal, highest):
            at, flips = word({**base, **chosen})
            found.add(at)
        for name, width in apart:
            for value in corners(name, width):
                found.add(word({**plain, **chosen, name: value})[0])
    start, flips = word({**plain, **{name: 0 for name, _ in together}})
    return found | {start ^ 1 << flip for flip in flips}


def decoded(program, word):
    """Whether the program does the word, by its answer to one step of it."""
    image = b"GRIMG001" + struct.pack("<6Q", 0x1000, 0x10000, 0x1000, 1, 0x1000, 4) + struct.pack("<I", word)
    note = subprocess.run([program, "run", "in=-", "out=/dev/null", "steps=1"], input=image, capture_output=True).stderr.decode()
    assert note.startswith("steps="), (hex(word), note)
    return "undecoded" not in note


def named(words, folder):
    """What objdump says of each word."""
    with open(f"{folder}/words", "wb") as file:
        file.write(struct.pack(f"<{len(words)}I", *words))
    listing = subprocess.run(["aarch64-linux-gnu-objdump", "-z", "-D", "-b", "binary", "-m", "aarch64", f"{folder}/words"], capture_output=True, check=True).stdout.decode()
    texts = re.findall(r"^ *[0-9a-f]+:\t[0-9a-f]{8} \t(.*)$", listing, re.M)
    assert len(texts) == len(words)
    return texts


def in_profile(word, text):
    """Whether the text is that of an instruction of the profile, and not one of a vector register."""
    if word & 0xFFFFF01F == 0xD503201F:
        return True
    mnemonic, _, operands = text.partition("\t")
    return mnemonic.split(".")[0] in MNEMONICS and not re.match(r"[bhsdqvzp][0-9]", operands)


def reserved_here(word):
    """The words that docs/FORMAT.md lists: objdump names them, and the program takes them for no instruction."""
    first, base, second = word & 31, word >> 5 & 31, word >> 10 & 31
    if word >> 24 & 63 == 0x38 and not word >> 21 & 1 and word >> 10 & 1:
        return base == first != 31
    if word >> 25 & 31 == 0x14:
        moves = word >> 23 & 7 in (1, 3)
        return bool(word >> 22 & 1) and first == second or moves and base != 31 and base in (first, second)
    return word & 0xFF608000 == 0x9B400000 and second != 31


if __name__ == "__main__":
    program, folder = sys.argv[1:]
    words = sorted(set().union(*map(words_of, ROWS)))
    texts = named(words, folder)
    with concurrent.futures.ThreadPoolExecutor(os.cpu_count()) as pool:
        answers = list(pool.map(lambda word: decoded(program, word), words))
    wanted = [in_profile(word, text) and not reserved_here(word) for word, text in zip(words, texts)]
    differing = [(word, text, answer) for word, text, answer, want in zip(words, texts, answers, wanted) if answer != want]
    for word, text, answer in differing[:40]:
        print(f"{word:08x} {'decoded' if answer else 'not decoded'}, objdump: {text}")
    reserved = sum(in_profile(word, text) and reserved_here(word) for word, text in zip(words, texts))
    print(f"{len(words)} words, {sum(answers)} decoded, {len(differing)} differ from objdump, but for the {reserved} that are reserved here alone")
    sys.exit(bool(differing))
