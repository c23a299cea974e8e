"""Compares runs of random instructions under the program with those under qemu-aarch64.

An image holds many trials. Each fills the registers, SP, the flags and now and then memory, does one random word,
and writes all registers, SP, the flags and the bytes of memory that loads and stores go to; what the two write is
compared. Branches land in rows of additions, whose sum tells where. The same bytes go to qemu as a static ELF file
and to the program as a bare image, which is cut into more segments, at odd addresses."""
import concurrent.futures
import dataclasses
import os
import random
import struct
import subprocess
import sys

from words import ROWS

NAMES = """address add_immediate add_shifted add_extended logical_shifted logical_immediate move_wide bitfield extract
two_sources one_source three_sources with_carry condition_compare condition_select branch branch_condition
compare_branch test_branch jump jump_link return call break udf hint literal scaled unscaled register pair""".split()
TRIALS, IMAGES = 1000, 32
CODE, DUMP, AREA, STACK = 0x400000, 0x4F0E00, 0x4F0F20, 0x7000000
AREA_SIZE = 512
DATA_END = 0x4F2000
SLED = 8
MASK = 2 ** 64 - 1


def shift_is_reserved(f):
    return not f["sf"] and f["imm6"] > 31


def mask_is_reserved(f):
    size = 64 if f["n"] else next((size for size, low in ((32, 0), (16, 32), (8, 48), (4, 56), (2, 60)) if low <= f["s"] < 64 - size), 0)
    return size == 0 or f["s"] % size == size - 1 or (f["n"] and not f["sf"])


def product_is_reserved(f):
    return not (f["op"] == 0 or f["sf"] and (f["op"] in (1, 5) or f["op"] in (2, 6) and f["o"] == 0 and f["Ra"] == 31))


def access_is_reserved(f):
    return (f["size"], f["opc"]) in ((2, 3), (3, 2), (3, 3))


def base_is_changed(f, *others):
    return f["idx"] % 2 == 1 and f["Rn"] != 31 and f["Rn"] in others


# Which fields a row keeps out.
RESERVED = {
    "add_shifted": lambda f: f["shift"] == 3 or shift_is_reserved(f),
    "add_extended": lambda f: f["imm3"] > 4,
    "logical_shifted": shift_is_reserved,
    "logical_immediate": mask_is_reserved,
    "move_wide": lambda f: f["opc"] == 1 or not f["sf"] and f["hw"] > 1,
    "bitfield": lambda f: f["opc"] == 3 or f["n"] != f["sf"] or not f["sf"] and max(f["immr"], f["imms"]) > 31,
    "extract": lambda f: f["n"] != f["sf"] or not f["sf"] and f["imms"] > 31,
    "two_sources": lambda f: f["opcode"] not in (2, 3, 8, 9, 10, 11),
    "one_source": lambda f: f["opcode"] > 5 or f["opcode"] == 3 and not f["sf"],
    "three_sources": product_is_reserved,
    "literal": lambda f: f["opc"] == 3,
    "scaled": access_is_reserved,
    "unscaled": lambda f: access_is_reserved(f) or f["idx"] == 2 or base_is_changed(f, f["Rt"]),
    "register": lambda f: access_is_reserved(f) or not f["option"] & 2 or f["Rm"] == f["Rn"] != 31,
    "pair": lambda f: f["idx"] not in (1, 2, 3) or f["opc"] == 3 or (f["opc"], f["l"]) == (1, 0) or f["l"] and f["Rt"] == f["Rt2"] or base_is_changed(f, f["Rt"], f["Rt2"]),
}


@dataclasses.dataclass
class Row:
    name: str
    parts: list

    def fields(self, pick):
        """Random fields that the row doesn't keep out."""
        while True:
            found = {name: pick.choice([pick.getrandbits(int(width)), pick.getrandbits(int(width)), 31 if name[0] == "R" else 0])
                     for name, _, width in (part.partition(":") for part in self.parts) if width}
            if self.name in ("two_sources", "one_source"):
                found["opcode"] %= 16
            if not RESERVED.get(self.name, lambda f: False)(found):
                return found

    def word(self, fields):
        bits = ""
        for part in self.parts:
            name, _, width = part.partition(":")
            bits += format(fields[name], f"0{width}b") if width else part
        return int(bits, 2)


TABLE = [Row(name, row.split()) for name, row in zip(NAMES, ROWS, strict=True)]
BY_NAME = {row.name: row for row in TABLE}


def signed(value, bits):
    return value - (value >> bits - 1 << bits)


def number(pick):
    """A number for a register: any, small, near a power of two, or with a run of equal bits at the top."""
    kind = pick.randrange(6)
    if kind == 0:
        return pick.getrandbits(64)
    if kind == 1:
        return pick.choice([0, 0, 1, 2, 3, MASK, MASK - 1, 31, 32, 63, 64])
    if kind == 2:
        return (1 << pick.randrange(65)) + pick.randrange(-2, 3) & MASK
    if kind == 3:
        return pick.getrandbits(32)
    if kind == 4:
        return signed(pick.getrandbits(64) | 1 << 63, 64) >> pick.randrange(64) & MASK
    return pick.getrandbits(64) >> pick.randrange(64)


def extended(value, option, amount):
    """An offset in a register, as loads and stores extend it."""
    if not option & 1:
        value = signed(value & 0xFFFFFFFF, 32) if option & 4 else value & 0xFFFFFFFF
    return value << amount


class Trial:
    """One word, and what stands in the registers, SP and the flags before it."""

    def __init__(self, pick, name):
        self.name, row = name, BY_NAME[name]
        self.pick, self.fields = pick, row.fields(pick)
        self.registers, self.nzcv = [number(pick) for _ in range(32)], pick.randrange(16)
        self.written = 0
        used = {value for name, value in self.fields.items() if name[0] == "R"} | {30}
        if name == "call":
            used |= {0, 1, 2, 8}
        # registers that the word doesn't name: the address of the dump, and the count of additions passed
        self.base, self.count = pick.sample([r for r in range(30) if r not in used], 2)
        self.registers[self.base] = DUMP
        self.landing = None
        self.prepare(pick)
        self.word = row.word(self.fields)

    def prepare(self, pick):
        """Sets what the word needs to stay inside its memory or its landing rows."""
        f, name = self.fields, self.name
        target = AREA + pick.randrange(AREA_SIZE - 16)
        if name in ("scaled", "unscaled", "register", "pair"):
            moves = name in ("unscaled", "pair") and f["idx"] == 1
            self.registers[f["Rn"]] = target - (0 if moves else self.offset()) & MASK
        if name == "call":
            self.registers[8], self.registers[0] = pick.choice([(64, 1), (63, 0)])
            self.registers[1] = target
            self.registers[2] = pick.choice([0, 1, pick.randrange(AREA_SIZE - (target - AREA))])
            self.fields = {"imm16": 0}
            self.written = self.registers[2] if self.registers[8] == 64 else 0
        if name in ("branch", "branch_condition", "compare_branch", "test_branch", "jump", "jump_link", "return"):
            self.landing = pick.choice([place for place in range(-SLED - 1, SLED + 1) if place])
            if name == "compare_branch" and pick.randrange(2) and f["Rt"] != 31:
                self.registers[f["Rt"]] = 0 if f["sf"] else pick.getrandbits(32) << 32
            for field, bits in (("imm26", 26), ("imm19", 19), ("imm14", 14)):
                if field in f:
                    f[field] = self.landing % 2 ** bits
        if name in ("jump", "jump_link", "return") and f["Rn"] == 31:
            f["Rn"] = 30

    def offset(self):
        f = self.fields
        if self.name == "scaled":
            return f["imm12"] << f["size"]
        if self.name == "unscaled":
            return signed(f["imm9"], 9)
        if self.name == "pair":
            return signed(f["imm7"], 7) << (3 if f["opc"] == 2 else 2)
        return extended(self.registers[f["Rm"]] if f["Rm"] != 31 else 0, f["option"], f["size"] if f["s"] else 0)

    def place(self, at):
        """Takes the word's address, for what depends on it."""
        if self.name in ("jump", "jump_link", "return"):
            self.registers[self.fields["Rn"]] = at + 4 * self.landing
        if self.name == "literal":
            target = AREA + self.pick.randrange(AREA_SIZE - 8) & ~3
            self.fields["imm19"] = (target - at) // 4 % 2 ** 19
            self.word = BY_NAME[self.name].word(self.fields)

    def __str__(self):
        named = {f"x{value}": hex(self.registers[value]) for name, value in self.fields.items() if name[0] == "R"}
        return f"{self.name} {self.word:08x} {self.fields} {named} nzcv={self.nzcv:04b}"


class Code:
    """Words from CODE on, with the numbers that they load behind them."""

    def __init__(self):
        self.words, self.numbers, self.loads = [], [], []

    def here(self):
        return CODE + 4 * len(self.words)

    def add(self, *words):
        self.words += words

    def load(self, register, value):
        self.loads.append((len(self.words), register, len(self.numbers)))
        self.numbers.append(value)
        self.add(0)

    def bytes(self):
        self.words += [0] * (len(self.words) % 2)
        pool = len(self.words)
        for place, register, index in self.loads:
            self.words[place] = 0x58000000 | (pool + 2 * index - place) << 5 | register
        return struct.pack(f"<{pool}I{len(self.numbers)}Q", *self.words, *self.numbers)


def move(register, value):
    return 0xD2800000 | value << 5 | register


def branch(words):
    return 0x14000000 | words % 2 ** 26


def addition(register, value):
    return 0x91000000 | value << 10 | register << 5 | register


def fill(code, trial):
    """SP, the flags and the registers of a trial."""
    code.load(0, trial.registers[31])
    code.add(0x9100001F)  # mov sp, x0
    code.add(0xEB1F03FF, 0xFA5F13E0 | trial.nzcv)  # cmp xzr, xzr; ccmp xzr, xzr, #nzcv, ne
    for register in range(31):
        code.load(register, trial.registers[register])


def dump(code, trial):
    """Writes the registers, SP, the flags and the area."""
    base, other = trial.base, (trial.base + 1) % 30
    for first in range(0, 30, 2):
        code.add(0xA9000000 | first << 15 | first + 1 << 10 | base << 5 | first)  # stp
    code.add(0xF9000000 | 30 << 10 | base << 5 | 30)  # str
    code.add(0x910003E0 | other, 0xF9000000 | 31 << 10 | base << 5 | other)  # mov other, sp
    for index, condition in enumerate((0, 2, 4, 6)):
        code.add(0x9A9F07E0 | (condition ^ 1) << 12 | other)  # cset other, condition
        code.add(0xF9000000 | 32 + index << 10 | base << 5 | other)
    code.add(0xAA0003E1 | base << 16)  # mov x1, base
    code.add(move(2, AREA + AREA_SIZE - DUMP), move(0, 1), move(8, 64), 0xD4000001)


def run_trial(code, trial):
    fill_at = len(code.words), len(code.numbers)
    fill(code, trial)
    if trial.landing is not None:
        code.add(branch(SLED + 2), *[addition(trial.count, 1)] * SLED, branch(SLED + 2))
    trial.place(code.here())
    if trial.name in ("jump", "jump_link", "return"):
        code.numbers[fill_at[1] + 1 + trial.fields["Rn"]] = trial.registers[trial.fields["Rn"]]
    code.add(trial.word)
    if trial.landing is not None:
        code.add(*[addition(trial.count, 64)] * SLED)
    dump(code, trial)


def run_stored(code, pick, slot, trial):
    """Stores the word of a trial into the slot that each such trial uses, and calls it there."""
    fill(code, trial)
    free = next(r for r in range(30) if r not in (trial.base, trial.count))
    code.load(free, slot)
    code.load(trial.count, trial.word)
    code.add(0xB9000000 | free << 5 | trial.count)  # str wcount, [free]
    code.load(free, trial.registers[free])
    code.load(trial.count, trial.registers[trial.count])
    code.add(0x94000000 | (slot - code.here()) // 4 % 2 ** 26)
    dump(code, trial)


def segments_of(pick, code, area):
    """The bytes of both, cut into more segments at odd addresses."""
    data = bytes(AREA - DUMP) + area + bytes(DATA_END - AREA - AREA_SIZE)
    for at, held in ((CODE, code), (DUMP, data)):
        cuts = sorted(pick.sample(range(1, len(held)), 5)) + [len(held)]
        if at == DUMP:
            cuts = sorted(set(cuts + pick.sample(range(AREA - DUMP, AREA - DUMP + AREA_SIZE), 3)))
        for start, end in zip([0] + cuts, cuts):
            yield at + start, held[start:end]


def image_of(segments):
    file = b"GRIMG001" + struct.pack("<4Q", CODE, STACK, 0x1000, len(segments))
    return file + b"".join(struct.pack("<2Q", at, len(held)) + held for at, held in segments)


def elf_of(code, area):
    """A static ELF file of the same bytes at the same addresses."""
    data = bytes(DUMP % 4096) + bytes(AREA - DUMP) + area + bytes(DATA_END - AREA - AREA_SIZE)
    places = [(CODE, code, 4096), (DUMP - DUMP % 4096, data, 4096 + (len(code) + 4095) // 4096 * 4096)]
    head = b"\x7fELF\2\1\1" + bytes(9) + struct.pack("<HHIQQQIHHHHHH", 2, 183, 1, CODE, 64, 0, 0, 64, 56, len(places), 64, 0, 0)
    for at, held, offset in places:
        head += struct.pack("<IIQQQQQQ", 1, 7, offset, at, at, len(held), len(held), 4096)
    file = head.ljust(4096, b"\0")
    for _, held, offset in places:
        file = file.ljust(offset, b"\0") + held
    return file


def both(program, name, elf, image, given, steps):
    """What qemu and the program write, and how they end."""
    for end, held in (("elf", elf), ("image", image), ("input", given)):
        with open(f"{name}.{end}", "wb") as file:
            file.write(held)
    os.chmod(f"{name}.elf", 0o755)
    with open(f"{name}.input", "rb") as file:
        theirs = subprocess.run(["qemu-aarch64", "-cpu", "cortex-a57", f"{name}.elf"], stdin=file, capture_output=True)
    ours = subprocess.run([program, "run", f"in={name}.image", f"out={name}.out", f"input={name}.input", f"steps={steps}"], capture_output=True)
    with open(f"{name}.out", "rb") as file:
        written = file.read()
    for end in ("elf", "image", "input", "out"):
        os.remove(f"{name}.{end}")
    return theirs.returncode, theirs.stdout, ours.stderr.decode().split(" ", 1)[1].strip(), written


def compare_trials(program, folder, seed):
    """One image of trials: how many words were alike, and what differs first."""
    pick, code, trials = random.Random(seed), Code(), []
    slot = CODE + 4
    code.add(branch(3), 0xD503201F, 0xD65F03C0)  # past the slot: a word and ret
    names = [row.name for row in TABLE if row.name not in ("break", "udf")]
    straight = names[:names.index("branch")]
    for index in range(TRIALS):
        stored = index % 40 == 39
        trial = Trial(pick, pick.choice(straight) if stored else names[index % len(names)])
        if stored and 30 in trial.fields.values():
            stored = False
        if stored:
            run_stored(code, pick, slot, trial)
        else:
            run_trial(code, trial)
        trials.append(trial)
    status = pick.randrange(256)
    code.add(move(0, 256 + status), move(8, 93), 0xD4000001)
    area, given = pick.randbytes(AREA_SIZE), pick.randbytes(1500)
    held = code.bytes()
    assert len(held) < DUMP - CODE - 4096, len(held)
    segments = list(segments_of(pick, held, area))
    code_status, theirs, end, ours = both(program, f"{folder}/{seed}", elf_of(held, area), image_of(segments), given, 1_000_000)
    if theirs == ours and code_status == status and end == f"exit {status}":
        return len(trials), None
    at = 0
    for index, trial in enumerate(trials):
        size = trial.written + AREA + AREA_SIZE - DUMP
        if theirs[at:at + size] != ours[at:at + size]:
            return index, f"seed {seed}: {trial}\n" + difference(theirs[at:at + size], ours[at:at + size], trial.written)
        at += size
    return len(trials), f"seed {seed}: qemu ends with {code_status}, here {end}, wanted {status}"


def difference(theirs, ours, written):
    """The parts of two dumps that differ."""
    if len(theirs) != len(ours):
        return f"  qemu wrote {len(theirs)} bytes, here {len(ours)}"
    names = [f"x{r}" for r in range(31)] + ["sp", "z", "c", "n", "v"]
    lines = [f"  {name}: qemu {theirs[at:at + 8][::-1].hex()}, here {ours[at:at + 8][::-1].hex()}"
             for index, name in enumerate(names) for at in [written + 8 * index] if theirs[at:at + 8] != ours[at:at + 8]]
    bytes_differ = [at for at in range(written + AREA - DUMP, len(ours)) if theirs[at] != ours[at]]
    return "\n".join(lines + ([f"  memory at {', '.join(hex(DUMP + at - written) for at in bytes_differ[:16])}"] if bytes_differ else []))


def compare_end(program, folder, seed):
    """An image whose one trial ends by a signal under qemu."""
    pick, code = random.Random(seed), Code()
    name = ("break", "udf", "scaled", "unscaled", "register", "pair", "jump", "misaligned")[seed % 8]
    trial = Trial(pick, "jump" if name == "misaligned" else name)
    trial.landing = None
    if name in ("scaled", "unscaled", "register", "pair"):
        # the access begins in the last bytes that are mapped, or behind them
        size = 2 ** trial.fields["size"] if "size" in trial.fields else 16 if trial.fields["opc"] == 2 else 8
        shift = DATA_END - pick.randrange(size) - AREA
        rn = trial.fields["Rn"]
        where = trial.registers[rn] + (0 if name in ("unscaled", "pair") and trial.fields["idx"] == 1 else trial.offset()) & MASK
        trial.registers[rn] = trial.registers[rn] - where + AREA + shift & MASK
    fill(code, trial)
    if name == "jump":
        code.load(trial.fields["Rn"], pick.choice([0, 8, DATA_END, 2 ** 40]))
    if name == "misaligned":
        code.load(trial.fields["Rn"], CODE + pick.choice([1, 2, 3]))
    code.add(trial.word)
    area = pick.randbytes(AREA_SIZE)
    held = code.bytes()
    segments = list(segments_of(pick, held, area))
    ended, theirs, end, ours = both(program, f"{folder}/end{seed}", elf_of(held, area), image_of(segments), b"", 1_000)
    wanted = {"break": ("trap break", (-5,)), "udf": ("trap udf", (-4,))}.get(name, ("trap fault", (-11, -7)))
    text = f"{wanted[0]} {trial.fields['imm16']}" if name in ("break", "udf") else wanted[0]
    if end == text and ended in wanted[1] and theirs == ours == b"":
        return 1, None
    return 0, f"end {seed}: {name} {trial}\n  qemu ends with {ended}, here {end}, wanted {text}"


if __name__ == "__main__":
    program, folder, seed = sys.argv[1], sys.argv[2], int(sys.argv[3])
    seeds = range(seed * 1_000_000, seed * 1_000_000 + IMAGES)
    with concurrent.futures.ThreadPoolExecutor(os.cpu_count()) as pool:
        trials = list(pool.map(lambda s: compare_trials(program, folder, s), seeds))
        ends = list(pool.map(lambda s: compare_end(program, folder, s), range(seeds.start, seeds.start + 160)))
    faults = [text for _, text in trials + ends if text]
    for text in faults[:20]:
        print(text)
    print(f"{sum(n for n, _ in trials)} random instructions alike in registers, flags and memory, {sum(n for n, _ in ends)} ends alike, {len(faults)} images differ")
    sys.exit(bool(faults))
