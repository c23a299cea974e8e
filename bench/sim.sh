#!/usr/bin/env bash
# Times `sim` beside `run` of the linked image: on the demo of 100,000 blocks, on a loop over stack and data, and on one
# that stores and loads addresses; prints the steps per second of both and their ratio. The last line is the peak memory
# of `sim` with a stack of 2 ** 24 bytes less 4096, since what is loaded counts too. Run it after `rt ci`, or name a program as the first word.
set -eu
cd "$(dirname "$0")/.."
program=${1:-crates/gtirb_a64/out/gtirb_a64}
[ -x "$program" ] || { echo "bench: $program is missing: run rt ci first"; exit 1; }
work=$(mktemp -d)
trap 'rm -rf "$work"' EXIT
python3 - "$program" "$work" <<'PY'
import os, re, struct, subprocess, sys, time
program, work = sys.argv[1:]
sys.path.insert(0, "bench")
from files import identifier, number, run
STEPS = 5_000_000
# adrp x1, data; add x1, x1, :lo12:data; mov x3, sp
START = [0x90000001, 0x91000021, 0x910003E3]
# a loop: ldr x4, [x1]; add x4, x4, #1; str x4, [x3, #-16]; ldr x5, [x3, #-16]; str x5, [x1, #8]; ldr x6, [x3, #-32];
# add x6, x6, x4; str x6, [x1, #16]; str x6, [x3, #-32]; ldr x7, [x1, #16]; add x8, x8, x7; b to its start
TURNS = [0xF9400024, 0x91000484, 0xF81F0064, 0xF85F0065, 0xF9000425, 0xF85E0066, 0x8B0400C6, 0xF9000826, 0xF81E0066,
         0xF9400827, 0x8B070108, 0x14000000]
# a loop: str x1, [x3, #-16]; ldr x5, [x3, #-16]; ldr x4, [x5]; add x4, x4, #1; str x4, [x5]; stp x1, x3, [x3, #-32];
# ldp x6, x7, [x3, #-32]; subs x9, x6, x5; b.ne to its start; b to its start
ADDRESSES = [0xF81F0061, 0xF85F0065, 0xF94000A4, 0x91000484, 0xF90000A4, 0xA93E0C61, 0xA97E1C66, 0xEB0500C9, 0x54000001,
             0x14000000]

def module(loop):
    """A program of a start, a loop whose branches lead to its own start, and 64 bytes of data."""
    words = START + loop
    code, data, start, again = identifier(4, 0), identifier(4, 1), identifier(1, 0), identifier(1, 1)
    branches = [index for index in range(len(START), len(words)) if words[index] in (0x54000001, 0x14000000)]
    names = [(0, 1), (4, 1)] + [(4 * index, 0) for index in branches]
    expressions = [run(3, number(1, at), run(2, run(2, run(2, identifier(2, symbol))))) for at, symbol in names]
    blocks = [run(2, number(1, 0), run(2, run(1, start), number(3, 4 * len(START)))),
              run(2, number(1, 4 * len(START)), run(2, run(1, again), number(3, 4 * len(loop))))]
    text = run(5, run(1, code), *blocks, *expressions, number(6, 4 * len(words)), run(7, struct.pack(f"<{len(words)}I", *words)))
    held = run(5, run(1, data), run(2, number(1, 0), run(3, run(1, identifier(1, 2)), number(3, 64))), number(6, 64), run(7, bytes(64)))
    symbols = [run(9, run(1, identifier(2, index)), run(3, name), run(5, block)) for index, (name, block) in enumerate(((b"again", again), (b"data", identifier(1, 2))))]
    sections = [run(12, run(1, identifier(5, index)), run(2, name), interval, number(6, 4)) for index, (name, interval) in enumerate(((b".text", text), (b".data", held)))]
    return b"GTIRB\0\0\4" + run(1, identifier(6, 0)) + run(3, run(1, identifier(3, 0)), number(6, 7), *symbols, *sections, run(18, start), number(19, 2)) + number(6, 4)

def call(job, *words):
    done = subprocess.run([program, job, *words], capture_output=True, text=True)
    assert done.returncode == 0, (job, words, done.stderr)
    return done.stderr.strip()

def best(command, runs=3):
    times = []
    for _ in range(runs):
        start = time.perf_counter()
        subprocess.run(command, stderr=subprocess.DEVNULL, stdout=subprocess.DEVNULL)
        times.append(time.perf_counter() - start)
    return min(times)

def a_second(job, name, steps):
    """The steps a second: a run of all of them less a run of one."""
    command = lambda n: [program, job, f"in={work}/{name}", f"out={work}/out", f"steps={n}"]
    return steps / (best(command(steps)) - best(command(1)))

def peak(command):
    """The most memory of a run in MiB."""
    child = subprocess.Popen(command, stderr=subprocess.DEVNULL, stdout=subprocess.DEVNULL)
    return os.wait4(child.pid, 0)[2].ru_maxrss / 1024

call("demo", "seed=7", "blocks=100000", f"out={work}/demo")
for name, loop in (("turns", TURNS), ("addresses", ADDRESSES)):
    with open(f"{work}/{name}", "wb") as file:
        file.write(module(loop))
LINES = (("demo of 100,000 blocks", "demo"), ("stack and data in turn", "turns"), ("addresses stored and loaded", "addresses"))
for title, name in LINES:
    call("link", f"in={work}/{name}", f"out={work}/{name}.image")
    note = call("sim", f"in={work}/{name}", f"out={work}/out", f"steps={STEPS}")
    assert note == call("run", f"in={work}/{name}.image", f"out={work}/out", f"steps={STEPS}"), note
    steps = int(re.match(r"steps=(\d+) ", note)[1])
    sim, plain = a_second("sim", name, steps), a_second("run", f"{name}.image", steps)
    print(f"{title}: sim {sim / 1e6:.2f} million steps a second, run {plain / 1e6:.1f}, {plain / sim:.1f} times as many")
call("layout", f"in={work}/turns", f"out={work}/layout")
text = open(f"{work}/layout").read()
with open(f"{work}/layout", "w") as file:
    file.write(re.sub(r"^stack (\S+) \S+$", r"stack \1 0xfff000", text, flags=re.M))
large = [program, "sim", f"in={work}/turns", f"layout={work}/layout", f"out={work}/out", "steps=1000000"]
call(*large[1:])
print(f"a stack of 2 ** 24 bytes less 4096: peak memory {peak(large):.0f} MiB")
PY
