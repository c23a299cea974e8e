#!/usr/bin/env bash
# Times `run` on loops of 10,000,000 steps beside a plain C interpreter of the same instructions, and prints
# the steps per second of both, their ratio and the peak memory: adds, loads, stores and branches in an image of
# one segment for code and one for data, and of 1,000 segments; the same on stack and data in turn; and a loop of
# HINTs. The last line is the memory that an image of 1,000 small segments over 2 ** 46 addresses takes. Run it after
# `rt ci`; it wants gcc.
set -eu
cd "$(dirname "$0")/.."
program=${1:-crates/gtirb_a64/out/gtirb_a64}
[ -x "$program" ] || { echo "bench: $program is missing: run rt ci first"; exit 1; }
command -v gcc >/dev/null || { echo "bench: gcc is missing, nothing to compare with"; exit 0; }
work=$(mktemp -d)
trap 'rm -rf "$work"' EXIT
gcc -O2 -o "$work/interpreter" bench/plain_interpreter.c
python3 - "$program" "$work/interpreter" "$work" <<'PY'
import os, struct, subprocess, sys, time
program, interpreter, work = sys.argv[1:]
STEPS = 10_000_000
# movz x1, #0x2, lsl #16 and then a loop: ldr x4, [x1]; add x4, x4, #1; str x4, [x1]; ldrb w5, [x1, #8];
# add w6, w5, w4; strh w6, [x1, #16]; ldrsw x7, [x1, #4]; add x8, x8, x7, lsl #2; str w8, [x1, #24];
# subs x9, x4, x8; b.eq 8; cbz x4, 8; b to the start of the loop
MIX = [0xD2A00041, 0xF9400024, 0x91000484, 0xF9000024, 0x39402025, 0x0B0400A6, 0x79002026, 0xB9800427,
       0x8B070908, 0xB9001828, 0xEB080089, 0x54000040, 0xB4000044, 0x17FFFFF4]
# the same start, mov x3, sp, and then a loop: ldr x4, [x1]; add x4, x4, #1; str x4, [x3, #-16]; ldr x5, [x3, #-16];
# str x5, [x1, #8]; ldr x6, [x3, #-32]; add x6, x6, x4; str x6, [x1, #16]; str x6, [x3, #-32]; ldr x7, [x1, #16];
# add x8, x8, x7; b to the start of the loop
TURNS = [0xD2A00041, 0x910003E3, 0xF9400024, 0x91000484, 0xF81F0064, 0xF85F0065, 0xF9000425, 0xF85E0066, 0x8B0400C6,
         0xF9000826, 0xF81E0066, 0xF9400827, 0x8B070108, 0x17FFFFF5]
# fifteen HINTs and a branch to the first
HINTS = [0xD503201F] * 15 + [0x17FFFFF1]

def image(name, code, others):
    """The code at 2 ** 16, data at 2 ** 17 and so many segments more on both sides."""
    write(name, [(0x10000, struct.pack(f"<{len(code)}I", *code)), (0x20000, bytes(4096))]
          + [(0x2000 + 64 * index if index % 2 else 0x40000 + 64 * index, bytes(16)) for index in range(others)])

def write(name, segments):
    with open(f"{work}/{name}", "wb") as file:
        file.write(b"GRIMG001" + struct.pack("<4Q", segments[0][0], 0x1000000, 0x1000, len(segments)))
        for at, held in sorted(segments):
            file.write(struct.pack("<2Q", at, len(held)) + held)

def best(command, runs=5):
    times = []
    for _ in range(runs):
        start = time.perf_counter()
        subprocess.run(command, stderr=subprocess.DEVNULL, stdout=subprocess.DEVNULL)
        times.append(time.perf_counter() - start)
    return min(times)

def steps_only(command):
    """The time of the steps alone: a run of all of them less a run of one."""
    return best(command(STEPS)) - best(command(1))

def peak(command):
    """The most memory of a run in KiB."""
    child = subprocess.Popen(command, stderr=subprocess.DEVNULL, stdout=subprocess.DEVNULL)
    return os.wait4(child.pid, 0)[2].ru_maxrss

LOOPS = (("mix", MIX, 0), ("mix in 1,000 segments", MIX, 998), ("stack and data in turn", TURNS, 0),
         ("stack and data in turn in 1,000 segments", TURNS, 998), ("hints", HINTS, 0))
for name, code, others in LOOPS:
    image(name, code, others)
    note = subprocess.run([program, "run", f"in={work}/{name}", f"out={work}/out", f"steps={STEPS}"], capture_output=True).stderr
    assert note == f"steps={STEPS} running\n".encode(), note
    ours = steps_only(lambda n: [program, "run", f"in={work}/{name}", f"out={work}/out", f"steps={n}"])
    plain = steps_only(lambda n: [interpreter, f"{work}/{name}", str(n)])
    most = peak([program, "run", f"in={work}/{name}", f"out={work}/out", f"steps={STEPS}"])
    print(f"{name}: run {STEPS / ours / 1e6:.1f} million steps a second, plain C {STEPS / plain / 1e6:.1f}, "
          f"{plain / ours:.2f} times its steps, peak memory {most / 1024:.0f} MiB")
write("spread", [(4096 + index * (2 ** 46 // 1000) // 4 * 4, struct.pack("<2I", 0xD503201F, 0x17FFFFFF)) for index in range(1000)])
spread = peak([program, "run", f"in={work}/spread", f"out={work}/out", "steps=1000"])
print(f"1,000 segments over 2 ** 46 addresses: peak memory {spread / 1024:.0f} MiB")
PY
