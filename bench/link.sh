#!/usr/bin/env bash
# Times `demo blocks=100000` and `link` of its file beside GNU as and ld on an assembly text of the same program, as
# compilers write it and with a section for each block, so that ld too places each of them; and prints the growth of
# `link` from 10,000 to 100,000 blocks, and under layouts of 10,000 and 100,000 intervals whose addresses ascend,
# descend or are shuffled. The peers are skipped where they are missing (Debian's binutils-aarch64-linux-gnu). Run it
# after `rt ci`, which leaves the program that is timed, or name a program as the first word.
set -eu
cd "$(dirname "$0")/.."
program=${1:-crates/gtirb_a64/out/gtirb_a64}
[ -x "$program" ] || { echo "bench: $program is missing: run rt ci first"; exit 1; }
work=$(mktemp -d)
trap 'rm -rf "$work"' EXIT
for count in 10000 100000; do
    python3 bench/files.py intervals $count "$work/intervals $count"
done
python3 - "$program" "$work" <<'PY'
import os, random, shutil, sys, time, uuid
program, work = sys.argv[1:]

def best(command, runs=5):
    """The least time, and the peak memory in bytes."""
    times, peak = [], 0
    for _ in range(runs):
        start = time.perf_counter()
        child = os.spawnvp(os.P_NOWAIT, command[0], command)
        _, status, usage = os.wait4(child, 0)
        times.append(time.perf_counter() - start)
        peak = max(peak, usage.ru_maxrss * 1024)
        assert status == 0, command
    return min(times), peak

def assembly(seed, blocks, sections):
    """The demo's program as GNU as reads it, in one section or in one for each block."""
    lines = [".text", ".globl _start", "_start:", "mov x0, #0"]
    for k in range(blocks):
        lines += [f'.section .text.b{k},"ax"'] * sections
        lines += [f"b{k}:", f"add x0, x0, #{(seed + 7 * k) % 4096}", f"b b{k + 1}"]
    return "\n".join(lines + [f"b{blocks}:", "mov x8, #93", "svc #0", ""])

def layout(count, order):
    """A layout text of the intervals that bench/files.py writes, whose addresses are in this order."""
    ranks = list(range(count))
    if order == "descending":
        ranks.reverse()
    elif order == "shuffled":
        random.Random(1).shuffle(ranks)
    interval = lambda k: uuid.UUID(bytes=bytes([4]) * 8 + k.to_bytes(8, "little"))
    return "".join(f"place {interval(k)} {65536 + 16 * ranks[k]}\n" for k in range(count)) + "stack 16777216 65536\n"

os.dup2(os.open(os.devnull, os.O_WRONLY), 2)
links = []
for blocks in (10_000, 100_000):
    file = f"{work}/demo{blocks}"
    demo, _ = best([program, "demo", "seed=7", f"blocks={blocks}", f"out={file}"])
    recode, _ = best([program, "recode", f"in={file}", f"out={work}/copy"])
    check, _ = best([program, "check", f"in={file}"])
    link, peak = best([program, "link", f"in={file}", f"out={work}/image"])
    links.append(link)
    size = os.path.getsize(file)
    print(f"{blocks} blocks ({size / 2**20:.1f} MiB): demo {demo:.2f} s, recode {recode:.2f} s, check {check:.2f} s, link {link:.2f} s, peak memory {peak / size:.1f} times the file")
print(f"growth from 10,000 to 100,000 blocks: {links[1] / links[0]:.1f} times")

for order in ("ascending", "descending", "shuffled"):
    times = []
    for count in (10_000, 100_000):
        open(f"{work}/layout", "w").write(layout(count, order))
        times.append(best([program, "link", f"in={work}/intervals {count}", f"layout={work}/layout", f"out={work}/image"])[0])
    print(f"link under a layout of 10,000 intervals {times[0]:.2f} s, of 100,000 {times[1]:.2f} s, addresses {order}: growth {times[1] / times[0]:.1f} times")

tools = [shutil.which(f"aarch64-linux-gnu-{tool}") for tool in ("as", "ld")]
if None in tools:
    print("beside GNU as and ld: skipped, binutils for aarch64 is missing")
    sys.exit()
for form, sections in (("in one section", False), ("with a section for each block", True)):
    open(f"{work}/demo.s", "w").write(assembly(7, 100_000, sections))
    assembled, _ = best([tools[0], "-o", f"{work}/demo.o", f"{work}/demo.s"], runs=3)
    linked, _ = best([tools[1], "-o", f"{work}/demo.elf", f"{work}/demo.o"], runs=3)
    print(f"100,000 blocks {form}: GNU as {assembled:.2f} s, ld {linked:.2f} s; link is {links[1] / linked:.2f} times ld, {links[1] / (assembled + linked):.2f} times both")
PY
