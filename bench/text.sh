#!/usr/bin/env bash
# Times `print` of the demo's file of 10,000 and 100,000 blocks beside objdump -d of the same code, with its labels (once
# only, since objdump takes long with many of them) and stripped; and `assemble` of what was printed beside GNU as of an
# equal text and beside as and ld together, since `assemble` writes what runs. Prints the growth, peak memory, and
# whether `assemble` gives the image that `link` makes of the file. Times are those of the processor. A job that the
# program doesn't have is passed over, and so are peers that are missing (Debian's binutils-aarch64-linux-gnu). Run it
# after `rt ci`, which leaves the program that is timed, or name a program as the first word.
set -eu
cd "$(dirname "$0")/.."
program=${1:-crates/gtirb_a64/out/gtirb_a64}
[ -x "$program" ] || { echo "bench: $program is missing: run rt ci first"; exit 1; }
work=$(mktemp -d)
trap 'rm -rf "$work"' EXIT
python3 - "$program" "$work" <<'PY'
import filecmp, os, shutil, subprocess, sys
program, work = sys.argv[1:]
COUNTS = (10_000, 100_000)
tools = {tool: shutil.which(f"aarch64-linux-gnu-{tool}") for tool in ("as", "ld", "objdump")}

def best(command, output=os.devnull, runs=3):
    """The least processor time of a command whose standard output goes to a file, and the peak memory in bytes."""
    times, peak = [], 0
    for _ in range(runs):
        opened = [(os.POSIX_SPAWN_OPEN, 1, output, os.O_WRONLY | os.O_CREAT | os.O_TRUNC, 0o644)]
        child = os.posix_spawn(command[0], command, os.environ, file_actions=opened)
        _, status, usage = os.wait4(child, 0)
        times.append(usage.ru_utime + usage.ru_stime)
        peak = max(peak, usage.ru_maxrss * 1024)
        assert status == 0, command
    return min(times), peak

def has(job):
    """Whether the program has this job: of one that it has, what is at fault is the words that are missing."""
    return subprocess.run([program, job], capture_output=True).stderr == b"usage: word 1\n"

def assembly(blocks):
    """The demo's program as GNU as reads it."""
    lines = [".text", ".globl _start", "_start:", "movz x0, #0"]
    for k in range(blocks):
        lines += [f"b{k}:", f"add x0, x0, #{(7 + 7 * k) % 4096}", f"b b{k + 1}"]
    return "\n".join(lines + [f"b{blocks}:", "movz x8, #93", "svc #0", ""])

def growth(job, times):
    print(f"{job}: growth from 10,000 to 100,000 blocks {times[1] / times[0]:.1f} times")

def beside(ours, name, theirs):
    return f"{name} {theirs:.2f} s, ratio {ours / theirs:.1f}"

os.dup2(os.open(os.devnull, os.O_WRONLY), 2)
missing = [job for job in ("print", "assemble") if not has(job)]
for job in missing:
    print(f"{job}: skipped, the program doesn't have it")
if "print" in missing:
    sys.exit()
absent = [name for name, tool in tools.items() if tool is None]
if absent:
    print(f"beside GNU {', '.join(absent)}: skipped, binutils for aarch64 is missing")
prints, assembles = [], []
for count in COUNTS:
    file, text = f"{work}/demo", f"{work}/printed"
    best([program, "demo", "seed=7", f"blocks={count}", f"out={file}"], runs=1)
    took, peak = best([program, "print", f"in={file}", f"out={text}"])
    prints.append(took)
    size, written = os.path.getsize(file), os.path.getsize(text)
    print(f"print of {count} blocks ({size / 2**20:.1f} MiB to {written / 2**20:.1f} MiB of text): {took:.2f} s, peak memory {peak / size:.1f} times the file")
    if not absent:
        with open(f"{work}/demo.s", "w") as source:
            source.write(assembly(count))
        as_time, _ = best([tools["as"], "-o", f"{work}/demo.o", f"{work}/demo.s"])
        ld_time, _ = best([tools["ld"], "-o", f"{work}/demo.elf", f"{work}/demo.o"])
        best([tools["ld"], "-s", "-o", f"{work}/stripped.elf", f"{work}/demo.o"], runs=1)
        bare_time, _ = best([tools["objdump"], "-d", f"{work}/stripped.elf"], f"{work}/dumped")
        dump_time, _ = best([tools["objdump"], "-d", f"{work}/demo.elf"], f"{work}/dumped", runs=1)
        print(f"    {beside(took, 'objdump -d with labels', dump_time)}; {beside(took, 'without labels', bare_time)}; {os.path.getsize(f'{work}/dumped') / 2**20:.1f} MiB of text")
    if "assemble" in missing:
        continue
    took, peak = best([program, "assemble", f"in={text}", f"out={work}/assembled"])
    assembles.append(took)
    best([program, "link", f"in={file}", f"out={work}/linked"], runs=1)
    same = filecmp.cmp(f"{work}/assembled", f"{work}/linked", shallow=False)
    print(f"assemble of {count} blocks: {took:.2f} s, peak memory {peak / written:.1f} times the text; {'the' if same else 'NOT the'} image that link makes")
    if not absent:
        print(f"    {beside(took, 'GNU as', as_time)}; {beside(took, 'as and ld', as_time + ld_time)}")
growth("print", prints)
if assembles:
    growth("assemble", assembles)
PY
