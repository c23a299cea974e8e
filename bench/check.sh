#!/usr/bin/env bash
# Times `check` of programs of 100,000 blocks, symbols and expressions with two tables of 10^5 and 10^6 entries in all,
# beside `recode` of the same file, and prints the growth. The same with tables that aren't sorted, and with the blocks in
# descending order and all at one offset. Run it after `rt ci`, which leaves the program that is timed, or name a program as the first word.
set -eu
cd "$(dirname "$0")/.."
program=${1:-crates/gtirb_a64/out/gtirb_a64}
[ -x "$program" ] || { echo "bench: $program is missing: run rt ci first"; exit 1; }
work=$(mktemp -d)
trap 'rm -rf "$work"' EXIT
for kind in program unsorted-tables descending one-offset; do
    for entries in 100000 1000000; do
        python3 bench/files.py "$kind" "$entries" "$work/$kind $entries"
    done
done
python3 - "$program" "$work" <<'PY'
import os, sys, time
program, work = sys.argv[1:]

def best(command, runs=5):
    """The least time, and the peak memory in bytes."""
    times, peak = [], 0
    for _ in range(runs):
        start = time.perf_counter()
        child = os.spawnv(os.P_NOWAIT, command[0], command)
        _, status, usage = os.wait4(child, 0)
        times.append(time.perf_counter() - start)
        peak = max(peak, usage.ru_maxrss * 1024)
        assert status == 0, command
    return min(times), peak

os.dup2(os.open(os.devnull, os.O_WRONLY), 2)
for kind in ("program", "unsorted-tables", "descending", "one-offset"):
    checks = []
    for entries in (100000, 1000000):
        file = f"{work}/{kind} {entries}"
        size = os.path.getsize(file)
        recode, _ = best([program, "recode", f"in={file}", f"out={work}/copy"])
        check, peak = best([program, "check", f"in={file}"])
        checks.append(check)
        print(f"{kind}, tables of {entries} entries ({size >> 20} MiB): recode {recode:.2f} s, check {check:.2f} s, ratio {check / recode:.2f}; peak memory {peak / size:.1f} times the file")
    print(f"{kind}: growth from 10^5 to 10^6 entries {checks[1] / checks[0]:.1f} times")
PY
