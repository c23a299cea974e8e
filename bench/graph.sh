#!/usr/bin/env bash
# Times `check module=9` of files that have fewer modules: the file is read, linked up to a graph, and refused by
# the module's number. Prints the time beside that of `recode` of the same file, and the growth from 8 to 64 MiB.
# Run it after `rt ci`, which leaves the program that is timed, or name a program as the first word.
set -eu
cd "$(dirname "$0")/.."
program=${1:-crates/gtirb_a64/out/gtirb_a64}
[ -x "$program" ] || { echo "bench: $program is missing: run rt ci first"; exit 1; }
work=$(mktemp -d)
trap 'rm -rf "$work"' EXIT
mebibyte=1048576
python3 bench/files.py nodes $((8 * mebibyte)) "$work/nodes of 8 MiB"
python3 bench/files.py nodes $((64 * mebibyte)) "$work/nodes of 64 MiB"
python3 - "$program" "$work" <<'PY'
import os, resource, subprocess, sys, time
program, work = sys.argv[1:]

def best(command, refused, runs=5):
    """The least time, and the peak memory in bytes."""
    times, peak = [], 0
    for _ in range(runs):
        start = time.perf_counter()
        child = os.spawnv(os.P_NOWAIT, command[0], command)
        _, status, usage = os.wait4(child, 0)
        times.append(time.perf_counter() - start)
        peak = max(peak, usage.ru_maxrss * 1024)
        assert (status != 0) == refused, command
    return min(times), peak

os.dup2(os.open(os.devnull, os.O_WRONLY), 2)
graphs = []
for name in ("nodes of 8 MiB", "nodes of 64 MiB"):
    file = f"{work}/{name}"
    size = os.path.getsize(file)
    recode, _ = best([program, "recode", f"in={file}", f"out={work}/copy"], refused=False)
    graph, peak = best([program, "check", f"in={file}", "module=9"], refused=True)
    graphs.append(graph)
    print(f"{name}: recode {recode:.2f} s, check up to the module's number {graph:.2f} s, ratio {graph / recode:.2f}; peak memory {peak / size:.1f} times the file")
print(f"growth from 8 to 64 MiB: {graphs[1] / graphs[0]:.1f} times")
PY
