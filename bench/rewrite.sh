#!/usr/bin/env bash
# Times `rewrite` of the demo's file of 100,000 blocks beside `recode` of the same file: without a patch, and with an
# insert in 10,000 and in 100,000 blocks, at their starts, inside them, and inside them in a shuffled order. Prints the
# growth from 10,000 inserts to 100,000, and peak memory. Times are those of the processor, since the program has one
# thread. Run it after `rt ci`, which leaves the program that is timed, or name a program as the first word.
set -eu
cd "$(dirname "$0")/.."
program=${1:-crates/gtirb_a64/out/gtirb_a64}
[ -x "$program" ] || { echo "bench: $program is missing: run rt ci first"; exit 1; }
work=$(mktemp -d)
trap 'rm -rf "$work"' EXIT
python3 - "$program" "$work" <<'PY'
import os, random, sys
program, work = sys.argv[1:]
BLOCKS = 100_000
file = f"{work}/demo"

def best(*words, runs=3):
    """The least processor time of the job, and the peak memory in bytes."""
    times, peak = [], 0
    for _ in range(runs):
        child = os.spawnv(os.P_NOWAIT, program, [program, *words])
        _, status, usage = os.wait4(child, 0)
        times.append(usage.ru_utime + usage.ru_stime)
        peak = max(peak, usage.ru_maxrss * 1024)
        assert status == 0, words
    return min(times), peak

def patch(inserts, offset, shuffled):
    """Inserts of one HINT at this offset of so many blocks, all of which have a label."""
    labels = [f"b{k}" for k in range(1, inserts + 1)]
    if shuffled:
        random.Random(1).shuffle(labels)
    return "".join(f"insert {label} {offset}\n    hint #0\nend\n" for label in labels)

def rewrite(title, *words):
    took, peak = best("rewrite", f"in={file}", f"out={work}/rewritten", *words)
    print(f"{title}: rewrite {took:.2f} s, {took / recode:.1f} times recode; peak memory {peak / size:.1f} times the file")
    return took

os.dup2(os.open(os.devnull, os.O_WRONLY), 2)
best("demo", "seed=7", f"blocks={BLOCKS}", f"out={file}", runs=1)
size = os.path.getsize(file)
recode, peak = best("recode", f"in={file}", f"out={work}/copy")
print(f"demo of {BLOCKS} blocks ({size / 2**20:.1f} MiB): recode {recode:.2f} s, peak memory {peak / size:.1f} times the file")
rewrite("no patch")
for title, offset, shuffled in (("at starts", 0, False), ("inside blocks", 4, False), ("inside blocks, shuffled", 4, True)):
    times = []
    for inserts in (10_000, 100_000):
        with open(f"{work}/patch", "w") as text:
            text.write(patch(inserts, offset, shuffled))
        times.append(rewrite(f"{inserts} inserts {title}", f"patch={work}/patch"))
    print(f"growth from 10,000 inserts to 100,000, {title}: {times[1] / times[0]:.1f} times")
PY
