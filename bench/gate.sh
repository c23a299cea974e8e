#!/usr/bin/env bash
# Runs the gate on a clean copy of what is committed, and prints the minute at which each of its lines came (a crate
# proved, its edits tried, its tests and programs run), and at the end the processor minutes of the whole.
set -eu
cd "$(dirname "$0")/.."
command -v rt >/dev/null || { echo "bench/gate: the Rattle kit's rt is not on the path"; exit 0; }
work=$(mktemp -d)
trap 'rm -rf "$work"' EXIT
git clone -q . "$work/repository"
cd "$work/repository"
python3 - <<'PY'
import os, re, resource, subprocess, sys, time

start = time.time()
gate = subprocess.Popen(["rt", "ci"], stdout=subprocess.PIPE, stderr=subprocess.STDOUT, text=True)
for line in gate.stdout:
    if line.startswith("rt:") or re.match(r"\d+ passed", line):
        print(f"{(time.time() - start) / 60:6.1f} {line.rstrip()}", flush=True)
status = gate.wait()
used = resource.getrusage(resource.RUSAGE_CHILDREN)
print(f"{(used.ru_utime + used.ru_stime) / 60:.0f} processor minutes on {os.cpu_count()} processors")
sys.exit(status)
PY
