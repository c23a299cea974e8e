#!/usr/bin/env bash
# Refuses each allocation of each job in turn, alone and with all that follow, on two examples, and tries what the program
# then does: it answers that memory ran out, or what it answers else; no file changes before the job writes, and the output
# is then as before or holds the first bytes of what the job writes. Run it after `rt ci`, which leaves the program, or name
# the program; a second word is the most allocations of one job that are refused (the rest is spread evenly; all unless
# said). It is skipped where gcc is missing.
set -eu
cd "$(dirname "$0")/.."
command -v gcc >/dev/null || { echo "peers/allocations: skipped, gcc is missing"; exit 0; }
program=${1:-crates/gtirb_a64/out/gtirb_a64}
[ -x "$program" ] || { echo "peers/allocations: $program is missing: run rt ci first"; exit 1; }
work=$(mktemp -d)
trap 'rm -rf "$work"' EXIT
gcc -O2 -shared -fPIC peers/refused.c -o "$work/refused.so"
python3 peers/allocations.py "$(realpath "$program")" "$work" "${2:-0}"
