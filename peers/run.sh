#!/usr/bin/env bash
# Compares `run` with qemu's user mode: random instruction words of each row, with registers, flags and memory filled,
# system calls and branches among them, and how runs end. Run it after `rt ci`, which leaves the program, or name the
# program; a second argument is the seed. It is skipped where qemu-aarch64 is missing (Debian's qemu-user).
set -eu
ulimit -c 0
cd "$(dirname "$0")/.."
command -v qemu-aarch64 >/dev/null || { echo "peers/run: skipped, qemu-aarch64 is missing"; exit 0; }
program=${1:-crates/gtirb_a64/out/gtirb_a64}
[ -x "$program" ] || { echo "peers/run: $program is missing: run rt ci first"; exit 1; }
work=$(mktemp -d)
trap 'rm -rf "$work"' EXIT
python3 peers/runs.py "$program" "$work" "${2:-1}"
