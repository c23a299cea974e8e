#!/usr/bin/env bash
# Compares the words that GNU as makes of printed lines with the words that were printed: a million random words of all
# rows, or as many as the second word says. Run it after `rt ci`, which leaves the program, or name a program as the first
# word. It is skipped where aarch64-linux-gnu-as is missing (Debian's binutils-aarch64-linux-gnu).
set -eu
cd "$(dirname "$0")/.."
command -v aarch64-linux-gnu-as aarch64-linux-gnu-objcopy >/dev/null || { echo "peers/gas: skipped, aarch64-linux-gnu-as is missing"; exit 0; }
program=${1:-crates/gtirb_a64/out/gtirb_a64}
[ -x "$program" ] || { echo "peers/gas: $program is missing: run rt ci first"; exit 1; }
work=$(mktemp -d)
trap 'rm -rf "$work"' EXIT
python3 peers/gas.py "$program" "$work" "${2:-1000000}"
