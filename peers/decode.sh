#!/usr/bin/env bash
# Compares which words the program decodes with objdump: each row of instructions, each field at its corners, each
# reserved case. Run it after `rt ci`, which leaves the program. It is skipped where aarch64-linux-gnu-objdump is
# missing (Debian's binutils-aarch64-linux-gnu).
set -eu
cd "$(dirname "$0")/.."
command -v aarch64-linux-gnu-objdump >/dev/null || { echo "peers/decode: skipped, aarch64-linux-gnu-objdump is missing"; exit 0; }
program=${1:-crates/gtirb_a64/out/gtirb_a64}
[ -x "$program" ] || { echo "peers/decode: $program is missing: run rt ci first"; exit 1; }
work=$(mktemp -d)
trap 'rm -rf "$work"' EXIT
python3 peers/words.py "$program" "$work"
