#!/usr/bin/env bash
# Compares `recode` with protoc on files that protoc makes of text forms: what protoc reads in the file and in
# what `recode` wrote is the same, and `recode` writes the very bytes that protoc makes with sorted maps.
# Run it after `rt ci`, which leaves the program. It is skipped where protoc is missing (Debian's
# protobuf-compiler).
set -eu
cd "$(dirname "$0")/.."
command -v protoc >/dev/null || { echo "peers/recode: skipped, protoc is missing"; exit 0; }
program=${1:-crates/gtirb_a64/out/gtirb_a64}
[ -x "$program" ] || { echo "peers/recode: $program is missing: run rt ci first"; exit 1; }
work=$(mktemp -d)
trap 'rm -rf "$work"' EXIT
python3 peers/texts.py "$work"

# The file of a body, behind a prefix with this version.
with_prefix() { printf 'GTIRB\0\0'"$2"; cat "$1"; }
schema() { protoc -Ipeers "$@" peers/gtirb.proto; }

for case in small:'\004' whole:'\377' large:'\004'; do
    name=${case%%:*} version=${case#*:}
    schema --encode=gtirb.proto.IR <"$work/$name.text" >"$work/body"
    schema --encode=gtirb.proto.IR --deterministic_output <"$work/$name.text" >"$work/sorted"
    with_prefix "$work/body" "$version" >"$work/in"
    with_prefix "$work/sorted" "$version" >"$work/expected"
    "$program" recode in="$work/in" out="$work/out" 2>"$work/note"
    tail -c +9 "$work/out" | schema --decode=gtirb.proto.IR >"$work/after"
    schema --decode=gtirb.proto.IR <"$work/body" >"$work/before"
    cmp "$work/before" "$work/after"
    cmp "$work/expected" "$work/out"
    echo "$name: $(wc -c <"$work/in") bytes, $(wc -l <"$work/before") lines decoded alike before and after, and the bytes of protoc's sorted form"
done
