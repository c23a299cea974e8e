#!/usr/bin/env bash
# Times `recode` on files that are made to cost much and are then refused: very many empty messages, packed numbers, maps
# whose entries all have one key, payloads that are forgotten, long texts, and messages as deep as the schema goes. Prints
# for each the answer, the time beside that of `recode` of a good file of the same size, peak memory, and both of
# libprotobuf's parse of the same bytes, which asks for less: it takes messages without identifiers. Times are those of the
# processor. No program gets more than 12 GiB. Run it after `rt ci`, which leaves the program that is timed, or name a
# program as the first word; a second word is the files' size in MiB (64 unless said), a third a part of the names of the
# kinds that are tried. libprotobuf is passed over where protoc, g++ or libprotobuf-dev is missing.
set -eu
cd "$(dirname "$0")/.."
program=${1:-crates/gtirb_a64/out/gtirb_a64}
[ -x "$program" ] || { echo "bench: $program is missing: run rt ci first"; exit 1; }
work=$(mktemp -d)
trap 'rm -rf "$work"' EXIT
if command -v protoc g++ >/dev/null; then
    protoc -Ipeers --cpp_out="$work" peers/gtirb.proto
    g++ -O2 -std=c++17 -I"$work" bench/protobuf_recode.cpp "$work/gtirb.pb.cc" -lprotobuf -o "$work/peer" 2>/dev/null || true
fi
[ -x "$work/peer" ] || echo "bench/hostile: libprotobuf skipped, protoc, g++ or libprotobuf-dev is missing"
python3 - "$program" "$work" "${2:-64}" "${3:-}" <<'PY'
import os, resource, subprocess, sys
program, work, size, wanted = sys.argv[1], sys.argv[2], int(sys.argv[3]) << 20, sys.argv[4]
sys.path.insert(0, "bench")
from files import identifier, many_nodes, number, run
MOST = 12 << 30

def limited():
    resource.setrlimit(resource.RLIMIT_AS, (MOST, MOST))

def once(command):
    """The status, the line on standard error, the processor time and the peak memory in bytes."""
    child = subprocess.Popen(command, stdout=subprocess.DEVNULL, stderr=subprocess.PIPE, preexec_fn=limited)
    line = child.stderr.read().decode(errors="replace").strip()
    _, status, usage = os.wait4(child.pid, 0)
    return os.waitstatus_to_exitcode(status), line, usage.ru_utime + usage.ru_stime, usage.ru_maxrss * 1024

def inside(body, *parents):
    """A file with this in the messages of these fields, each with an identifier; the file's own, its last record, is a byte too short."""
    for index, field in enumerate(parents):
        body = run(field, run(1, identifier(8, index)), body)
    return b"GTIRB\0\0\4" + body + number(6, 4) + run(1, bytes(15))

def many(unit):
    """So many of these bytes that the file has about the size."""
    return unit * ((size - 256) // len(unit))

def nest(*fields):
    """A message in a message, by these fields from the outermost, and nothing in the innermost."""
    inner = b""
    for field in reversed(fields):
        inner = run(field, inner)
    return inner

MODULE, CFG, SYMBOL, SECTION, INTERVAL, BLOCK, CODE, DATA = 3, 7, 9, 12, 5, 2, 2, 3
KINDS = {
    "empty modules": lambda: inside(many(nest(MODULE))),
    "empty sections": lambda: inside(many(nest(SECTION)), MODULE),
    "empty symbols": lambda: inside(many(nest(SYMBOL)), MODULE),
    "empty proxies": lambda: inside(many(nest(16)), MODULE),
    "empty intervals": lambda: inside(many(nest(INTERVAL)), SECTION, MODULE),
    "empty blocks": lambda: inside(many(nest(BLOCK)), INTERVAL, SECTION, MODULE),
    "empty edges": lambda: inside(many(nest(2)), CFG),
    "empty vertices": lambda: inside(many(nest(3)), CFG),
    "a cfg in many pieces": lambda: inside(many(nest(CFG))),
    "packed numbers": lambda: inside(run(6, many(b"\1")), SECTION, MODULE),
    "numbers one by one": lambda: inside(many(number(6, 1)), SECTION, MODULE),
    "versions of ten bytes": lambda: inside(many(b"\x30\x84" + b"\x80" * 8 + b"\0")),
    "expressions of one key": lambda: inside(many(nest(3)), INTERVAL, SECTION, MODULE),
    "tables of one key": lambda: inside(many(nest(5))),
    "tables of one key with bytes": lambda: inside(many(run(5, run(1, b"key"), run(2, run(2, bytes(64)))))),
    "forgotten blocks": lambda: inside(run(BLOCK, many(nest(CODE) + nest(DATA)), run(DATA, run(1, identifier(9, 0)))), INTERVAL, SECTION, MODULE),
    "forgotten referents": lambda: inside(run(SYMBOL, run(1, identifier(9, 0)), many(run(5) + number(2, 1))), MODULE),
    "unknown fields": lambda: inside(many(number(15, 0))),
    "a text": lambda: inside(run(7, many(b"a")), MODULE),
    "a text that ends wrong": lambda: inside(run(7, many(b"a") + b"\xff"), MODULE),
    "nests of expressions": lambda: inside(many(nest(MODULE, SECTION, INTERVAL, 3, 2, 2))),
    "nests of blocks": lambda: inside(many(nest(MODULE, SECTION, INTERVAL, BLOCK, CODE))),
}

with open(f"{work}/good", "wb") as good:
    good.write(b"GTIRB\0\0\4" + many_nodes(size))
peer = [f"{work}/peer"] if os.path.exists(f"{work}/peer") else []

def theirs(name):
    """What libprotobuf's parse takes, if it is there."""
    if not peer:
        return ""
    status, _, took, peak = once([*peer, f"{work}/{name}"])
    return f"; libprotobuf {'takes it' if status == 0 else 'refuses it' if status == 1 else 'fails'} in {took:.2f} s, {peak / size:.1f} times the file"

status, line, recode, peak = once([program, "recode", f"in={work}/good", f"out={work}/copy"])
assert status == 0, line
print(f"a good file: {line}, {recode:.2f} s, peak memory {peak / size:.1f} times the file{theirs('good')}", flush=True)
for name, make in KINDS.items():
    if wanted not in name:
        continue
    with open(f"{work}/refused", "wb") as refused:
        refused.write(make())
    status, line, took, peak = once([program, "recode", f"in={work}/refused", f"out={work}/copy"])
    print(f"{name}: {status} {line}, {took:.2f} s, {took / recode:.1f} times the good file; peak memory {peak / size:.1f} times the file{theirs('refused')}", flush=True)
PY
