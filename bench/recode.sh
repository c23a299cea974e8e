#!/usr/bin/env bash
# Times `recode` beside a program over libprotobuf that parses and serializes the same files, and prints
# for each file both times, their ratio, and peak memory as a multiple of the file. Run it after `rt ci`, which
# leaves the program that is timed. It is skipped where protoc, g++ or libprotobuf-dev is missing.
set -eu
cd "$(dirname "$0")/.."
program=${1:-crates/gtirb_a64/out/gtirb_a64}
[ -x "$program" ] || { echo "bench: $program is missing: run rt ci first"; exit 1; }
command -v protoc g++ >/dev/null || { echo "bench/recode: skipped, protoc or g++ is missing"; exit 0; }
work=$(mktemp -d)
trap 'rm -rf "$work"' EXIT
protoc -Ipeers --cpp_out="$work" peers/gtirb.proto
g++ -O2 -std=c++17 -I"$work" bench/protobuf_recode.cpp "$work/gtirb.pb.cc" -lprotobuf -o "$work/peer" 2>/dev/null ||
    { echo "bench/recode: skipped, libprotobuf-dev is missing"; exit 0; }
mebibyte=1048576
python3 bench/files.py nodes $((8 * mebibyte)) "$work/nodes of 8 MiB"
python3 bench/files.py nodes $((64 * mebibyte)) "$work/nodes of 64 MiB"
python3 bench/files.py contents $((64 * mebibyte)) "$work/contents of 64 MiB"
python3 - "$program" "$work" <<'PY'
import filecmp, os, resource, subprocess, sys, time
program, work = sys.argv[1:]

def best(command, runs=5):
    """The least time, and the peak memory in bytes."""
    times, peak = [], 0
    for _ in range(runs):
        start = time.perf_counter()
        child = os.spawnv(os.P_NOWAIT, command[0], command)
        _, status, usage = os.wait4(child, 0)
        times.append(time.perf_counter() - start)
        peak = max(peak, usage.ru_maxrss * 1024)
        assert status == 0, command
    return min(times), peak

os.dup2(os.open(os.devnull, os.O_WRONLY), 2)
for name in ("nodes of 8 MiB", "nodes of 64 MiB", "contents of 64 MiB"):
    file = f"{work}/{name}"
    size = os.path.getsize(file)
    peer, peer_peak = best([f"{work}/peer", file, f"{work}/theirs"])
    ours, our_peak = best([program, "recode", f"in={file}", f"out={work}/ours"])
    assert filecmp.cmp(f"{work}/theirs", f"{work}/ours", shallow=False), name
    print(f"{name}: libprotobuf {peer:.2f} s, recode {ours:.2f} s, ratio {ours / peer:.2f}; peak memory {our_peak / size:.1f} times the file, libprotobuf's {peer_peak / size:.1f}; the same bytes")
PY
