#!/usr/bin/env bash
# Asks that are put to a link and answered, for each second, beside a Python dict that does the same:
# requests are appended and kept by their number, which each answer is looked up by. The argument is
# the number of batches of 256 asks, 20000 where there is none. Needs python3; `rt ci` builds the
# program, and so does `rt run -- link 1` in crates/bench_tool.
set -eu
cd "$(dirname "$0")/.."
program=crates/bench_tool/out/bench_tool
batches=${1:-20000}
[ -x "$program" ] || { echo "bench: $program is not built" >&2; exit 1; }

start=$EPOCHREALTIME
"$program" link "$batches" > /dev/null
took=$(awk -v from="$start" -v to="$EPOCHREALTIME" 'BEGIN { printf "%.6f", to - from }')

python3 - "$batches" "$took" <<'PYTHON'
import struct, sys, time

batches, took = int(sys.argv[1]), float(sys.argv[2])
few = max(1, batches // 20)

start = time.perf_counter()
last, asks, owed = 0, {}, bytearray()
for _ in range(few):
    stream = bytearray()
    for _ in range(256):
        last += 1
        asks[last] = 1
        strings = b"".join(struct.pack(">I", 1) + text for text in (b"\x01", b"\x02", b"\x03"))
        body = struct.pack(">BQ", 2, last) + strings
        owed += struct.pack(">I", len(body)) + body
        stream += struct.pack(">IBQ", 9, 103, last)
    owed.clear()
    at, settled = 0, []
    while at + 4 <= len(stream):
        length, = struct.unpack_from(">I", stream, at)
        kind, number = struct.unpack_from(">BQ", stream, at + 4)
        settled.append((asks.pop(number), kind))
        at += 4 + length
theirs = few * 256 / (time.perf_counter() - start)
ours = batches * 256 / took
print(f"link: {ours:.0f} asks and answers per second, "
      f"a dict of Python {theirs:.0f}, ratio {ours / theirs:.2f}")
PYTHON
