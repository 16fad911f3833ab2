#!/usr/bin/env bash
# Bytes per second through a ScrubBuf and through a plain Vec, and their ratio. The argument is the
# number of pieces of 16 KiB, 200000 where there is none. `rt ci` builds the program, and so does
# `rt run -- buffer 1` in crates/bench_tool.
set -eu
cd "$(dirname "$0")/.."
program=crates/bench_tool/out/bench_tool
pieces=${1:-200000}
[ -x "$program" ] || { echo "bench: $program is not built" >&2; exit 1; }

# The bytes per second of one kind.
rate() {
    local start=$EPOCHREALTIME
    "$program" "$1" "$pieces" > /dev/null
    awk -v from="$start" -v to="$EPOCHREALTIME" -v bytes=$((pieces * 16384)) \
        'BEGIN { printf "%.0f", bytes / (to - from) }'
}

buffer=$(rate buffer)
vector=$(rate vector)
echo "buffer: $buffer bytes per second"
echo "vector: $vector bytes per second"
awk -v buffer="$buffer" -v vector="$vector" 'BEGIN { printf "ratio: %.2f\n", buffer / vector }'
