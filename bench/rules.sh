#!/usr/bin/env bash
# The time of one question whether a key may sign, at the end of a way over 16 hosts and under
# constraints that name 961 host keys, beside nothing else. The argument is how often it is asked,
# 20000 times where there is none. `rt ci` builds the program, and so does `rt run -- rules 1` in
# crates/bench_tool.
set -eu
cd "$(dirname "$0")/.."
program=crates/bench_tool/out/bench_tool
times=${1:-20000}
[ -x "$program" ] || { echo "bench: $program is not built" >&2; exit 1; }

start=$EPOCHREALTIME
"$program" rules 1 > /dev/null
begun=$EPOCHREALTIME
"$program" rules "$times" > /dev/null
awk -v start="$start" -v begun="$begun" -v end="$EPOCHREALTIME" -v times="$times" 'BEGIN {
    printf "may_sign over 16 bindings and 961 keys: %.1f us\n",
        1e6 * ((end - begun) - (begun - start)) / (times - 1)
}'
