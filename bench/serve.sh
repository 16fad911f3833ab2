#!/usr/bin/env bash
# What the serving agent takes for its answers, beside OpenSSH's ssh-agent and beside an agent that answers five bytes
# whatever comes: processor time for each refusal, list, signature, addition and removal, memory, system calls,
# instructions and allocations. Rounds take turns; the median of them is printed, and the ratio to ssh-agent's in the same
# run. The first word is the number of rounds, 7 where there is none; behind it may stand the parts that are to be
# measured, of refusals, calls, keys, memory, waits, signatures, filter, records and instructions, which has the
# allocations too.
# Needs python3, gcc and OpenSSH; perf and valgrind where they are.
# Before each part stands a line of the machine's load. `bench/serve.sh 7 refusals calls signatures` has what a refusal and
# a signature take, in time and calls, at 1, 16 and 100 clients.
# With the environment variable AGENT another program is taken for the agent; with PLOTS=bench/plots the plots there are
# drawn anew, by gnuplot; with TABLE=FILE a table is written there.
set -eu
cd "$(dirname "$0")/.."
work=$(mktemp -d)
trap 'rm -rf "$work"' EXIT
for tool in gcc python3 ssh-agent; do
    command -v $tool > /dev/null || { echo "serve: skipped: no $tool"; exit 0; }
done
gcc -O2 -o "$work/load" bench/serve/load.c
gcc -O2 -o "$work/null" bench/serve/null.c
gcc -O2 -o "$work/relay" bench/serve/relay.c
rounds=${1:-7}
shift $(($# > 0 ? 1 : 0))
python3 -B bench/serve/measure.py "$work" "$rounds" "$@"
