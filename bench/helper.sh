#!/usr/bin/env bash
# What a signature and a verification take in the helpers that sign, the proved one (mortarleek_signer) and mortarleek-helper,
# beside libcrypto of the same machine and OpenSSH's ssh-agent with the same keys, and through the whole agent, for each kind of
# key: processor time, the median of several rounds of each in turn. The first word is the number of rounds, 5 where there is
# none; with `instructions` behind it, instructions are counted by callgrind instead, in one round. Needs gcc, python3 and
# OpenSSH, and valgrind for instructions; says so where neither helper is built.
set -eu
cd "$(dirname "$0")/.."
[ -x bin/mortarleek_signer ] || [ -x bin/mortarleek-helper ] || { echo "helper: not built: make"; exit 0; }
work=$(mktemp -d)
trap 'rm -rf "$work"' EXIT
gcc -O2 -o "$work/libcrypto" bench/helper/libcrypto.c -l:libcrypto.so.3
python3 -B bench/helper/measure.py "$work" "${1:-5}" "${2:-times}"
