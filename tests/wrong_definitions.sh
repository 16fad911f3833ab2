#!/usr/bin/env bash
# Shows that the laws of history, of answers and of secrecy refuse wrong definitions of the agent: each file of
# tests/wrong_definitions changes one definition of agent_model, on a copy that has the definitions and none of the proofs,
# and names the run of agent_laws or of the crate that it names (src/runs.rt) on which the law fails then. So what refuses
# it is the run that is computed, and not the form of a proof. Those that are named, or all. Ends with 1 where a run stays
# as the law wants it, or where the definitions as they are don't pass. `--fit` asks alone whether each changes what stands
# in its file once.
set -u
cd "$(dirname "$0")/.." || exit 2

# EDIT FOLDER: changes the definition in its file there, whose text stands in it once.
change() {
    python3 - "$1" "$2/$(sed -n 's/^file: //p' "$1")" <<'PYTHON'
import sys
lines = dict(line.split(": ", 1) for line in open(sys.argv[1]).read().splitlines())
text = open(sys.argv[2]).read()
if text.count(lines["old"]) != 1:
    sys.exit(sys.argv[1] + ": the old text doesn't stand once in the file")
open(sys.argv[2], "w").write(text.replace(lines["old"], lines["new"]))
PYTHON
}

if [ "${1-}" = --fit ]; then
    work=$(mktemp -d) || exit 2
    trap 'rm -rf "$work"' EXIT
    bad=0
    for edit in tests/wrong_definitions/*; do
        cp -r crates/agent_model/specs "$work" && change "$edit" "$work" || bad=1
    done
    exit "$bad"
fi
names=("$@")
[ $# != 0 ] || mapfile -t names < <(ls tests/wrong_definitions)
work=$(mktemp -d) || exit 2
trap 'rm -rf "$work"' EXIT
git ls-files -z crates crates.txt HANDLES | xargs -0 cp --parents -t "$work" || exit 2
model=$work/crates/agent_model
rm -rf "$model"/{proofs,must-fail,more-edits} "$model"/src/*.rt
mkdir -p "$model/proofs"
touch "$model/proofs/Lib.antt"
printf '//! The definitions alone.\n#![tactic(auto)]\n' >"$model/src/lib.rt"
sed -i '/^agent_laws:/s/ agent_secrecy\b//' "$work/crates.txt"
# no run needs the law that stands on agent_secrecy, the last definition of its file
sed -i '/agent_secrecy/d; /^-- what is put is what the actions ask for/,$d' "$work/crates/agent_laws/specs/Puts.antt"
declare -A runs=([agent_laws]="these_runs_are_answered these_runs_are_lawful" [agent_secrecy]=these_runs_tell_no_secret)
for crate in "${!runs[@]}"; do
    laws=$work/crates/$crate
    rm -rf "$laws"/proofs
    find "$laws/src" -name '*.rt' ! -name runs.rt -delete
    mkdir -p "$laws/proofs"
    touch "$laws/proofs/Lib.antt"
    printf '//! The runs alone.\n#![tactic(auto)]\n\nmod runs;\n' >"$laws/src/lib.rt"
    for run in ${runs[$crate]}; do
        echo "pub use runs::$run;" >>"$laws/src/lib.rt"
    done
done

# what a check of the runs of a crate says
says() { (cd "$work/crates/$1" && "${RT:-rt}" check 2>&1); }

for crate in "${!runs[@]}"; do
    said=$(says "$crate")
    for run in ${runs[$crate]}; do
        if ! grep -q "$run: proved" <<<"$said"; then
            echo "the runs of $crate are not as its law wants them as the definitions stand" >&2
            exit 1
        fi
    done
done
bad=0
for name in "${names[@]}"; do
    edit=tests/wrong_definitions/$name
    run=$(sed -n 's/^run: //p' "$edit")
    crate=$(sed -n 's/^crate: //p' "$edit")
    crate=${crate:-agent_laws}
    file=$(sed -n 's/^file: //p' "$edit")
    cp "$model/$file" "$work/kept" || exit 2
    change "$edit" "$model" || exit 2
    said=$(says "$crate")
    if grep 'did not prove' <<<"$said" | grep -q "\`returns-clause-$run\`"; then
        echo "$name: refused by the run $run"
    else
        echo "$name: NOT REFUSED by the run $run" >&2
        grep 'error' <<<"$said" | head -3 >&2
        bad=1
    fi
    cp "$work/kept" "$model/$file" || exit 2
done
exit "$bad"
