#!/usr/bin/env bash
# The commands of each transcript of examples/ print what stands there, and README begins with the first of them.
set -u
cd "$(dirname "$0")/.." || exit 2
make -s bin/agent_prog bin/mortarleek_signer bin/add_tool bin/audit_prog bin/log_prog bin/filter_proxy > /dev/null || exit 1
console() { sed -n '/^```console$/,/^```$/p' "$1" | grep -v '^```'; }
for page in examples/*.md; do
    name=$(basename "$page" .md)
    wanted=$(console "$page")
    seen=$(examples/run "$name")
    if [ "$seen" != "$wanted" ]; then
        echo "transcripts: $page prints something else:"
        diff <(printf '%s\n' "$wanted") <(printf '%s\n' "$seen")
        exit 1
    fi
    echo "transcripts: $name: as it stands"
done
shown=$(sed '/^## /,$d' README.md | sed -n '/^```console$/,/^```$/p' | grep -v '^```')
if [ "$shown" != "$(console examples/first.md)" ]; then
    echo 'transcripts: README begins with something else than examples/first.md shows'
    exit 1
fi
echo 'transcripts: README: as first.md'
