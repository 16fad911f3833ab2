#!/usr/bin/env bash
# Random schedules through the built agent and the model of model/, byte for byte, with status.
#   tests/differential.sh N [SEED]
#   tests/differential.sh --wrong N [SEED]    tries the wrong models of model/wrong.txt against the right one
#   tests/differential.sh --tools N [SEED]    random words, files and peers of the built helpers and tool
set -u
cd "$(dirname "$0")/.." || exit 2
export PYTHONDONTWRITEBYTECODE=1
built() { make --no-print-directory "bin/$1" > /dev/null; }
case ${1-} in
    --wrong) ;;
    --tools)
        built standin_helper && built confirm_relay && built add_tool || exit 1
        shift
        exec python3 -m model.differential_tools bin "$@"
        ;;
    *) built agent_prog || exit 1 ;;
esac
exec python3 -m model.differential bin/agent_prog "$@"
