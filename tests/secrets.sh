#!/usr/bin/env bash
# Pairs of schedules that differ only in private fields of added keys, through the built agent: clients get the same.
#   tests/secrets.sh N [SEED]
set -u
cd "$(dirname "$0")/.." || exit 2
export PYTHONDONTWRITEBYTECODE=1
make --no-print-directory bin/agent_prog > /dev/null || exit 1
exec python3 -m model.secrets bin/agent_prog "$@"
