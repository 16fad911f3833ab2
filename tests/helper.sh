#!/usr/bin/env bash
# Builds the signing helper, and tests it. Installs Debian's packages that are missing, which takes root. The last
# line is `helper: N passed, M failed, K skipped`; ends with 1 where something failed.
set -u
cd "$(dirname "$0")/../helper" || exit 1
export PATH=/usr/bin:$PATH
export CARGO_BUILD_JOBS=${CARGO_BUILD_JOBS:-2}
passed=0 failed=0 skipped=0

../tests/packages.sh helper @helper_tests || exit 1

# WHAT and a command: one check, which shows what the command said where it failed.
check() {
    local what=$1 said
    shift
    if said=$("$@" 2>&1); then
        echo "helper: $what: ok"
        passed=$((passed + 1))
    else
        printf '%s\nhelper: %s: failed\n' "$said" "$what"
        failed=$((failed + 1))
    fi
}

# Adds up what a test run said: lines of cargo's tests and of Python's.
add_up() {
    local said=$1
    passed=$((passed + $(grep -cE '(^test .*|\.\.\.) ok$' <<< "$said")))
    failed=$((failed + $(grep -cE '(^test .* FAILED|\.\.\. (FAIL|ERROR))$|^ERROR: ' <<< "$said")))
    skipped=$((skipped + $(grep -cE "\.\.\. skipped " <<< "$said")))
}

check 'layout' cargo fmt --check
check 'clippy' cargo clippy --quiet --release --offline --all-targets -- -D warnings

# A program that leaves requests in memory, for the test that looks for them.
check 'build of the control' cargo build --quiet --release --offline --features leaves_requests
mkdir -p target/leaving && cp target/release/mortarleek-helper target/leaving/
check 'build' ./build

said=$(cargo test --release --offline 2>&1) || { echo "$said"; failed=$((failed + 1)); }
add_up "$said"
said=$(HELPER_LEAVING=$PWD/target/leaving/mortarleek-helper \
    python3 -B -m unittest discover -v -s tests 2>&1) || { echo "$said"; failed=$((failed + 1)); }
add_up "$said"
grep -E '\.\.\. skipped ' <<< "$said"

check 'signatures for an agent' ../tests/helper_signs.py
[ ! -x ../bin/agent_prog ] || check 'signatures for agent_prog replay' ../tests/helper_signs.py ../bin/agent_prog

echo "helper: $passed passed, $failed failed, $skipped skipped"
[ "$failed" = 0 ]
