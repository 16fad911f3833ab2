#!/usr/bin/env bash
# A program that clones or prints a SecretBytes must not compile, and one that moves it must.
set -u
cd "$(dirname "$0")/.." || exit 2
work=$(mktemp -d) || exit 2
trap 'rm -rf "$work"' EXIT
mkdir -p "$work/crates/misuse/src" "$work/crates/secret_buf"
cp -r crates/secret_buf/{src,specs,proofs} "$work/crates/secret_buf" || exit 2
printf 'secret_buf:\nmisuse: secret_buf\n' > "$work/crates.txt"

# The status of TEXT, which is tried without a proof; what is said of it is in $said.
try() {
    cp "crates/secret_buf/misuse/$1.txt" "$work/crates/misuse/src/main.rt" || exit 2
    said=$(cd "$work/crates/misuse" && rt try 2>&1)
}

# TEXT has to be refused with ERROR alone.
refused() {
    if try "$1" || [ "$(grep -c 'error\[' <<< "$said")" != 1 ] || ! grep -qF "$2" <<< "$said"; then
        printf 'misuse: %s is not refused as it must be:\n%s\n' "$1" "$said"
        exit 1
    fi
    echo "misuse: $1: refused"
}

try moves_a_secret || { printf 'misuse: moves_a_secret is not taken:\n%s\n' "$said"; exit 1; }
echo 'misuse: moves_a_secret: taken'
refused clones_a_secret 'error[unknown-method]: the method `clone` exists for `SecretBytes`, but'
refused prints_a_secret "error[unsatisfied-bound]: \`SecretBytes\` doesn't implement \`Debug\`"
