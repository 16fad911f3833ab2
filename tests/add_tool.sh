#!/usr/bin/env bash
# The built ssh-add against OpenSSH's own ssh-agent, and what OpenSSH's ssh-add then prints for the same agent,
# line by line; the requests with destinations against those of OpenSSH's ssh-add, byte for byte. Installs Debian's
# openssh-client where it is missing, which takes root. Tells only what failed, and then
# `add_tool: N passed, M failed`; ends with 1 where something failed.
set -u
cd "$(dirname "$0")/.." || exit 2
if ! command -v ssh-agent > /dev/null || ! command -v ssh-keygen > /dev/null; then
    tests/packages.sh add_tool @add_tool || exit 1
fi
make --no-print-directory bin/add_tool > /dev/null || exit 1
top=$PWD tool=$PWD/bin/add_tool
passed=0 failed=0
work=$(mktemp -d) || exit 1
cd "$work" || exit 1
unset SSH_AGENT_PID
ssh-agent -D -a "$work/agent" > agent.log 2>&1 &
agent=$!
recorders=()
trap 'kill "$agent" "${recorders[@]}" 2> /dev/null; rm -rf "$work"' EXIT
export SSH_AUTH_SOCK=$work/agent
for _ in $(seq 100); do [ -S "$SSH_AUTH_SOCK" ] && break; sleep 0.1; done

# WHAT, what was wanted, what was seen
same() {
    if [ "$2" = "$3" ]; then
        passed=$((passed + 1))
    else
        printf 'add_tool: %s: failed\n--- wanted\n%s\n--- seen\n%s\n' "$1" "$2" "$3"
        failed=$((failed + 1))
    fi
}

# WHAT, the status wanted, the first line of the errors wanted, and then a command
run() {
    local what=$1 status=$2 line=$3 seen
    shift 3
    seen=$("$@" 2>&1 > out)
    same "$what" "$status $line" "$? ${seen%%$'\n'*}"
}

# WHAT, the status wanted, all of the errors wanted, and then a command
says() {
    local what=$1 status=$2 lines=$3 seen
    shift 3
    seen=$("$@" 2>&1 > out)
    same "$what" "$status $lines" "$? $seen"
}

# The lists of both tools are the same.
lists() {
    same "$1: -l" "$(ssh-add -l 2>&1)" "$("$tool" -l 2> /dev/null)"
    same "$1: -L" "$(ssh-add -L 2>&1)" "$("$tool" -L 2> /dev/null)"
}

key() { ssh-keygen -q -N "$2" -C "$3" -f "$1" "${@:4}"; sed '/^-----/d' "$1" > "$1.body"; }
key ed25519 '' 'one key' -t ed25519
key rsa '' 'user@host' -t rsa -b 2048
key rsa3 '' 'three' -t rsa -b 3072
key ec256 '' 'p 256' -t ecdsa -b 256
key ec384 '' 'p384' -t ecdsa -b 384
key ec521 '' 'p521' -t ecdsa -b 521
key locked 'secret' 'encrypted' -t ed25519

run 'a list of no identities' 1 '' "$tool" -l
same 'its output' 'The agent has no identities.' "$(cat out)"
for name in ed25519 rsa rsa3 ec256 ec384 ec521; do
    comment=$(ssh-keygen -l -f "$name" | sed 's/^[^ ]* [^ ]* \(.*\) ([^ ]*)$/\1/')
    run "add $name" 0 "Identity added: $name.body ($comment)" "$tool" "$name.body"
done
lists 'six identities'
run 'remove one' 0 'Identity removed: rsa.pub' "$tool" -d rsa.pub
lists 'five identities'
run 'remove it again' 1 'ssh-add: refused' "$tool" -d rsa.pub
run 'remove two' 0 'Identity removed: ec256.pub' "$tool" -d ec256.pub ec384.pub
lists 'three identities'

run 'lock' 0 'Agent locked.' "$tool" -x <<< 'a passphrase'
same 'a locked agent lists nothing' 'The agent has no identities.' "$("$tool" -l 2> /dev/null)"
run 'unlock by another passphrase' 1 'ssh-add: refused' "$tool" -X <<< 'another'
run 'unlock' 0 'Agent unlocked.' "$tool" -X <<< 'a passphrase'
lists 'after unlocking'
run 'an empty passphrase' 1 'ssh-add: emptypassphrase' "$tool" -x < /dev/null
run 'a passphrase without LF' 0 'Agent locked.' "$tool" -x < <(printf end)
run 'its unlocking by OpenSSH' 0 'Agent unlocked.' "$tool" -X <<< 'end'

run 'remove all' 0 'All identities removed.' "$tool" -D
same 'then none is left' 'The agent has no identities.' "$(ssh-add -l 2>&1)"

# What each key signs is what its public key verifies.
for name in ed25519 rsa ec256 ec384 ec521; do
    "$tool" "$name.body" 2> /dev/null
    printf 'signer namespaces="file" %s\n' "$(cut -d' ' -f1,2 "$name.pub")" > signers
    printf 'what is signed' > message && rm -f message.sig
    ssh-keygen -q -Y sign -f "$name.pub" -n file message > /dev/null 2>&1
    run "a signature of $name" 0 '' ssh-keygen -q -Y verify -f signers -I signer -n file -s message.sig < message
done
"$tool" -D 2> /dev/null

run 'a lifetime' 0 'Identity added: ed25519.body (one key)' "$tool" -t 2 ed25519.body
lists 'before it ends'
sleep 3
same 'after a lifetime of two seconds' 'The agent has no identities.' "$(ssh-add -l 2>&1)"
run 'confirmation' 0 'Identity added: ed25519.body (one key)' "$tool" -c -t 1h30m ed25519.body
printf 'x' > message && rm -f message.sig
SSH_ASKPASS=/bin/false ssh-keygen -q -Y sign -f ed25519.pub -n file message > /dev/null 2>&1
same 'no signature without consent' 'none' "$([ -e message.sig ] && echo one || echo none)"
"$tool" -D 2> /dev/null

run "a number of uses, which OpenSSH's agent doesn't know" 1 'ssh-add: refused' "$tool" -u 3 ed25519.body
for count in 0 03 +3 3s 4294967296; do
    run "$count uses" 1 'ssh-add: usage' "$tool" -u "$count" ed25519.body
done
run 'two numbers of uses' 1 'ssh-add: usage' "$tool" -u 3 -u 3 ed25519.body
run 'uses of what is removed' 1 'ssh-add: usage' "$tool" -d -u 3 ed25519.pub
same 'none of them was added' 'The agent has no identities.' "$(ssh-add -l 2>&1)"

run 'two files, of which the second is missing' 1 'Identity added: ed25519.body (one key)' "$tool" ed25519.body missing
lists 'what was done before stands'
says 'an encrypted key' 1 "ssh-add: body
ssh-add: locked.body: the key is encrypted: OpenSSH's ssh-add adds such keys, or ssh-keygen -p removes the passphrase" \
    "$tool" locked.body
says 'a key with its armour' 1 "ssh-add: body
ssh-add: ed25519: no private key of OpenSSH's format: give the text between the two armour lines alone" \
    "$tool" ed25519
says 'a missing file' 1 'ssh-add: file
ssh-add: missing: there is no such file: is the path right?' "$tool" missing
says 'a folder' 1 'ssh-add: file
ssh-add: .: is a directory: name a file in it' "$tool" .
says 'a missing file of known hosts' 1 'ssh-add: file
ssh-add: missing: there is no such file: is the path right?' \
    "$tool" -H missing -h scylla.example.org ed25519.body
run 'no words' 1 'ssh-add: usage' "$tool"
run 'two commands' 1 'ssh-add: usage' "$tool" -l -L
run 'no public key' 1 'ssh-add: public' "$tool" -d /dev/null
run 'an agent that is not there' 2 'ssh-add: no agent can be reached: is one running, and does SSH_AUTH_SOCK name its socket?' \
    env SSH_AUTH_SOCK=/nonexistent "$tool" -l
run 'no SSH_AUTH_SOCK' 2 'ssh-add: no agent can be reached: is one running, and does SSH_AUTH_SOCK name its socket?' \
    env -u SSH_AUTH_SOCK "$tool" -l
same 'a full output' '1 ssh-add: outputfault' "$(seen=$("$tool" -l 2>&1 > /dev/full); echo "$? ${seen%%$'\n'*}")"

"$tool" -D 2> /dev/null

# Destinations, over a file of known hosts as it is and hashed. What the agent holds is listed as OpenSSH lists it, and
# signs no file, since that is no log-in to one of the hosts.
for name in host authority; do ssh-keygen -q -N '' -C "$name" -t ed25519 -f "$name"; done
host=$(cut -d' ' -f1,2 host.pub) authority=$(cut -d' ' -f1,2 authority.pub)
printf '%s\n' "scylla.example.org,192.0.2.7 $host" "[cetus.example.org]:2222 $host" \
    "@cert-authority *.example.org,!bad.example.org $authority" "@revoked scylla.example.org $authority" \
    'no line of known hosts' > plain
printf '%s\n' "scylla.example.org $host" "charybdis.example.org $host" > hashed
ssh-keygen -q -H -f hashed > /dev/null 2>&1
way='scylla.example.org>medea@charybdis.example.org'
for hosts in plain hashed; do
    run "a way, hosts $hosts" 0 'Identity added: ed25519.body (one key)' \
        "$tool" -H $hosts -h scylla.example.org -h "$way" ed25519.body
    lists "a way, hosts $hosts"
    rm -f message.sig
    ssh-keygen -q -Y sign -f ed25519.pub -n file message > /dev/null 2>&1
    same "no signature elsewhere, hosts $hosts" 'none' "$([ -e message.sig ] && echo one || echo none)"
done
for name in ed25519 rsa ec256 ec384 ec521; do
    comment=$(ssh-keygen -l -f "$name" | sed 's/^[^ ]* [^ ]* \(.*\) ([^ ]*)$/\1/')
    run "a way for $name" 0 "Identity added: $name.body ($comment)" \
        "$tool" -H plain -H hashed -h "$way" -h me@scylla.example.org -t 1h $name.body
done
lists 'ways for all types'
"$tool" -D 2> /dev/null
for dest in 'a@scylla.example.org>charybdis.example.org' '@scylla.example.org' 'a@' '>scylla.example.org' other.example.net; do
    run "no destination: $dest" 1 'ssh-add: destination' "$tool" -H plain -h "$dest" ed25519.body
done
run 'destinations without hosts' 1 'ssh-add: usage' "$tool" -h scylla.example.org ed25519.body
same 'none was added' 'The agent has no identities.' "$(ssh-add -l 2>&1)"

# What is sent is what OpenSSH's ssh-add sends.
if command -v python3 > /dev/null; then
    for name in ours theirs; do
        python3 "$top/tests/recorder.py" "$work/$name.sock" "$work/$name" &
        recorders+=("$!")
    done
    for _ in $(seq 100); do [ -S ours.sock ] && [ -S theirs.sock ] && break; sleep 0.1; done
    for line in "-h $way" '-h scylla.example.org' "-h medea@charybdis.example.org -h $way -h scylla.example.org" \
        "-c -t 90 -h $way"; do
        read -ra words <<< "$line"
        for name in ed25519 rsa ec256 ec384 ec521; do
            SSH_AUTH_SOCK=$work/ours.sock "$tool" -H plain -H hashed "${words[@]}" $name.body 2> /dev/null
            SSH_AUTH_SOCK=$work/theirs.sock ssh-add -q -H plain -H hashed "${words[@]}" $name 2> /dev/null
        done
    done
    same 'the requests of both tools: how many' 20 "$(wc -l < ours)"
    same 'the requests of both tools' "$(cat theirs)" "$(cat ours)"
    SSH_AUTH_SOCK=$work/ours.sock "$tool" -t 60 -u 3 ed25519.body 2> /dev/null
    uses=ff00000014$(printf uses-v00@example.com | od -An -tx1 | tr -d ' \n')00000003
    case $(tail -n 1 ours) in 19*010000003c"$uses") sent=yes ;; *) sent=no ;; esac
    same 'a number of uses is sent behind the lifetime' yes "$sent"
    kill "${recorders[@]}"
    recorders=()
fi

echo "add_tool: $passed passed, $failed failed"
[ "$failed" = 0 ]
