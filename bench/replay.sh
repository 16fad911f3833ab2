#!/usr/bin/env bash
# Lines and bytes per second of `agent_prog replay` for schedules of several shapes, beside what sha256sum and wc -l
# take for the same file in the same run, the most memory that each held, and how much replay wrote; and what
# `audit_prog` takes for the file and what replay wrote, and `log_prog` for the file, beside replay. Needs python3, GNU
# time, and bin/agent_prog, bin/audit_prog and bin/log_prog, which `make` builds. The shapes may be named as words:
# bench/replay.sh keys
set -eu
cd "$(dirname "$0")/.."
agent=$PWD/bin/agent_prog
audit=$PWD/bin/audit_prog
log=$PWD/bin/log_prog
shapes=${*:-cut long many keys aged ends signs}
for program in "$agent" "$audit" "$log"; do
    [ -x "$program" ] || { echo "bench: run make first" >&2; exit 1; }
done
work=$(mktemp -d)
trap 'rm -rf "$work"' EXIT

python3 - "$work" <<'PYTHON'
import random, struct, sys
folder = sys.argv[1]
random.seed(1)
message = "000000010b"

# 200,000 lines over 100 clients; each client's stream of list requests is cut at random places
with open(f"{folder}/cut", "w") as out:
    for _ in range(100):
        out.write("join client\n")
    at = [0] * 101
    for _ in range(200_000):
        port = random.randint(1, 100)
        count = random.randint(1, 9)
        piece = "".join(message[2 * (i % 5):2 * (i % 5) + 2] for i in range(at[port], at[port] + count))
        at[port] += count
        out.write(f"hear {port} {piece}\n")

# long lines: pieces of 32,000 bytes of requests that no agent knows, 1,000 bytes of body each
with open(f"{folder}/long", "w") as out:
    out.write("join client\n")
    body = "000003e8" + "c8" * 1000
    for _ in range(2_000):
        out.write("hear 1 " + body * 31 + "\n")

# 60,000 clients, one after another
with open(f"{folder}/many", "w") as out:
    for port in range(1, 60_001):
        out.write(f"join client\nhear {port} {message}\nend {port}\n")

# 100 clients and 1,000 held keys of the stand-in type: additions of held keys, removals with an addition at the
# end, refusals of a locked agent, removals of a key that isn't held, and a list in fifty draws
def string(content):
    return struct.pack(">I", len(content)) + content

def hear(out, *fields):
    message = string(b"".join(fields))
    out.write(f"hear {random.randint(1, 100)} {message.hex()}\n")

kind = string(b"keyed-sha256@example.com")
add, remove, lock, unlock, constrained, give = b"\x11", b"\x12", b"\x16", b"\x17", b"\x19", b"\x0b"

def tag(key):
    return string(struct.pack(">H", key) * 16)

def addition(key, moment):
    return kind + tag(key) + string(bytes(32)) + string(b"key %d of %d" % (key, moment))

def keys(out, aged):
    def put(key, moment):
        if aged:
            life = struct.pack(">BI", 1, random.randint(1, 50_000))
            hear(out, constrained, addition(key, moment), life)
        else:
            hear(out, add, addition(key, moment))
    for _ in range(100):
        out.write("join client\n")
    for key in range(1_000):
        put(key, 0)
    for moment in range(1, 20_001):
        if aged:
            out.write(f"at {moment} 0\n")
        key, draw = random.randrange(1_000), random.randrange(50)
        if draw == 0:
            hear(out, give)
        elif draw < 20:
            put(key, moment)
        elif draw < 30:
            hear(out, remove, string(kind + tag(key)))
            put(key, moment)
        elif draw < 40:
            hear(out, lock, string(b"passphrase"))
            put(key, moment)
            hear(out, unlock, string(b"passphrase"))
        else:
            hear(out, remove, string(kind + tag(1_000)))

with open(f"{folder}/keys", "w") as out:
    keys(out, False)

# the same with a moment before each draw, and lifetimes of up to 50,000 seconds
with open(f"{folder}/aged", "w") as out:
    keys(out, True)

# 1,000 keys with 1,000 different lifetimes: at each second one of them ends, and is added for 1,000 seconds
with open(f"{folder}/ends", "w") as out:
    for _ in range(100):
        out.write("join client\n")
    for key in range(1_000):
        hear(out, constrained, addition(key, 0), struct.pack(">BI", 1, key + 1))
    for moment in range(1, 20_001):
        out.write(f"at {moment} 0\n")
        hear(out, constrained, addition((moment - 1) % 1_000, moment), struct.pack(">BI", 1, 1_000))

# 16 clients that sign without pause over one helper, which answers once each of them has asked
with open(f"{folder}/signs", "w") as out:
    helper, token = 17, bytes(16)
    for _ in range(16):
        out.write("join client\n")
    out.write(f"hear 1 {string(add + addition(1, 0)).hex()}\n")
    request = string(b"\x0d" + string(kind + tag(1)) + string(bytes(32)) + bytes(4)).hex()
    for turn in range(5_000):
        for client in range(1, 17):
            out.write(f"hear {client} {request}\n")
        if turn == 0:
            hello = string(struct.pack(">BQ", 1, 1) + string(token)).hex()
            out.write(f"started 1 {token.hex()}\njoin child\nhear {helper} {hello}\n")
        for client in range(1, 17):
            signed = struct.pack(">BQ", 101, 16 * turn + client) + string(bytes(64))
            out.write(f"hear {helper} {string(signed).hex()}\n")
PYTHON

# The least of three times of a command that reads the file, in seconds.
least() {
    local file=$1 best='' start took
    shift
    for _ in 1 2 3; do
        start=$EPOCHREALTIME
        "$@" < "$file" > /dev/null
        took=$(awk -v from="$start" -v to="$EPOCHREALTIME" 'BEGIN { printf "%.6f", to - from }')
        best=$(awk -v a="${best:-$took}" -v b="$took" 'BEGIN { print (a < b) ? a : b }')
    done
    echo "$best"
}

# The most kB that a command held resident while it read the file.
resident() {
    local file=$1
    shift
    { env time -f %M "$@" < "$file" > /dev/null; } 2>&1
}

for shape in $shapes; do
    file=$work/$shape
    lines=$(wc -l < "$file")
    bytes=$(wc -c < "$file")
    ours=$(least "$file" "$agent" replay)
    hash=$(least "$file" sha256sum)
    count=$(least "$file" wc -l)
    awk -v shape="$shape" -v lines="$lines" -v bytes="$bytes" -v ours="$ours" -v hash="$hash" -v count="$count" 'BEGIN {
        printf "%s: %d lines, %d bytes: %.0f lines/s, %.1f MB/s; %.1f times sha256sum, %.1f times wc -l\n",
            shape, lines, bytes, lines / ours, bytes / ours / 1e6, ours / hash, ours / count }'
    echo "$shape: $(resident "$file" "$agent" replay) kB resident, sha256sum $(resident "$file" sha256sum) kB;" \
        "$("$agent" replay < "$file" | wc -c) bytes written"
    "$agent" replay < "$file" > "$work/deeds"
    audited=$(least "$file" "$audit" "$file" "$work/deeds")
    awk -v shape="$shape" -v ours="$ours" -v audited="$audited" -v kept="$(resident "$file" "$audit" "$file" "$work/deeds")" \
        -v files="$(cat "$file" "$work/deeds" | wc -c)" 'BEGIN {
        printf "%s: audited in %.1f times the time of replay; %d kB resident, of which both files are %d kB\n",
            shape, audited / ours, kept, files / 1024 }'
    awk -v shape="$shape" -v ours="$ours" -v logged="$(least "$file" "$log")" \
        -v kept="$(resident "$file" "$log")" -v bytes="$bytes" 'BEGIN {
        printf "%s: its log in %.1f times the time of replay; %d kB resident, where the file is %d kB\n",
            shape, logged / ours, kept, bytes / 1024 }'
done
