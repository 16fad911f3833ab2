#!/usr/bin/env bash
# The exit statuses of the built agent that a test within a crate can't see, and their one line on standard error.
set -u
cd "$(dirname "$0")/.." || exit 2
make --no-print-directory bin/agent_prog > /dev/null || exit 1
agent=$PWD/bin/agent_prog
bad=0

# NAME WANTED-STATUS WANTED-LINES-OF-ERROR and then the status and the errors that were seen
judge() {
    if [ "$2" != "$4" ] || [ "$3" != "$(printf '%s' "$5" | grep -c '')" ]; then
        echo "statuses: $1: status $4 and errors '$5'"
        bad=1
    else
        echo "statuses: $1: $2"
    fi
}

errors=$("$agent" replay < /dev/null 2>&1 > /dev/null); judge 'an empty schedule' 0 0 $? "$errors"
errors=$(printf 'join client\nhear 7 00\n' | "$agent" replay 2>&1 > /dev/null); judge 'a refused line' 1 1 $? "$errors"
errors=$("$agent" reply 2>&1 < /dev/null > /dev/null); judge 'an unknown word' 2 1 $? "$errors"
errors=$("$agent" 2>&1 < /dev/null > /dev/null); judge 'no words' 2 1 $? "$errors"
errors=$("$agent" replay 2>&1 <&- > /dev/null); judge 'a closed input' 6 1 $? "$errors"
errors=$("$agent" replay 2>&1 < /dev/null >&-); judge 'a closed output' 7 1 $? "$errors"
if [ -w /dev/full ]; then
    errors=$("$agent" replay 2>&1 < /dev/null > /dev/full); judge 'a full output' 7 1 $? "$errors"
fi
errors=$("$agent" drill 2 1 2>&1 < /dev/null > /dev/null); judge 'a drill' 0 0 $? "$errors"
errors=$("$agent" drill 100001 1 2>&1 < /dev/null > /dev/null); judge 'a longer drill' 2 1 $? "$errors"
errors=$("$agent" drill 2 1 2>&1 >&-); judge 'a drill and a closed output' 7 1 $? "$errors"
errors=$("$agent" drill 2 1 2>&1 <&- > /dev/null); judge 'a drill and a closed input' 0 0 $? "$errors"

# A schedule is run as it is read: 300 MB of it in 40 MB.
comments() { yes "$(printf '%65535s' '' | tr ' ' '#')" | head -c "$1"; }
errors=$(comments 300000000 | (ulimit -v 40960; "$agent" replay) 2>&1 > /dev/null); judge 'a long schedule' 0 0 $? "$errors"

# Twenty clients begin messages of 262143 bytes, in less memory than these take.
errors=$(awk 'BEGIN {
    for (i = 0; i < 30000; i++) piece = piece "00"
    for (port = 1; port <= 20; port++) {
        print "join client"
        print "hear " port " 0003ffff" piece
        for (more = 0; more < 7; more++) print "hear " port " " piece
    }
}' | (ulimit -v 8000; "$agent" replay 2>&1 > /dev/null))
judge 'too little memory' 5 1 $? "$errors"
exit "$bad"
