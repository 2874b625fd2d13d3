#!/bin/sh
# Tries apd format --missing on what no test can make or start: a FIFO, a file that this user may not read, a program that
# is killed. A store is never lost by it, and STORE is there only once it is one.
# Use: tests/format.sh, from anywhere. APD names the program. It ends with status 1 at the first answer that is
# another one.
here=$(dirname "$(readlink -f "$0")")
. "$here/testing"

# What it must print for the name, and its status.
wants() {
    found=$(timeout 20 "$program" format --missing "$1" 2>&1) && status=0 || status=$?
    # (a line behind a fault's own says why: reasons.sh looks at these)
    case $found in "apd: "*) found=$(echo "$found" | head -n 1) ;; esac
    if [ "$found $status" != "$2 $3" ]; then
        echo "apd format --missing $1: $found, status $status; wanted: $2, status $3"
        exit 1
    fi
    echo "apd format --missing $1: $found"
}

# Twice on one name; between them a station comes in, which stays.
wants store formatted 0
[ "$(stat -c '%a %s' store)" = "600 2097216" ]
"$program" script --store store <"$here/../examples/first-association.script" >/dev/null
cp store copy
wants store kept 0
cmp store copy

head -c 2097216 /dev/zero >zeros
wants zeros formatted 0
: >empty
wants empty "apd: not a store" 1
[ ! -s empty ]
mkdir sub
wants sub "apd: cannot read sub" 1
mkfifo fifo
wants fifo "apd: cannot read fifo" 1
if [ "$(id -u)" != 0 ]; then
    chmod 000 copy
    wants copy "apd: cannot read copy" 1
fi

# A store that another process holds is waited for: not for long.
flock store sh -c ': >held; exec sleep 0.7' &
while [ ! -e held ]; do sleep 0.01; done
wants store kept 0
wait
rm held
flock store sh -c 'echo $$ >held; exec sleep 10' &
while [ ! -s held ]; do sleep 0.01; done
begun=$(date +%s%N)
wants store "apd: cannot read store" 1
took=$((($(date +%s%N) - begun) / 1000000))
if [ "$took" -lt 1900 ] || [ "$took" -gt 5000 ]; then
    echo "it waited for $took ms"
    exit 1
fi
kill "$(cat held)"
wait || true

# Killed at a random moment of the time that one takes, twenty times: there is no STORE, or a whole one, and the next one
# makes or keeps it.
begun=$(date +%s%N)
wants first formatted 0
took=$(($(date +%s%N) - begun))
run=1
while [ "$run" -le 20 ]; do
    rm -f new new.new*
    "$program" format --missing new >/dev/null &
    process=$!
    sleep "$(awk -v seed="$run$$" -v took="$took" 'BEGIN { srand(seed); printf "%.4f", rand() * took / 1e9 }')"
    kill -9 "$process" 2>/dev/null || true
    wait "$process" 2>/dev/null || true
    if [ -e new ]; then
        echo "run $run: made"
        wants new kept 0
    else
        echo "run $run: none"
        wants new formatted 0
    fi
    [ -z "$("$program" check new 2>&1)" ] || exit 1
    run=$((run + 1))
done
