#!/bin/sh
# Kills a script on a store at a random moment, twenty times. Each time the next run recovers the store, and each
# station to whom an association response was printed as sent is associated there. A kill shows nothing of syncs, since
# the system has what was written: so first, by strace, it looks at the calls that a run makes of the system.
# Use: tests/kill.sh, from anywhere. APD names the program. It ends with status 1 at the first run that shows
# anything else, and where strace is missing or may not trace.
here=$(dirname "$(readlink -f "$0")")
. "$here/testing"
needs strace
store=$folder/store

# Stations join, one after the other, each flushed before the next one comes.
joins() {
    number=0
    while [ "$number" -lt 2000 ]; do
        sender=$(printf '020000ff%04x' "$number")
        echo "rx wlan0 b0000000020000000001${sender}0200000000011000000001000000"
        echo flush
        echo "rx wlan0 00000000020000000001${sender}020000000001200031040a0000036e6574010482848b96"
        echo flush
        number=$((number + 1))
    done
}

# The calls of ten stations that join, a letter each: W a write of the store, S a sync, D the advice that the system
# drop what it holds of the file, E a request that became an entry, T a frame that is told of. Recovery syncs once and
# drops; a commit writes, syncs, writes its gate and syncs, and is then told of. The first commit is that of the start.
calls() {
    "$program" format "$store" >/dev/null
    joins | head -n 40 >"$folder/script"
    strace -f -qq -e trace=pwrite64,fdatasync,fadvise64,write -e signal=none -o "$folder/calls" \
        "$program" script --store "$store" <"$folder/script" >/dev/null
    sed -n -e 's/.* pwrite64(.*/W/p' -e 's/.* fdatasync(.* = 0$/S/p' \
        -e 's/.* fadvise64(.*, POSIX_FADV_DONTNEED) = 0$/D/p' -e 's/.* write(1, "entry.*/E/p' \
        -e 's/.* write(1, "wlan0 tx.*/T/p' "$folder/calls" | tr -d '\n'
}

strace -o /dev/null true || {
    echo "kill.sh: strace may not trace here, so what a run syncs can't be looked at" >&2
    exit 1
}
found=$(calls)
wanted=SDWSWS$(printf 'EWSWST%.0s' 1 2 3 4 5 6 7 8 9 10 11 12 13 14 15 16 17 18 19 20)
echo "calls: $(printf %s "$found" | tr -cd S | wc -c) syncs"
[ "$found" = "$wanted" ] || {
    echo "wanted $wanted, found $found"
    exit 1
}

joins >"$folder/script"
run=1
while [ "$run" -le 20 ]; do
    rm -f "$store"
    "$program" format "$store" >/dev/null
    : >"$folder/sent"
    "$program" script --store "$store" <"$folder/script" >"$folder/sent" &
    process=$!
    # Up to two seconds.
    sleep "$(awk -v seed="$run$$" 'BEGIN { srand(seed); printf "%.3f", rand() * 2 }')"
    kill -9 "$process" 2>/dev/null || true
    wait "$process" 2>/dev/null || true
    # Association responses of status 0: 1000 0000, the station, the BSSID twice, 0000 0100 0000.
    sed -n 's/^wlan0 tx 10000000\(.\{12\}\).\{24\}000001000000.*$/\1/p' "$folder/sent" |
        sed 's/\(..\)\(..\)\(..\)\(..\)\(..\)\(..\)/cmd STA \1:\2:\3:\4:\5:\6/' >"$folder/queries"
    count=$(wc -l <"$folder/queries")
    "$program" script --store "$store" <"$folder/queries" >"$folder/found"
    found=$(grep -c 'flags=\[AUTH\]\[ASSOC\]\[AUTHORIZED\]' "$folder/found" || true)
    echo "run $run: $count sent, $found found"
    [ "$count" -eq "$found" ] || exit 1
    run=$((run + 1))
done
