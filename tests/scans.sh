#!/bin/sh
# Counts what scans cost: serves a new store under strace, asks a thousand probe requests, one after the other, and
# expects as many answers and, from the first to the last, neither a write nor a sync of the store. So that it can't
# count by mistake, it then expects a commit's two writes and two syncs of a station that authenticates.
# Use: tests/scans.sh, from anywhere; it needs strace and python3, and takes some seconds. It ends with status 1
# where something else is counted, or something is missing. Variables: APD, the program (else that of ./apd, which is
# built first); DISK, the folder of the store.
set -eu
here=$(dirname "$(readlink -f "$0")")
program=${APD:-$here/../crates/apd/out/apd}
port=$((20000 + $$ % 20000))
folder=$(mktemp -d "${DISK:-/var/tmp}/scans.XXXXXX")
process=

clean() {
    # strace ends once what it traces does.
    [ -z "$process" ] || pkill -9 -P "$process" 2>/dev/null || :
    wait
    rm -rf "$folder"
}
trap clean EXIT
trap 'exit 130' INT
trap 'exit 143' TERM

fail() {
    echo "scans: $*" >&2
    exit 1
}

# Waits until the command behind the text succeeds, for twenty seconds; else all ends with the text.
await() {
    looks=0
    text=$1
    shift
    until "$@" 2>/dev/null; do
        looks=$((looks + 1))
        [ "$looks" -le 200 ] || fail "$program $text: $(cat "$folder/log")"
        sleep 0.1
    done
}

has_ended() {
    ! kill -0 "$process"
}

# Asks, and prints a line for each kind of request: its name, when it began and ended, how many were answered, and how
# often one was sent again.
ask() {
    python3 - "$port" <<'END'
import socket, sys, time

BSSID, ALL = bytes([2, 0, 0, 0, 0, 1]), b"\xff" * 6
radio = socket.socket(socket.AF_INET, socket.SOCK_DGRAM)
radio.connect(("127.0.0.1", int(sys.argv[1]) + 1))
radio.settimeout(0.2)

def head(kind, receiver, sender):
    return bytes([kind, 0, 0, 0]) + receiver + sender + receiver + bytes(2)

def is_answered(frame, kind, sender):
    radio.send(frame)
    try:
        while True:
            answer = radio.recv(4096)
            if answer[0] == kind and answer[4:10] == sender:
                return True
    except TimeoutError:
        return False

def ask(name, count, request, answer):
    begun, again = time.time(), 0
    for number in range(count):
        sender = bytes([2, 0, 1, 0, number >> 8, number & 255])
        while not is_answered(request(sender), answer, sender):
            again += 1
            if again > 50:
                sys.exit("scans: no answer to " + name)
    print(name, "%.6f %.6f" % (begun, time.time()), count, again, flush=True)
    time.sleep(0.2)

# A scan for any network, and then Open System authentication.
ask("probes", 1000, lambda sender: head(0x40, ALL, sender) + b"\0\0\1\4\x82\x84\x8b\x96", 0x50)
ask("authentications", 1, lambda sender: head(0xB0, BSSID, sender) + b"\0\0\1\0\0\0", 0xB0)
END
}

# How many writes and syncs of the store there were between two moments, by strace's lines: process, moment, call.
calls() {
    awk -v begun="$1" -v ended="$2" -v store="<$folder/store>" '
        $2 < begun || $2 > ended { next }
        index($3, store) && $3 ~ /^(pwrite|write)/ { writes++ }
        (index($3, store) && $3 ~ /^(fsync|fdatasync|sync_file_range|syncfs)/) || $3 ~ /^sync\(/ { syncs++ }
        END { printf "%d writes, %d syncs", writes, syncs }' "$folder/calls"
}

for tool in strace python3; do
    command -v "$tool" >/dev/null || fail "$tool is missing"
done
strace -o /dev/null true 2>/dev/null || fail "strace may not trace"
[ -n "${APD:-}" ] || "$here/../apd" --version >/dev/null
"$program" --version

printf 'interface=wlan0\nbssid=02:00:00:00:00:01\nssid=net\nhw_mode=g\nap_max_inactivity=86400\n' >"$folder/wlan0.conf"
"$program" format "$folder/store" >/dev/null
mkfifo "$folder/input"
: >"$folder/log"
strace -f -y -ttt -qq -e signal=none -o "$folder/calls" \
    -e trace=write,writev,pwrite64,pwritev,pwritev2,fsync,fdatasync,sync_file_range,syncfs,sync \
    "$program" run --store "$folder/store" --port "$port" "$folder/wlan0.conf" <"$folder/input" 2>"$folder/log" &
process=$!
exec 3>"$folder/input"
await "serves nothing" grep -q "serves commands" "$folder/log"
ask >"$folder/asked"
exec 3>&-
await "does not end" has_ended
process=

status=0
while read -r name begun ended count again; do
    found=$(calls "$begun" "$ended")
    wanted="2 writes, 2 syncs"
    [ "$name" = authentications ] || wanted="0 writes, 0 syncs"
    echo "$count $name answered, $again sent again: $found"
    [ "$found" = "$wanted" ] || {
        echo "scans: wanted $wanted" >&2
        status=1
    }
done <"$folder/asked"
exit "$status"
