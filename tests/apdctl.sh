#!/bin/sh
# Tries apdctl: on a daemon that is a few lines of Python, which notes what it is asked, and on the program.
# Use: tests/apdctl.sh, from anywhere. APD names the program, and APDCTL another apdctl. It ends with status 1 at the
# first answer that is another one.
here=$(dirname "$(readlink -f "$0")")
. "$here/testing"
needs python3 bash
apdctl=${APDCTL:-$here/../tools/apdctl}

cat >daemon.py <<'END'
"""Answers as told, and prints each datagram that comes. Of its stations b leaves behind its own text, once."""
import socket
import sys

served = socket.socket(socket.AF_INET, socket.SOCK_DGRAM)
served.bind(("127.0.0.1", int(sys.argv[1])))
stations = [f"02:00:00:00:00:{n}" for n in ("0a", "0b", "0c")]
# As many as an interface can have.
crowd = [f"02:00:00:01:{n >> 8:02x}:{n & 255:02x}" for n in range(2007)]
behind = dict(zip(crowd, crowd[1:]))


def text(address):
    return f"{address}\nflags=[AUTH]\naid=0\ncapability=0x0\nlisten_interval=0\n"


def reply(asked):
    if asked.startswith("IFNAME=crowd "):
        address = behind.get(asked[-17:]) if "STA-NEXT" in asked else crowd[0]
        return text(address) if address else ""
    if asked == "IFNAME=gone STA-FIRST":
        return text(stations[0])
    if asked.endswith("STATUS"):
        return f"state={'DISABLED' if 'down' in asked else 'ENABLED'}\nchannel=6\n"
    if asked == "IFNAME=many STA-FIRST":
        return text(stations[0])
    if asked.startswith("IFNAME=many STA-NEXT "):
        place = stations.index(asked[-17:]) if asked[-17:] in stations else None
        if place is None:
            return "FAIL\n"
        if asked[-1] == "a" and len(stations) == 3:
            del stations[1]
            return text("02:00:00:00:00:0b")
        return text(stations[place + 1]) if place + 1 < len(stations) else ""
    if asked.startswith("IFNAME=loop "):
        return text(stations[0])
    known = {"PING": "PONG\n", "STA-FIRST": "", "STA x": "FAIL\n", "IFNAME=no STA-FIRST": "FAIL\n"}
    return known.get(asked, "OK\n" if "ACL" in asked or "reason" in asked else "UNKNOWN COMMAND\n")


print("serves", flush=True)
while True:
    asked, sender = served.recvfrom(65536)
    if not asked.startswith(b"IFNAME=crowd"):
        print(asked.decode(), flush=True)
    if asked not in (b"SILENCE", b"IFNAME=silent STATUS", b"IFNAME=gone STA-NEXT 02:00:00:00:00:0a"):
        served.sendto(reply(asked.decode()).encode(), sender)
END

# What apdctl with the words behind the second one must print, with its status.
wants() {
    wanted=$1
    status_wanted=$2
    shift 2
    found=$(timeout 20 "$apdctl" "$port" "$@" 2>&1) && status=0 || status=$?
    if [ "$found $status" != "$wanted $status_wanted" ]; then
        echo "apdctl $*: $found, status $status; wanted: $wanted, status $status_wanted"
        exit 1
    fi
    echo "apdctl $*: status $status"
}

# Waits until a file has the text, for some ten seconds.
await() {
    looks=0
    until grep -q "$1" "$2"; do
        looks=$((looks + 1))
        [ "$looks" -lt 100 ] || {
            echo "apdctl.sh: $2 never said: $1"
            cat "$2"
            exit 1
        }
        sleep 0.1
    done
}

port=$("$here/free-ports" 3)
wants "apdctl: no reply from port $port" 3 ping
wants "apdctl: no reply from port $port" 3 all_sta
wants "first interface: no reply within a second" 1 health
: >asked
python3 daemon.py "$port" >asked 2>&1 &
process=$!
trap 'kill "$process" 2>/dev/null || :; rm -rf "$folder"' EXIT
await serves asked
wants PONG 0 ping
wants PONG 0 PING
wants FAIL 1 sta x
wants "UNKNOWN COMMAND" 2 nothing
wants "apdctl: no reply from port $port" 3 silence
wants OK 0 deny_acl add_mac 02:00:00:00:00:aa
wants OK 0 "ACCEPT_ACL show"
wants OK 0 IFNAME=wlan1 deauthenticate 02:00:00:00:00:aa reason=3
wants "" 0 sta-first
wants "" 0 all_sta
wants FAIL 1 IFNAME=no all_sta
each="
flags=[AUTH]
aid=0
capability=0x0
listen_interval=0"
wants "02:00:00:00:00:0a$each
02:00:00:00:00:0b$each
02:00:00:00:00:0c$each" 0 IFNAME=many all_sta
wants "02:00:00:00:00:0a$each
apdctl: no reply from port $port" 3 IFNAME=gone all_sta
found=$(timeout 20 "$apdctl" "$port" IFNAME=loop all_sta) || :
[ "$found" != "" ] || exit 1
# (a process for each station took 22 seconds where nothing else ran)
timeout 15 "$apdctl" "$port" IFNAME=crowd all_sta >found
[ "$(grep -c '^02:00:00:01:' found) $(sort -u found | wc -l)" = "2007 2011" ] || {
    echo "apdctl all_sta: not each of 2,007 stations is told once"
    exit 1
}
wants "" 0 health
wants "" 0 health wlan0 wlan1
wants "down0: state=DISABLED
silent: no reply within a second
down1: state=DISABLED" 1 health down0 wlan1 silent down1
wants "down0: state=DISABLED" 1 IFNAME=down0 health
cat >wanted <<'END'
serves
PING
PING
STA x
NOTHING
SILENCE
DENY_ACL ADD_MAC 02:00:00:00:00:aa
ACCEPT_ACL SHOW
IFNAME=wlan1 DEAUTHENTICATE 02:00:00:00:00:aa reason=3
STA-FIRST
STA-FIRST
IFNAME=no STA-FIRST
IFNAME=many STA-FIRST
IFNAME=many STA-NEXT 02:00:00:00:00:0a
IFNAME=many STA-NEXT 02:00:00:00:00:0b
IFNAME=many STA-FIRST
IFNAME=many STA-NEXT 02:00:00:00:00:0a
IFNAME=many STA-NEXT 02:00:00:00:00:0c
IFNAME=gone STA-FIRST
IFNAME=gone STA-NEXT 02:00:00:00:00:0a
IFNAME=loop STA-FIRST
IFNAME=loop STA-NEXT 02:00:00:00:00:0a
STATUS
IFNAME=wlan0 STATUS
IFNAME=wlan1 STATUS
IFNAME=down0 STATUS
IFNAME=wlan1 STATUS
IFNAME=silent STATUS
IFNAME=down1 STATUS
IFNAME=down0 STATUS
END
diff wanted asked
for words in help "help status" "help 7000"; do
    # shellcheck disable=SC2086 # its words
    timeout 20 "$apdctl" $words >found || { echo "apdctl $words: status $?"; exit 1; }
    grep -q "^use: " found
done
for words in "" 7000 "x ping" "70000 ping" "7000 IFNAME=wlan0"; do
    # shellcheck disable=SC2086 # its words
    timeout 20 "$apdctl" $words >found 2>&1 && status=0 || status=$?
    if [ "$status" != 2 ] || ! grep -q "^use: " found; then
        echo "apdctl $words: status $status"
        exit 1
    fi
done
kill "$process"
wait "$process" 2>/dev/null || :

# The program, with one interface and one that has no station.
printf 'interface=wlan0\nbssid=02:00:00:00:00:01\nssid=net\n' >conf
printf 'interface=wlan1\nbssid=02:00:00:00:00:02\nssid=net\n' >conf.1
"$program" format store >/dev/null
for number in a b c; do
    echo "rx wlan0 b000000002000000000102000000000${number}0200000000011000000001000000"
    echo flush
done >frames
timeout 60 "$program" script --store store conf <frames >out
mkfifo input
port=$("$here/free-ports" 3)
"$program" run --store store --port "$port" conf conf.1 <input >out 2>log &
process=$!
exec 3>input
await "serves commands" log
wants PONG 0 ping
wants "" 0 health
wants "wlan2: FAIL" 1 health wlan1 wlan2
wants "UNKNOWN COMMAND" 2 pong
wants FAIL 1 sta 02:00:00:00:00:0d
wants FAIL 1 IFNAME=wlan2 status
wants "" 0 IFNAME=wlan1 all_sta
each="
flags=[AUTH]
aid=0
capability=0x0
listen_interval=0"
wants "02:00:00:00:00:0a$each
02:00:00:00:00:0b$each
02:00:00:00:00:0c$each" 0 all_sta
wants OK 0 deny_acl add_mac 02:00:00:00:00:0b
wants "02:00:00:00:00:0b VLAN_ID=0" 0 deny_acl show
wants FAIL 1 sta 02:00:00:00:00:0b
wants OK 0 deauthenticate ff:ff:ff:ff:ff:ff reason=3
wants "" 0 all_sta
exec 3>&-
wait "$process"
