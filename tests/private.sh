#!/bin/sh
# Tries who may ask a daemon that private/serve serves in a network namespace of its own. Another user reaches neither
# its ports nor the sockets of apd-ctrl. Who is in the group gets the replies that private/tries.py lists, from Python,
# and from hostapd_cli, where that is installed; and clients that mean harm keep nobody from it. Then, over --drivers,
# 100,000 datagrams from a port that is not the radio's peer change nothing, and get nothing. Before all that, apd-ctrl
# answers at once where the daemon is away.
# Use, as root: tests/private.sh, from anywhere. APD names the program, and PRIVATE another folder of tools/. It
# ends with status 1 at the first thing that is amiss, and with 77 where no namespace can be made.
here=$(dirname "$(readlink -f "$0")")
. "$here/testing"
needs ip setpriv python3
if [ "$(id -u)" != 0 ] || ! unshare --net true; then
    echo "private.sh: it needs root, and that a network namespace can be made" >&2
    exit 77
fi
# What other users run, where they can reach it.
chmod 755 "$folder"
mkdir bin
cp "$program" bin/apd
cp -r "${PRIVATE:-$here/../tools}/apd-service" "${PRIVATE:-$here/../tools}/apd-ctrl" "${PRIVATE:-$here/../tools}/private" bin
chmod -R a+rX bin

{
    printf 'interface=other\ninterface=wlan0\r\nbssid=02:00:00:00:00:01\nssid=net\n'
    printf 'accept_mac_file=list\ndeny_mac_file=list\n'
} >wlan0.conf
printf 'interface=wlan1\nbssid=02:00:00:00:00:02\nssid=net\nchannel=6\n' >wlan1.conf
# A list whose text is as long as one may be.
awk 'BEGIN { for (i = 0; i < 1024; i++) printf "02:00:01:00:%02x:%02x\n", i / 256, i % 256 }' >list
"$program" format store >/dev/null
chown 61001 store

mkdir fronts
bin/apd-ctrl "$("$here/free-ports" 1)" fronts wlan1.conf &
process=$!
trap 'kill "$process" 2>/dev/null || :; rm -rf "$folder"' EXIT
python3 - <<'END'
import os, socket, time

with socket.socket(socket.AF_UNIX, socket.SOCK_DGRAM) as asker:
    asker.bind("asker")
    asker.settimeout(9)
    for _ in range(200):
        if os.path.exists("fronts/wlan1"):
            break
        time.sleep(0.05)
    asker.sendto(b"PING", "fronts/wlan1")
    reply = asker.recv(64)
assert reply == b"FAIL\n", reply
print("where the daemon is away the reply is FAIL, at once")
END
kill "$process"
wait "$process" || :
python3 "$here/../tools/private/tries.py" "$("$here/free-ports" 3)"
