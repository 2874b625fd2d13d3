#!/bin/sh
# Tries apd check on what no test can make or start: a FIFO, a copy that nobody may write, a store that is served.
# Use: tests/check.sh, from anywhere. APD names the program. It ends with status 1 at the first answer that is
# another one.
here=$(dirname "$(readlink -f "$0")")
. "$here/testing"
port=$("$here/free-ports" 2)
line='bss 02:00:00:00:00:01 mode 0 max 2007 stations 1 accept 0 deny 0'

# What a check of the name must print, and its status.
wants() {
    # Options and a name, which are words of their own.
    # shellcheck disable=SC2086
    found=$(timeout 20 "$program" check $1 2>&1) && status=0 || status=$?
    # (a line behind a fault's own says why: reasons.sh looks at these)
    case $found in "apd: "*) found=$(echo "$found" | head -n 1) ;; esac
    if [ "$found $status" != "$2 $3" ]; then
        echo "apd check $1: $found, status $status; wanted: $2, status $3"
        exit 1
    fi
    echo "apd check $1: $found"
}

"$program" format new >/dev/null
wants new "" 0
wants missing "apd: cannot read missing" 1
[ ! -e missing ]
mkdir folder
wants folder "apd: cannot read folder" 1
mkfifo fifo
wants fifo "apd: cannot read fifo" 1
head -c 2097215 /dev/zero >zeros
wants zeros "apd: not a store" 1

cp new store
"$program" script --store store <"$here/../examples/first-association.script" >/dev/null
cp store copy
chmod 400 copy
wants copy "$line" 0
cmp store copy

# While a script holds the store, and after it.
mkfifo input
"$program" script --store store <input >/dev/null &
process=$!
exec 3>input
echo >&3
sleep 1
wants store "apd: cannot read store" 1
exec 3>&-
wait "$process"
wants store "$line" 0
wants "--stations store" "$line
station 02:00:00:00:00:aa associated 1" 0
printf 'cmd ACCEPT_ACL ADD_MAC 02:00:00:00:00:cc\ncmd DENY_ACL ADD_MAC 02:00:00:00:00:dd\nflush\n' |
    "$program" script --store store >/dev/null
wants "--stations store" "bss 02:00:00:00:00:01 mode 0 max 2007 stations 1 accept 1 deny 1
station 02:00:00:00:00:aa associated 1
accept 02:00:00:00:00:cc
deny 02:00:00:00:00:dd" 0

# Each of a hundred starts right behind the beginning of a check is served, and so is each check: the second of the two
# waits. (Not for more than two seconds, for which the first may have the store on a machine that is busy with much else.)
printf 'interface=wlan0\nbssid=02:00:00:00:00:01\nssid=net\n' >conf
served=0
slow=0
while [ "$served" -lt 100 ]; do
    began=$(date +%s%N)
    "$program" check store >/dev/null 2>found.check &
    "$program" run --store store --port "$port" conf </dev/null 2>found.run && ran=0 || ran=$?
    wait $! && checked=0 || checked=$?
    if [ "$ran $checked" = "0 0" ]; then
        served=$((served + 1))
    elif [ "$(($(date +%s%N) - began))" -gt 1800000000 ] && [ "$((slow += 1))" -le 20 ]; then
        continue
    else
        echo "start $((served + 1)) behind a check: status $ran, of the check $checked"
        cat found.run found.check
        exit 1
    fi
done
echo "100 starts behind a check"
