#!/bin/sh
# Has apd meet what keeps it from a file or a port, and configurations with faulty lines, and looks at the lines that it
# prints behind the fault's own.
# Use: tests/reasons.sh, from anywhere. APD names the program. It ends with status 1 at the first that is another one.
here=$(dirname "$(readlink -f "$0")")
. "$here/testing"
needs flock prlimit python3 setpriv
port=$("$here/free-ports" 3)

# Runs the program with the words behind the last line that is wanted, under a limit if there is one, and compares what it
# prints on standard error. Its status must be 1.
limit=
wants() {
    printf '%s\n' "$1" >wanted
    shift
    status=0
    # (The limit is a command and its words.)
    # shellcheck disable=SC2086
    timeout 60 $limit "$program" "$@" </dev/null >/dev/null 2>found || status=$?
    if [ "$status" != 1 ] || ! cmp -s wanted found; then
        echo "apd $*: status $status, and it says"
        cat found
        echo "wanted:"
        cat wanted
        exit 1
    fi
    echo "apd $*: $(tail -n 1 found)"
}

# The line of a file that can't be read, and why.
unread() {
    printf 'apd: cannot read %s\napd: %s: %s' "$1" "$1" "$2"
}

printf 'interface=wlan0\nbssid=02:00:00:00:00:01\nssid=net\n' >conf
printf 'interface=wlan1\nbssid=02:00:00:00:00:02\nssid=net\n' >other
"$program" format --missing store >/dev/null

# Files.
wants "$(unread none 'not there')" check none
wants "$(unread none 'not there')" script --store none
wants "$(unread '' 'not there')" script --store ''
wants "$(unread none 'not there')" run --store none --port "$port" conf
wants "$(unread none 'not there')" run --store store --port "$port" none
wants "$(unread none/store 'its folder is not there')" format --missing none/store
wants "$(unread none/store 'its folder is not there')" format none/store
mkdir folder
wants "$(unread folder 'a folder')" check folder
wants "$(unread folder 'a folder')" run --store store --port "$port" folder
mkfifo fifo
wants "$(unread fifo 'no regular file')" check fifo
ln -s nowhere link
wants "$(unread link 'a link to what is not there')" format --missing link
wants "$(unread none 'not there')" upgrade none new
wants "$(unread conf/store 'not there: a part of its path is no folder')" check conf/store
truncate -s 16777217 long
wants "$(unread long 'more than 16777216 bytes')" script long
if [ "$(id -u)" != 0 ]; then
    cp store mine
    chmod 000 mine
    wants "$(unread mine 'no permission')" check mine
    chmod 500 folder
    wants "$(unread folder/store 'no permission')" format --missing folder/store
fi
# (It waits for the pipe, and may then open nothing more.)
mkfifo pipe
"$program" run --store store --port "$port" pipe </dev/null 2>found &
process=$!
sleep 1
prlimit --pid "$process" --nofile=3:3
cat conf >pipe
wait "$process" && exit 1
unread store 'too many open files (ulimit -n)' >wanted
echo >>wanted
cmp wanted found
# Few files: the store, what watches it, or a port is one too many.
for files in 5 6 7 8; do
    limit="prlimit --nofile=$files"
    case $files in
        5 | 6) why=$(unread store 'too many open files (ulimit -n)') ;;
        *) why="apd: no socket
apd: ports from $port on: nobody has them now: one was in use a moment ago, or too many files were open (ulimit -n)" ;;
    esac
    wants "$why" run --end-at-fault --store store --port "$port" conf
done
limit=

# No store: by its length, or its beginning.
no_store() {
    printf 'apd: not a store\napd: %s: %s' "$1" "$2"
}
printf RAPSTOR2 >short
cp store old
printf 1 | dd of=old bs=1 seek=7 conv=notrunc 2>/dev/null
head -c 2097216 /dev/zero >zeros
for words in "check short" "format short" "format --missing short" "script --store short" \
    "run --store short --port $port conf" "upgrade short new" "upgrade old short"; do
    # shellcheck disable=SC2086
    wants "$(no_store short 'it has 8 bytes, and a store 2097216')" $words
done
for words in "check zeros" "script --store zeros" "run --store zeros --port $port conf" "upgrade zeros new" \
    "upgrade zeros short"; do
    # shellcheck disable=SC2086
    wants "$(no_store zeros 'it does not begin as a store does')" $words
done
[ ! -e new ]
wants "$(unread ./old 'OLD and NEW are one file')" upgrade old ./old
mkdir full
if mount -t tmpfs -o size=1m none full 2>/dev/null; then
    wants "$(unread full/store 'no room on the disk')" format --missing full/store
    mount -o remount,ro full
    wants "$(unread full/store 'on a read-only file system')" format --missing full/store
    umount full
fi

# Has another process, which becomes $holder, hold a file.
hold() {
    rm -f sleeper
    flock "$1" sh -c 'echo $$ >sleeper; exec sleep 30' &
    while [ ! -s sleeper ]; do sleep 0.05; done
    holder=$(ps -o ppid= -p "$(cat sleeper)" | tr -d ' ')
}
let_go() {
    kill "$(cat sleeper)"
    wait || true
}

# A store that is in use, and by whom.
hold store
for words in "check store" "script --store store" "run --store store --port $port conf" "format --missing store"; do
    # shellcheck disable=SC2086
    wants "$(unread store "in use by process $holder (flock)")" $words
done
let_go

# Recordings.
wants "$(unread store.0 'its folder is not there' | sed 's/store\.0/none\/it.0/g')" \
    run --store store --port "$port" --record none/it conf
"$program" format --missing rec.0 >/dev/null
wants "$(unread rec.0 'it begins as a store does, so nothing is recorded over it')" \
    run --store store --port "$port" --record rec conf
cp conf conf.0
wants "$(unread conf.0 'the store, a configuration or a list, so nothing is recorded over it')" \
    run --store store --port "$port" --record conf conf.0
# A link is the file that it leads to, and a list is kept as a configuration is.
cp conf real.0
ln -s real.0 linked
for list in accept deny; do
    cp conf with_"$list"
    echo "${list}_mac_file=$list.0" >>with_"$list"
    echo 02:00:00:00:00:aa >"$list.0"
done
for words in "real linked" "accept with_accept" "deny with_deny"; do
    # shellcheck disable=SC2086
    wants "$(unread "${words% *}.0" 'the store, a configuration or a list, so nothing is recorded over it')" \
        run --store store --port "$port" --record $words
    [ -s "${words% *}.0" ]
done
# Two files that have one number, on two devices.
mkdir one two
if mount -t tmpfs none one 2>/dev/null && mount -t tmpfs none two 2>/dev/null; then
    cp conf one/it
    : >two/it.0
    if [ "$(stat -c %i one/it)" = "$(stat -c %i two/it.0)" ]; then
        "$program" run --store store --port "$port" --record two/it one/it </dev/null 2>found
        echo "two files of one number: $(tail -n 1 found)"
    fi
    umount one two
fi
limit="prlimit --nofile=7"
wants "$(unread it.0 'too many open files (ulimit -n)')" \
    run --end-at-fault --store store --port "$port" --record it conf
limit=
hold rec.0
wants "$(unread rec.0 "in use by process $holder (flock)")" run --store store --port "$port" --record rec conf
let_go
rm -f rec.0

# Ports.
python3 -c "
import socket, sys, time
held = socket.socket(socket.AF_INET, socket.SOCK_DGRAM)
held.bind(('127.0.0.1', int(sys.argv[1])))
open('bound', 'w').write('.')
time.sleep(30)
" $((port + 2)) &
holder=$!
while [ ! -s bound ]; do sleep 0.05; done
wants "apd: no socket
apd: port $((port + 2)): for wlan1: in use by another socket (ss -ulnp)" run --store store --port "$port" conf other
wants "apd: no socket
apd: port $((port + 2)): for control commands: in use by another socket (ss -ulnp)" \
    run --store store --port $((port + 2)) conf
kill "$holder"
wait || true

# No thread: this user may have no more processes. (Root always may.)
cp "$program" mine
chmod 711 . && chmod 755 mine && chmod 666 store
limit="prlimit --nproc=1"
[ "$(id -u)" != 0 ] || limit="setpriv --reuid=65534 --clear-groups prlimit --nproc=1"
$limit ./mine run --store store --port "$port" conf </dev/null 2>found && exit 1
tail -n 2 found | tee threads
cmp - threads <<'END'
apd: no thread
apd: threads: as many as this user may have (ulimit -u) or its group of processes (pids.max), or no memory for one more
END
limit=
chmod 600 store

# Faulty lines, of all files.
{
    printf '\357\273\277interface=wlan0\r\n'
    printf 'channel=197\nhw_mode=g \nwpa=2\nwpa_passphrase=secret\nchanel=6\nchannel 6\n # remark\n'
    printf 'channel =6\nmax_num_sta= 5\naccept_mac_file=accept\ndeny_mac_file=deny\nbssid=01:00:00:00:00:01\n'
} >faulty
printf '02:00:00:00:00:aa\n02:00:00:00:00:ag\n 02:00:00:00:00:ab\n-02:00:00:00:00:aa remark\n' >accept
wants "apd: line 1: unknown name
apd: faulty: line 1: unknown name: interface: a byte order mark stands in front of it
apd: faulty: line 2: bad value: channel: 0 to 196
apd: faulty: line 3: bad value: hw_mode: a, b or g; of the value: a blank stands behind it
apd: faulty: line 4: security is not supported: wpa: 0 alone, since the network is to be open
apd: faulty: line 5: unknown name: wpa_passphrase: there is no security, and the network is to be open
apd: faulty: line 6: unknown name: chanel: docs/FORMATS.md has the names
apd: faulty: line 7: no '=': channel 6: a line is a name, = and a value
apd: faulty: line 8: no '=':  # remark: a remark has its # in front of all
apd: faulty: line 9: unknown name: channel : a blank stands behind it
apd: faulty: line 10: bad value: max_num_sta: 0 to 2007; of the value: a blank stands in front of it
apd: faulty: line 13: bad value: bssid: an address of no group, as 02:00:00:00:00:01
apd: faulty: missing interface: 1 to 15 printing characters of ASCII, no blank
apd: faulty: missing ssid: 1 to 32 bytes
apd: accept: line 2: bad address: 02:00:00:00:00:ag: an address, as 02:00:00:00:00:aa
apd: accept: line 3: bad address:  02:00:00:00:00:ab: a blank stands in front of it
apd: deny: not there" script faulty conf
printf 'interface=wlan9\nbssid=02:00:00:00:00:09\nssid=net\ndeny_mac_file=deny\n' >listed
wants "$(unread deny 'not there')" script conf listed
awk 'BEGIN { for (i = 0; i < 1025; i++) printf "02:00:00:00:%02x:%02x\n", i / 256, i % 256 }' >deny
wants "apd: too many addresses
apd: deny: too many addresses: 1024 at most" script listed
wants "apd: interface given twice
apd: conf.0: interface wlan0 is that of conf
apd: conf.0: bssid 02:00:00:00:00:01 is that of conf" script conf conf.0

# What is taken as it stands, with a warning.
printf 'interface=wlan0\nbssid=02:00:00:00:00:01\nssid="net"\n' >quoted
printf 'interface=wlan1\nbssid=02:00:00:00:00:02\nssid=net \n' >blank
echo 'cmd STATUS' | "$program" script quoted blank >status 2>found
grep -qF '"net' status
printf '[WARN  apd] %s\n' "wlan0: the quotes belong to the ssid, as it is given" \
    "wlan1: the ssid ends in a blank, as it is given" >wanted
cmp wanted found
"$program" run --store store --port "$port" quoted </dev/null 2>served
head -n 1 wanted >first
head -n 1 served | cmp - first
echo "quoted ssid: taken, with a warning"
