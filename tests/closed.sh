#!/bin/sh
# Runs the program with a standard stream closed: each of the three, and then all of them, for each subcommand. It must
# end as it does where the stream is open on /dev/null, and leave in its files what it leaves there: a file that gets
# the descriptor of a stream that is closed would have what is printed written into it.
# Use: tests/closed.sh, from anywhere. APD names the program. It ends with status 1 at the first run that shows
# anything else.
here=$(dirname "$(readlink -f "$0")")
. "$here/testing"
needs python3
port=$("$here/free-ports" 2)
printf 'interface=wlan0\nbssid=02:00:00:00:00:01\nssid=net\n' >conf
printf 'interface=wlan0\nnothing\n' >faulty
printf 'no store' >short
cat >script <<'END'
rx wlan0 b00000000200000000010200000000aa0200000000011000000001000000
flush
rx wlan0 000000000200000000010200000000aa020000000001200031040a0000036e6574010482848b96
flush
END
timeout 20 "$program" format empty >/dev/null

# Runs the words behind the first one, which says how: with the stream of this number closed, with all closed (3), with
# none (open), or with none and nothing to read (0open). A script reads the lines above, and the others nothing.
with_closed() {
    how=$1
    shift
    input=/dev/null
    [ "$1" = script ] && input=script
    case $how in
    0) timeout 20 "$program" "$@" <&- >out 2>fault && status=0 || status=$? ;;
    1) timeout 20 "$program" "$@" <"$input" >&- 2>fault && status=0 || status=$? ;;
    2) timeout 20 "$program" "$@" <"$input" >out 2>&- && status=0 || status=$? ;;
    3) timeout 20 "$program" "$@" <&- >&- 2>&- && status=0 || status=$? ;;
    0open) timeout 20 "$program" "$@" </dev/null >out 2>fault && status=0 || status=$? ;;
    *) timeout 20 "$program" "$@" <"$input" >out 2>fault && status=0 || status=$? ;;
    esac
}

# What a run left: its status, and the sums of its files.
left() {
    echo "status $status"
    for file in store short my.0; do
        [ ! -e "$file" ] || cksum "$file"
    done
}

# Whether it ends with each stream closed as it does where that stream is on /dev/null.
try() {
    for stream in 0 1 2 3; do
        open=open
        case $stream in 0 | 3) open=0open ;; esac
        prepare
        with_closed "$open" "$@"
        left >wanted
        prepare
        with_closed "$stream" "$@"
        left >found
        if ! cmp -s wanted found; then
            echo "closed $stream: apd $*: otherwise than with the stream open"
            diff wanted found
            exit 1
        fi
        echo "closed $stream: apd $*: $(head -n 1 found)"
    done
}

prepare() {
    rm -f my.0 out fault store
    cp empty store
}
try format store
try script --store store
try script --store store faulty
try script --store short
try check store
try check short
try run --store store --port "$port" conf
try run --store store --port "$port" --record my conf
try run --store short --port "$port" conf
try run --store store --port "$port" faulty
try --help
try --version

# Where the file is made.
prepare() {
    rm -f my.0 out fault store
}
try format store
