#!/bin/sh
# Measures how long apd run takes from its start until it serves, on a store of as many stations as there can be: 2,007
# at each of eight radios, put there by a script of frames. docs/BENCHMARK.md, "A restart", has the newest figures.
# Use: bench/restart.sh, from anywhere; it takes some seconds. It ends with status 1 where something is
# missing, or a start finds other stations. Variables: APD, the program (else that of ./apd, which is built first); DISK,
# the folder of the store; STARTS, how many there are.
set -eu
here=$(dirname "$(readlink -f "$0")")
program=${APD:-$here/../crates/apd/out/apd}
port=$((20000 + $$ % 20000))
folder=$(mktemp -d "${DISK:-/dev/shm}/restart.XXXXXX")
process=

clean() {
    [ -z "$process" ] || kill -9 "$process" 2>/dev/null || :
    wait
    rm -rf "$folder"
}
trap clean EXIT
trap 'exit 130' INT
trap 'exit 143' TERM

# Each station authenticates and associates, 500 to a commit.
requests() {
    awk 'BEGIN {
        for (radio = 1; radio <= 8; radio++) {
            bssid = sprintf("02000000000%d", radio)
            for (station = 1; station <= 2007; station++) {
                own = sprintf("06%02x%08x", radio, station * 65537)
                head = bssid own bssid
                print "rx wlan" radio - 1 " b0000000" head "1000000001000000"
                print "rx wlan" radio - 1 " 00000000" head "200031040a0000036e6574010482848b96"
                if (station % 250 == 0) print "flush"
            }
            print "flush"
        }
    }'
}

# Starts and ends the program, and prints the milliseconds until it served.
start() {
    : >"$folder/log"
    began=$(date +%s%N)
    "$program" run --store "$folder/store" --port "$port" "$folder"/wlan*.conf <"$folder/input" 2>"$folder/pipe" &
    process=$!
    exec 3>"$folder/input" 4<"$folder/pipe"
    line=
    while read -r next <&4; do
        line=$next
        case $line in *"serves commands"*) break ;; esac
    done
    ended=$(date +%s%N)
    exec 3>&-
    cat <&4 >/dev/null
    exec 4<&-
    wait "$process"
    process=
    case $line in
    *"stations recovered: 16056") echo "$began $ended" | awk '{ print ($2 - $1) / 1e6 }' ;;
    *) echo "restart: $program said: $line" >&2 && exit 1 ;;
    esac
}

[ -n "${APD:-}" ] || "$here/../apd" --version >/dev/null
for radio in 0 1 2 3 4 5 6 7; do
    printf 'interface=wlan%d\nbssid=02:00:00:00:00:0%d\nssid=net\nhw_mode=g\nap_max_inactivity=86400\n' \
        "$radio" "$((radio + 1))" >"$folder/wlan$radio.conf"
done
"$program" format "$folder/store" >/dev/null
requests | "$program" script --store "$folder/store" "$folder"/wlan*.conf >/dev/null
mkfifo "$folder/input" "$folder/pipe"
for _ in $(seq "${STARTS:-20}"); do
    start
done >"$folder/took"
sort -n "$folder/took" | awk '{ took[NR] = $1 }
    END { printf "milliseconds until it served: %.1f at the least, %.1f in the median, %.1f at the most; %d starts\n",
          took[1], took[int((NR + 1) / 2)], took[NR], NR }'
