#!/bin/sh
# Measures what apd run does with a storm of reassociations, as after a power cut, over the loopback: on a store in
# memory and on one on disk, with few stations and many, beside a bare loop of receive and send and bare pairs of syncs
# of the same minute; then what it costs idle, and how long a single frame waits; then what scans get, from the probe
# request to its response. docs/BENCHMARK.md has the newest figures.
# Use: bench/serving.sh, from anywhere; it needs a C compiler, and takes some five minutes. It ends with status 1
# where something is missing, or a station gets no answer. Variables: APD, the program (else that of ./apd, which is
# built first); PARTS, what is measured: storm, quiet and scans, or some of them; MEMORY and DISK, the folders of the
# stores; CASES, the radios and the stations of each; WINDOWS; ROUNDS, of which the best is printed, and of scans the
# median; PATIENCE, the milliseconds until a frame is sent again.
# Columns: asks/s, requests answered a second; p50 and p99, milliseconds to an answer; again, frames that were sent
# again; loop/s, asks/s of the bare loop, and how asks/s stands to it; rows, requests in a commit, and commits/s, both as
# the store tells; pairs/s, how often a second a bare loop writes and syncs twice as a commit does, and how commits/s
# stands to it. Of quiet: the part of a processor that is taken while nobody asks, how often a second a thread goes to
# sleep then, and milliseconds until a single frame is answered, by apd and by the bare loop.
set -eu
here=$(dirname "$(readlink -f "$0")")
program=${APD:-$here/../crates/apd/out/apd}
port=$((20000 + $$ % 20000))
folder=
process=
tools=$(mktemp -d)

clean() {
    [ -z "$process" ] || kill -9 "$process" 2>/dev/null || :
    wait
    rm -rf "$tools" "$folder"
}
trap clean EXIT
trap 'exit 130' INT
trap 'exit 143' TERM

# Waits until the command behind the text succeeds, for ten seconds; else all ends with the text.
await() {
    looks=0
    text=$1
    shift
    until "$@" 2>/dev/null; do
        looks=$((looks + 1))
        if [ "$looks" -gt 100 ]; then
            echo "serving: $program $text: $(cat "$folder/log")" >&2
            exit 1
        fi
        sleep 0.1
    done
}

# Serves a new store in this folder, with so many radios, until end is called.
begin() {
    folder=$(mktemp -d "$1/serving.XXXXXX")
    for radio in $(seq 0 $(($2 - 1))); do
        printf 'interface=wlan%d\nbssid=02:00:00:00:00:0%d\nssid=net\nhw_mode=g\nap_max_inactivity=86400\n' \
            "$radio" "$((radio + 1))" >"$folder/wlan$radio.conf"
    done
    "$program" format "$folder/store" >/dev/null
    mkfifo "$folder/input"
    : >"$folder/log"
    "$program" run --store "$folder/store" --port "$port" "$folder"/wlan*.conf <"$folder/input" 2>"$folder/log" &
    process=$!
    exec 3>"$folder/input"
    await "serves nothing" grep -q "serves commands" "$folder/log"
}

has_ended() {
    ! kill -0 "$process"
}

end() {
    exec 3>&-
    await "does not end" has_ended
    process=
    rm -rf "$folder"
}

# The nanoseconds that the program ran, and how often its threads went to sleep.
cost() {
    cat "/proc/$process"/task/*/schedstat "/proc/$process"/task/*/status |
        awk 'NF == 3 && /^[0-9]/ { ran += $1 } /^voluntary_ctxt_switches/ { slept += $2 } END { print ran, slept }'
}

# What it costs in ten seconds: percent of a processor, and sleeps a second.
idle() {
    before=$(cost)
    sleep 10
    echo "$before $(cost)" | awk '{ printf "%10.2f %9.0f", ($3 - $1) / 1e8, ($4 - $2) / 10 }'
}

${CC:-cc} -O2 -o "$tools/serving" "$here/serving.c"
[ -n "${APD:-}" ] || "$here/../apd" --version >/dev/null
"$program" --version
echo "$(nproc) processors; sockets may ask for $(cat /proc/sys/net/core/rmem_max) bytes to receive"

# Whether this part is to be measured.
has_part() {
    case " ${PARTS:-storm quiet scans} " in *" $1 "*) ;; *) return 1 ;; esac
}

# The folder in which a store of this name is to be.
place_of() {
    if [ "$1" = memory ]; then echo "${MEMORY:-/dev/shm}"; else echo "${DISK:-/var/tmp}"; fi
}

# Prints the lines of a store of this name: of storms, and of what is quiet. With so many radios, and stations of each.
serve() {
    stations=$(($2 * $3))
    begin "$(place_of "$1")" "$2"
    ! has_part storm || "$tools/serving" storm "$port" "$2" "$stations" "${ROUNDS:-3}" "$folder/store" "$folder" "$1" \
        ${WINDOWS:-1 16 256}
    if has_part quiet && [ "$1" = memory ]; then
        idle=$(idle)
        single=$("$tools/serving" single "$port" "$2")
        printf '%8d %6d %s %s\n' "$stations" "$2" "$idle" "$single" >>"$tools/quiet"
    fi
    end
}

if has_part storm; then
    echo
    echo "store   stations window    asks/s      p50      p99  again    loop/s  ratio   rows commits/s  pairs/s" \
        " ratio  load"
fi
for store in memory disk; do
    for case in ${CASES:-1x100 1x2007 8x2007}; do
        if has_part storm || has_part quiet; then serve "$store" "${case%x*}" "${case#*x}"; fi
    done
done
if has_part quiet; then
    echo
    echo "stations radios     idle %  sleeps/s      one      p99     loop      p99  load"
    cat "$tools/quiet"
fi
if has_part scans; then
    echo
    echo "store   request     window   asks/s   least    most      p50   least    most      p99   least    most" \
        "   loop     p99 commits  load"
    for store in memory disk; do
        begin "$(place_of "$store")" 1
        "$tools/serving" probes "$port" "${ROUNDS:-3}" "$folder/store" "$store" ${WINDOWS:-1 16 256}
        end
    done
fi
