#!/bin/sh
# Measures how long it takes apd run to let all stations go that fall silent at once: they associate, and then say
# nothing. After ap_max_inactivity seconds each is put back to authenticated, and after as many again it is removed.
# Meanwhile passers-by are answered. docs/BENCHMARK.md has the newest figures.
# Use: bench/silence.sh, from anywhere; it needs a C compiler, and for each line twice SILENT seconds and more. It ends with
# status 1 where something is missing, or a station stays. Variables: APD, the program (else that of ./apd, which is built
# first); CASES, the radios and the stations of each; SILENT, the seconds (else 60); FOLDER, where the store is.
# Columns: after how many seconds the first station was put back, and how many later the last one; the same of stations
# that are removed; then of the passers-by, while no station goes and while some do, how many were answered, and after how
# many milliseconds: half of them, all but one in a hundred, and the last.
set -eu
here=$(dirname "$(readlink -f "$0")")
program=${APD:-$here/../crates/apd/out/apd}
silent=${SILENT:-60}
port=$((20000 + $$ % 20000))
folder=$(mktemp -d "${FOLDER:-/dev/shm}/silence.XXXXXX")
process=

clean() {
    [ -z "$process" ] || kill -9 "$process" 2>/dev/null || :
    wait
    rm -rf "$folder"
}
trap clean EXIT
trap 'exit 130' INT
trap 'exit 143' TERM

# Has so many radios, and so many stations at each, fall silent over a new store.
measure() {
    rm -f "$folder"/wlan*.conf "$folder/store" "$folder/input"
    for radio in $(seq 0 $(($1 - 1))); do
        printf 'interface=wlan%d\nbssid=02:00:00:00:00:0%d\nssid=net\nhw_mode=g\nap_max_inactivity=%d\n' \
            "$radio" "$((radio + 1))" "$silent" >"$folder/wlan$radio.conf"
    done
    "$program" format "$folder/store" >/dev/null
    mkfifo "$folder/input"
    "$program" run --store "$folder/store" --port "$port" "$folder"/wlan*.conf <"$folder/input" 2>"$folder/log" &
    process=$!
    exec 3>"$folder/input"
    looks=0
    until grep -q "serves commands" "$folder/log"; do
        looks=$((looks + 1))
        if [ "$looks" -gt 200 ]; then
            echo "silence: $program serves nothing: $(cat "$folder/log")" >&2
            exit 1
        fi
        sleep 0.1
    done
    "$folder/serving" silence "$port" "$1" $(($1 * $2)) "$silent"
    exec 3>&-
    wait "$process"
    process=
}

${CC:-cc} -O2 -o "$folder/serving" "$here/serving.c"
[ -n "${APD:-}" ] || "$here/../apd" --version >/dev/null
"$program" --version
echo "$(nproc) processors; ap_max_inactivity $silent"
echo
echo "stations radios    first  to last    first  to last answers     p50     p99    most answers     p50     p99" \
    "   most  load"
for case in ${CASES:-1x2007 8x2007}; do
    measure "${case%x*}" "${case#*x}"
done
