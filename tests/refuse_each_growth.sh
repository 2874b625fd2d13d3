#!/bin/sh
# Runs each session of apd_sessions with each of its allocations refused, one a run, until a run meets no refusal. The
# call that met it must say so, leave what can be seen as it was, and be made once more; and then the session must go
# on as with ample memory, to the byte. But a recovery that is made again calls its device anew, and so do a restart and
# an upgrade; a start that is made again configures anew: what is wanted of each is below, and each must be met. Where a
# device in memory met it, that is a device fault, at which the session ends: its device must then have served as many
# of the calls as are below and a recovery's alone, and show the table before or after the commit that was under way;
# and slots that a restart hands back are as they were. A check that fails keeps its device, of which nothing is seen.
# Use: tests/refuse_each_growth.sh [SESSION..], anywhere; it needs a C compiler. SESSIONS names the program, else it
# is the one that `rt run` in crates/apd_sessions leaves. Sessions are run side by side, and each ends at the first run
# that shows anything else: the status is 1 then. It prints for each session, in order, how many allocations there are,
# and who met them, with the sum of all last.
set -eu
here=$(dirname "$(readlink -f "$0")")
crate=$(readlink -f "$here/../crates/apd_sessions")
program=${SESSIONS:-$crate/out/apd_sessions}
if [ ! -x "$program" ]; then
    echo "${0##*/}: there is no program $program: rt run in $crate builds it, or SESSIONS names another" >&2
    exit 1
fi
program=$(readlink -f "$program")
command -v "${CC:-cc}" >/dev/null || {
    echo "${0##*/}: it needs a C compiler: see .ci/packages" >&2
    exit 1
}
folder=$(mktemp -d)
runs=
trap '[ -z "$runs" ] || kill $runs 2>/dev/null || :; wait; rm -rf "$folder"' EXIT
trap 'exit 130' INT
trap 'exit 143' TERM
${CC:-cc} -O2 -shared -fPIC -o "$folder/refuse.so" "$here/refuse_each_growth.c" -ldl
cd "$folder"

# Whether what was found is what is wanted. A line "again: .." is taken out; without one the library made up for what
# it was refused, as where it collects and had asked for room beforehand. Behind a device fault must stand the slots or
# the calls of an old device that are handed back there; the last table before it, or the next one that was wanted; and
# the first calls that were wanted of the device, and the recovery's. Where steps tell of calls, those are as many as
# they told of, behind the recovery that the session begins with, and none is behind it where they told of none. How
# many they are is noted, with those of an old device. Only while a store is made does the device show none.
compare() {
    awk '
        function bad(why) { print why; failed = 1; exit 1 }
        function is_state(line) { return line ~ /^table: / || line == "no store" }
        file == 1 {
            wanted[++all] = $0
            if ($0 == "old:") old = all
            if ($0 == "left:") end = all
            if (end && !read && $0 == "Read(0, 2097216)") read = all - end - 1
            next
        }
        file == 2 { slots[++slot_lines] = $0; next }
        /^changed: / { bad($0) }
        /^again: / { again++; next }
        $0 == "device fault" { device++; next }
        device && $0 == "left:" { behind = 1; next }
        device && !behind { handed[++handed_lines] = $0; next }
        behind == 1 { left = $0; behind = 2; next }
        behind { calls[++count] = $0; next }
        { if ($0 != wanted[++line]) bad("line " line ": " $0) }
        END {
            if (failed) exit 1
            if (device + again > 1) bad("told " device + again " times")
            if (!device && line != all) bad("ended at line " line)
            if (!device) exit 0
            if (!behind && (wanted[1] != "= check" || line > 1 || handed_lines)) bad("no device is left")
            if (!behind) exit 0
            for (i = 1; i <= line; i++) if (is_state(wanted[i])) before = wanted[i]
            for (i = all; i > line; i--) if (is_state(wanted[i])) after = wanted[i]
            served = count - 2
            is_told = before ~ /^table: /
            if (!is_told && served >= read - 2) before = after
            if (left != before && left != after) bad("left " left)
            for (i = 1; i <= all; i++) if (wanted[i] == "Called(Ok(()))") { steps++; if (i <= line) told++ }
            if (steps && (told ? served != read + told : served > read)) bad("served " served " calls")
            if (calls[count - 1] != "Sync" || calls[count] != "Read(0, 2097216)") bad("not recovered")
            for (i = 1; i <= served; i++) if (calls[i] != wanted[end + 1 + i]) bad("call " i ": " calls[i])
            if (old > line) {
                for (i = 1; i <= handed_lines; i++) if (handed[i] != wanted[old - 1 + i]) bad("old: " handed[i])
                served = served "/" handed_lines - 1
            } else {
                if (handed_lines != (!is_told && served >= read - 2 ? slot_lines : 0))
                    bad("handed back: " handed_lines " lines")
                for (i = 1; i <= handed_lines; i++) if (handed[i] != slots[i]) bad("handed back: " handed[i])
            }
            print served >>"served"
        }' file=1 "$1" file=2 handed file=3 found
}

# What is wanted where the first recovery of a device, or the last, was made again. The other was given up behind its
# sync, or behind its read.
print_recovered() {
    awk -v which="$1" -v behind="$2" '
        NR == FNR { if (/^Read\(0, 2097216\)$/ && (which == "last" || !at)) at = FNR; next }
        FNR == at { if (behind == "read") print; print "Sync" }
        { print }' wanted wanted
}

# A slot that came back: the number of its radio, whether it is up, and the identifiers that it wants, and its radio
# has, of two stations. No out waits there.
print_slot() {
    printf 'slot: Bssid(Addr([2, 0, 0, 0, 0, %d])) up %s waiting 0\n' "$1" "$2"
    printf 'Addr([2, 0, 0, 0, 0, %d]) wanted %s installed %s\n' 170 "$3" "$3" 187 "$4" "$4"
}

# What is read, with these slots, which came back, before the first table.
print_with_slots() {
    awk '
        NR == FNR { slots = slots $0 "\n"; next }
        /^table: / && !told++ { printf "%s", slots }
        { print }' "$1" -
}

# What is wanted where a restart of these radios was made again. The slots come back as they were.
print_restarts() {
    for radio in "$@"; do print_slot "$radio" true None None; done >handed
    print_recovered first sync | print_with_slots handed >restart.1
    print_recovered first read | print_with_slots handed >restart.2
}

# The same where the first slot lacked memory for its station, and where the second one did.
print_restarts_down() {
    { print_slot 1 false None None; print_slot 2 true None None; } >slots
    print_recovered first read | print_with_slots slots >restart.3
    { print_slot 1 true "Some(1)" None; print_slot 2 false None None; } >slots
    print_recovered first read | print_with_slots slots >restart.4
}

# How many bytes these records have.
length_of() {
    echo $(($(printf %s "$1" | tr -dc , | wc -c) + 1))
}

# The calls of a commit of these records, behind the closed gate at this place.
print_commit() {
    printf 'Write(%d, Sequence { items: [%d, 0, 0, 0, %s, 0] })\nSync\n' $(($1 + 1)) "$(length_of "$2")" "$2"
    printf 'Write(%d, Sequence { items: [1] })\nSync\n' "$1"
}

# What is wanted with the table that a start left that was refused, behind the first one: this one of those that are
# wanted; and with so many entries. What is read are the calls between the recoveries.
print_started() {
    awk -v which="$1" -v entries="$2" '
        NR == FNR { if (/^table: /) { tables[++count] = $0 } next }
        FNR == 1 { file++ }
        file == 1 { calls = calls $0 "\n"; next }
        is_behind { next }
        /^settled: / { sub(/[0-9]+/, entries) }
        { print }
        /^table: / && !told++ { print tables[which] }
        /^Read\(0, 2097216\)$/ { printf "%sSync\nRead(0, 2097216)\n", calls; is_behind = 1 }' wanted - wanted
}

# What is wanted where a start was made again. The first may have come to nothing; to the first radio's start; to both,
# uncommitted; or to both, in a batch of its own, which was taken, or published too. In each of these cases it handed no
# out to a radio, so the second, made behind it, hands out the same frames, and tells so. Use: print_starts PLACE FIRST
# BEHIND BOTH BEHIND, the place of the closed gate and the records of each.
print_starts() {
    print_commit "$1" "$4" | print_started 1 2 >start.1
    print_commit "$1" "$2, $3" | print_started 1 3 >start.2
    print_commit "$1" "$4, $5" | print_started 1 4 >start.3
    { print_commit "$1" "$4"; print_commit $(($1 + 5 + $(length_of "$4"))) "$5"; } >commits
    print_started 1 4 <commits >start.4
    print_started 2 4 <commits >start.5
}

# The records of a policy: the number of its radio, its mode; of an address that is listed there, denied or not; and of
# a station that leaves there.
policy() {
    echo "6, 2, 0, 0, 0, 0, $1, $2, 215, 7"
}

listed() {
    echo "3, 2, 0, 0, 0, 0, $1, $2, 2, 0, 0, 0, 0, $3"
}

left() {
    echo "2, 2, 0, 0, 0, 0, $1, 2, 0, 0, 0, 0, $2"
}

# On a new store both radios get their policies and lists. A second time they get their policies.
print_new_starts() {
    first="$(policy 1 0), $(listed 1 1 204)"
    second="$(policy 2 1), $(listed 2 0 170), $(listed 2 0 187)"
    print_starts 77 "$first" "$(policy 1 0), $second" "$first, $second" "$(policy 1 0), $(policy 2 1)"
}

# On a store with stations both get their policies, and the second one's stations, which it then denies, leave. The
# first may also have made as many steps of its hand-out as a list first has room for, four: it handed to both radios,
# and applied two of the three outs. The third waits then, and to control, which comes last, nothing was handed. The
# second hands nothing more to either radio, applies the third out, and hands to control.
print_late_starts() {
    both="$(policy 1 0), $(left 2 170), $(left 2 187), $(policy 2 1)"
    print_starts 209 "$(policy 1 0)" "$both" "$both" "$(policy 1 0), $(policy 2 1)"
    awk -v room=4 '
        /^(Radio|Control)/ && ++answers <= room {
            if (/: Applied\(/) next
            sub(/Queued\([0-9]+\)/, "Queued(0)")
        }
        { print }' start.5 >start.6
}

# What is wanted where an upgrade was made again: behind the sync of the old device, and behind its read; or behind all
# calls, where `copied` could not be told. Then the new device is a store already, whose mark is taken away.
print_upgrades() {
    print_recovered first sync >upgrade.1
    print_recovered first read >upgrade.2
    awk '
        { print }
        /^table: / { told = 1; next }
        told { calls[++count] = $0 }
        told && count == 7 {
            for (i = 1; i <= 7; i++) {
                print calls[i]
                if (i == 2) print "Write(0, Sequence { items: [0, 0, 0, 0, 0, 0, 0, 0] })\nSync"
            }
            told = 0
        }' upgrade.2 >upgrade.3
}

# All that is wanted of a session where a call was made again by which its device may have been called.
print_each() {
    rm -f ./*.[0-9]
    : >handed
    case $1 in
        stations | commands) print_restarts 1 ;;
        radios) print_restarts 1 2 ;;
        start) print_restarts 1 2; print_new_starts ;;
        restart) print_restarts 1 2; print_restarts_down; print_late_starts ;;
        check) ;;
        upgrade) print_upgrades ;;
        *) return 0 ;;
    esac
    print_recovered last sync >recover.1
    print_recovered last read >recover.2
}

# Whether a run is what is wanted, or one of what is wanted where that call was made again; else it says what isn't. A
# later allocation of a call is met no earlier in it.
judge() {
    : >whys
    call=$(sed -n 's/^again: //p' found)
    [ -e "$call.1" ] || { compare wanted; return; }
    least=$(grep "^${call}[.]" met | tail -n 1)
    for each in "$call".?; do
        [ "${each##*.}" -ge "${least##*.}" ] 2>/dev/null || [ -z "$least" ] || continue
        ! compare "$each" >why || { echo "$each" >>met; return 0; }
        echo "$each: $(cat why)" >>whys
    done
    cat whys
    return 1
}

# Each of what is wanted where a call was made again has to be met: a run was so.
print_met() {
    case $1 in
        stations | commands | radios) echo "recover.1 recover.2 restart.1 restart.2" ;;
        start) echo "recover.1 recover.2 restart.1 restart.2 start.1 start.2 start.3 start.4 start.5" ;;
        restart)
            echo "recover.1 recover.2 restart.1 restart.2 restart.3 restart.4 start.1 start.2 start.3 start.4 start.5" \
                "start.6"
            ;;
        check) echo "recover.1 recover.2" ;;
        upgrade) echo "recover.1 recover.2 upgrade.1 upgrade.2 upgrade.3" ;;
    esac
}

# Runs a session with the allocation of this number refused; whether there is one. What stands next to that is told by
# the call that met it.
is_refused() {
    REFUSE=$2 LD_PRELOAD=$folder/refuse.so "$program" "$1" >both 2>&1 && status=0 || status=$?
    grep -v -x refused both >found || :
    next=$(sed -n '/^refused$/ { n; p; q; }' both)
    [ "$(grep -c -x refused both)" -gt 0 ]
}

# Whether a run ended well, and says that it lacked memory, or that a device failed, right where that was, or nowhere.
is_told_at_once() {
    [ "$status $(grep -c -x refused both)" = "0 1" ] || return 1
    case $next in
        "again: "* | "device fault") ;;
        *) ! grep -q "^again: \|^device fault$" found ;;
    esac
}

# How many calls the device had served at each device fault, which pins their sequence; of an upgrade, the new one and
# the old one.
print_served() {
    case $1 in
        stations) echo 0 2 3 4 5 8 9 11 13 15 16 17 19 ;;
        commands) echo 0 2 3 4 5 8 9 11 13 15 16 17 19 21 23 25 27 29 31 32 33 35 37 39 ;;
        radios) echo 0 2 3 4 5 8 9 11 13 15 16 17 19 21 23 25 27 29 31 32 ;;
        start) echo 0 2 3 4 5 8 9 11 ;;
        restart) echo 0 2 4 4 ;;
        upgrade) echo 0/0 0/2 2/2 3/2 4/2 5/2 8 ;;
    esac
}

# How many allocations come before a session: those of the command line's words.
words=0
while is_refused nothing "$((words + 1))"; do words=$((words + 1)); done

# Runs a session with each of its allocations refused, in a folder of its own.
try_each() {
    session=$1
    "$program" "$session" >wanted
    awk -v head="= $session" '/^= |^cases\// { is_its = $0 == head } is_its' "$crate/stdout" | cmp -s - wanted ||
        { echo "$session: with ample memory otherwise than $crate/stdout"; exit 1; }
    print_each "$session"
    : >met
    : >served
    count=0
    device=0
    again=0
    while is_refused "$session" "$((words + count + 1))"; do
        if ! is_told_at_once || ! judge; then
            echo "$session, allocation $((count + 1)): status $status, otherwise than with ample memory"
            exit 1
        fi
        count=$((count + 1))
        ! grep -q -x "device fault" found || device=$((device + 1))
        ! grep -q "^again: " found || again=$((again + 1))
    done
    [ "$count" -gt 0 ] || { echo "$session: no allocation was refused"; exit 1; }
    if [ "$status" != 0 ] || ! cmp -s wanted found; then
        echo "$session: another run, status $status"
        exit 1
    fi
    # Only these two collect what they can have in less room.
    case $session in
        commands | restart) ;;
        *) [ "$((again + device))" = "$count" ] || { echo "$session: some are made up for"; exit 1; } ;;
    esac
    met=$(sort -u met | paste -s -d " ")
    [ "$met" = "$(print_met "$session")" ] ||
        { echo "$session: made again as: $met, not as: $(print_met "$session")"; exit 1; }
    served=$(paste -s -d " " served)
    [ "$served" = "$(print_served "$session")" ] ||
        { echo "$session: device faults behind calls: $served, not: $(print_served "$session")"; exit 1; }
    echo "$session $count $again $device $((count - again - device))" >counts
    echo "$session: $count allocations: $again by calls that were made again, $device by a device," \
        "$((count - again - device)) made up for"
}

[ $# -gt 0 ] || set -- stations commands radios start restart files check upgrade
place=0
for session in "$@"; do
    place=$((place + 1))
    cp -r "$crate/data" "$place"
    (
        cd "$place"
        try_each "$session"
    ) >"$place.said" 2>&1 &
    runs="$runs $!"
done
place=0
status=0
for run in $runs; do
    place=$((place + 1))
    wait "$run" || status=1
    runs=${runs#" $run"}
    cat "$place.said"
done
[ "$status" = 0 ] || exit 1
awk '
    { for (i = 2; i <= 5; i++) sum[i] += $i }
    END {
        printf "%d sessions, %d allocations: %d by calls that were made again, ", NR, sum[2], sum[3]
        printf "%d by a device, %d made up for\n", sum[4], sum[5]
    }' ./*/counts
