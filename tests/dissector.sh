#!/bin/sh
# Has Wireshark's dissector read each frame that apd sends in the scripts of examples/ and in the cases of apd_sessions,
# and looks whether it is what the tables of docs/FORMATS.md have: of the requests too, only the dissector reads bytes.
# Use: tests/dissector.sh, from anywhere. APD names the program. It ends with status 1 where a frame is another one, and
# with status 77 where there is no tshark.
here=$(dirname "$(readlink -f "$0")")
. "$here/testing"
for command in tshark text2pcap; do
    command -v "$command" >/dev/null || {
        echo "dissector.sh: it needs the command $command" >&2
        exit 77
    }
done
needs python3
"$program" format --missing store >/dev/null
"$here/dissector.py" "$program" store
