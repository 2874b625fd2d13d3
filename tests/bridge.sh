#!/bin/sh
# Tries the bridge: first beside a fake kernel, which shows what it does at each word of the daemon's; then in a virtual
# machine, with the daemon, where a station of Linux comes in, and loses nothing while the daemon is killed.
# Use: tests/bridge.sh, from anywhere. APD names the program. It ends with status 1 at the first thing that is
# otherwise, and with status 77 where there can be no virtual machine.
here=$(dirname "$(readlink -f "$0")")
. "$here/testing"
needs cc python3
(cd "$here/../bridge" && cc -O2 -Wall -Wextra -Werror -o "$folder/bridge" bridge.c daemon.c common.c fake/kernel.c)
"$here/../bridge/fake/daemon.py" "$folder/bridge" "$("$here/free-ports" 3)"
APD=$program "$here/../bridge/try" smoke
