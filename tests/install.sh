#!/bin/sh
# Installs the program into a folder, and looks at what is there: the program, the pages, and scripts that run; the manual
# has no fault, and has each subcommand and option that the program's help names; the units are hardened, where systemd
# can tell. A folder that no unit can name is refused.
# Use: tests/install.sh, from anywhere. APD names the program, MANUAL another manual, UNIT another unit. It ends with
# status 1 at the first thing that is amiss.
here=$(dirname "$(readlink -f "$0")")
. "$here/testing"
needs man python3
APD=$program "$here/../tools/install" there >out
"$folder/there/sbin/apd" --version >version
(unset APD && "$folder/there/sbin/apd-service" --version >found)
cmp version found
timeout 20 "$folder/there/sbin/apdctl" help | grep -q "^use: "
("$folder/there/sbin/apd-ctrl" 2>&1 || :) | grep -q "^usage: "
for page in RUN SECURITY CONTROL FORMATS SCRIPTS; do [ -s "$folder/there/share/doc/apd/$page.md" ]; done

# What is refused, with its status, or only helps.
wants() {
    status_wanted=$1 wanted=$2
    shift 2
    APD=$program "$@" >found 2>&1 && status=0 || status=$?
    if [ "$status" != "$status_wanted" ] || ! grep -q -e "$wanted" found; then
        echo "install.sh: $*: status $status: $(cat found)"
        exit 1
    fi
}
for install in "$here/../tools/install" "$here/../apd install"; do
    # shellcheck disable=SC2086 # its words
    {
        wants 0 "^usage: ./apd install" $install --help
        wants 2 "^usage: ./apd install" $install --force
        wants 2 "may have letters, digits and .* no blank: $PWD/a folder" $install "a folder"
        wants 2 "one PREFIX at most" $install one two
    }
done
[ ! -e "a folder" ] && [ ! -e --help ] && [ ! -e one ]
"$folder/there/sbin/apd-conf" --names | grep -q "^bssid "
manual=${MANUAL:-$folder/there/share/man/man8/apd.8}
units=$folder/there/lib/systemd/system
grep -q "^ExecStart=$folder/there/sbin/apd-service run " "$units/apd.service"
grep -q "^ExecStart=$folder/there/sbin/apd-ctrl 7000 /run/apd " "$units/apd-ctrl.service"
grep -q -x PrivateNetwork=yes "$folder/there/share/doc/apd/private.conf"

LC_ALL=C.UTF-8 MANWIDTH=100 man --warnings -l "$manual" >page 2>faults </dev/null
if [ -s faults ]; then
    cat faults
    exit 1
fi
# (which the program prints with status 2)
"$program" --help >help 2>&1 || :
subcommands=$(sed -n '/^Commands:/,/^$/s/^  \([a-z]*\) .*/\1/p' help)
[ -n "$subcommands" ]
for subcommand in $subcommands; do
    grep -q "^  *apd $subcommand\b" page || {
        echo "install.sh: the manual lacks the subcommand $subcommand"
        exit 1
    }
    [ "$subcommand" = help ] || "$program" "$subcommand" --help >>help 2>&1 || :
done
options=$(grep -oE '^ +(-[a-zA-Z], )?--[a-z-]+' help | grep -oE -e '--[a-z-]+' | sort -u)
[ -n "$options" ]
for option in $options; do
    grep -q -e "^ .*$option\b" page || {
        echo "install.sh: the manual lacks the option $option"
        exit 1
    }
done
echo "the manual has $(echo "$subcommands" | wc -l) subcommands and all options"

if command -v systemd-analyze >/dev/null; then
    systemd-analyze verify "$units/apd.service" "$units/apd-ctrl.service" >said 2>&1 || :
    if grep -F "$units" said; then exit 1; fi
fi
if command -v systemd-analyze >/dev/null && systemd-analyze security --help | grep -q -e --offline; then
    for unit in "${UNIT:-$units/apd.service}" "$units/apd-ctrl.service"; do
        systemd-analyze security --offline=yes --threshold=30 --no-pager "$unit" >score 2>&1 || {
            tail -n 3 score
            echo "install.sh: the unit is open to more than 3.0"
            exit 1
        }
        tail -n 1 score
    done
fi
