#!/bin/sh
# Tries apd-conf: a file of an open network as OpenWrt writes it becomes one that the program takes, without a word on
# security; what asks for security, or isn't known, stays, and is refused; and the program takes each name that is told.
# Use: tests/apd-conf.sh, from anywhere. APD names the program, and CONF another apd-conf. It ends with status 1 at the
# first file that is another one.
here=$(dirname "$(readlink -f "$0")")
. "$here/testing"
conf=${CONF:-$here/../tools/apd-conf}

fail() {
    echo "apd-conf.sh: $*"
    exit 1
}

# Converts the file `from`: it must end with this status. Whether the program takes what was made must go with that.
converts() {
    timeout 20 "$conf" from >to 2>told && status=0 || status=$?
    [ "$status" = "$1" ] || fail "status $status, not $1: $(cat told)"
    timeout 60 "$program" script to </dev/null >out 2>&1 && taken=0 || taken=$?
    [ "$taken" = "$1" ] || fail "the program ends with status $taken: $(cat out to)"
}

cat >open <<'END'
driver=nl80211
logger_syslog=127
country_code=DE
hw_mode=g
supported_rates=60 90 120 180 240 360 480 540
basic_rates=60 120 240
beacon_int=100
chanlist=6
tx_queue_data2_burst=2.0
#num_global_macaddr=1
ieee80211n=1
ht_coex=0
ht_capab=[SHORT-GI-20][TX-STBC]
ieee80211ax=1
he_su_beamformer=1
channel=6 # by the planner

interface=wlan0
bssid=02:00:00:00:00:01
ctrl_interface=/var/run/hostapd
bss_load_update_period=60
multi_ap=0
auth_algs=1
wpa=0
ieee80211w=0
ssid=net # 1
bridge=br-lan
wds_bridge=
snoop_iface=br-lan
END
cp open from
converts 0
cat >wanted <<'END'
line 5: supported_rates: sets the radio or its beacon, which apd doesn't: a remark now
line 6: basic_rates: sets the radio or its beacon, which apd doesn't: a remark now
line 8: chanlist: sets the radio or its beacon, which apd doesn't: a remark now
line 12: ht_coex: sets the radio or its beacon, which apd doesn't: a remark now
line 14: ieee80211ax: sets the radio or its beacon, which apd doesn't: a remark now
line 15: he_su_beamformer: sets the radio or its beacon, which apd doesn't: a remark now
line 16: channel: a remark stands behind the value: it has a line of its own now
line 21: bss_load_update_period: sets the radio or its beacon, which apd doesn't: a remark now
line 22: multi_ap: sets what forwards data, which apd doesn't: a remark now
line 25: ieee80211w: off already: a remark now
line 28: wds_bridge: sets what forwards data, which apd doesn't: a remark now
line 29: snoop_iface: sets what forwards data, which apd doesn't: a remark now
END
diff wanted told
# Nothing else is another one: the remarks were these lines, and the channel has its own.
sed 's/^#\(supported_rates\|basic_rates\|chanlist\|ht_coex\|ieee80211ax\|he_\|bss_load\|multi_ap\|ieee80211w\|wds_\|snoop_\)/\1/
    /^#channel/d; s/^channel=6$/channel=6 # by the planner/' to >back
diff open back
cp to from
converts 0
[ ! -s told ] || fail "once more: $(cat told)"
sed 's/$/\r/' open >from
converts 0
echo "an open network's file of $(wc -l <open) lines: $(wc -l <wanted) are told, and the program takes it"

for line in wpa=2 wpa_key_mgmt=SAE wpa_passphrase=12345678 rsn_pairwise=CCMP sae_password=secret ieee80211w=2 ieee8021x=1 \
    wps_state=2 wep_key0=0123456789 owe_transition_ifname=wlan1 group_cipher=CCMP eap_user_file=users \
    nothing=1 no_sign hw_mode=ad channel=197 macaddr_acl=2 "wpa=2 # off"; do
    { cat open && echo "$line"; } >from
    converts 1
    grep -q -x -e "$line" to || fail "$line is not left as it is"
    grep -q "^line 30: ${line%%=*}: .*: left as it is, and refused$" told || fail "$line: $(cat told)"
    ! grep -q -e secret -e 12345678 told || fail "a secret is told"
done
for name in interface bssid ssid; do
    grep -v "^$name=" open >from
    converts 1
    grep -q -x "missing $name" told || fail "no $name: $(cat told)"
done
# A second network, which is open, and one that isn't.
{ cat open && printf 'bss=wlan0-1\nssid=guests\nchannel=1\nwpa=0\nfoo=1\n'; } >from
converts 0
[ "$(grep -c '^#\(bss=wlan0-1\|ssid=guests\|channel=1\|foo=1\)$' to)" = 4 ] || fail "a second network: $(cat to)"
echo wpa_psk=secret >>from
converts 1
echo "what asks for security stays, and is refused"

"$conf" --names >names
{
    printf 'interface=wlan0\nbssid=02:00:00:00:00:01\nssid=net\nhw_mode=g\nwpa=0\nieee8021x=0\n'
    awk '/without effect$/ { sub(/\.\.$/, "_x", $1); print $1 "=any value" }
        $2 ~ /^[0-9]/ && $3 == "to" && !/bytes/ { print $1 "=" $4 + 0 }' names
} >from
converts 0
[ ! -s told ] || fail "a name that it prints: $(cat told)"
echo "the program takes the $(wc -l <names) names that it prints"
"$conf" none >out 2>told && status=0 || status=$?
[ "$status" = 2 ] || fail "a file that is not there: status $status"
