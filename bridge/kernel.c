#include "kernel.h"
#include "netlink.h"

#include <errno.h>
#include <linux/nl80211.h>
#include <net/if.h>
#include <sys/ioctl.h>
#include <sys/socket.h>

/* Requests and their answers go by one socket, what the kernel tells by the other. */
static int requests, events;
static uint32_t interface;
static uint16_t family; /* the number of nl80211 */

static void begin_request(uint8_t command, uint16_t flags)
{
    begin_message(family, command, flags);
    put_32(NL80211_ATTR_IFINDEX, interface);
}

static int ask(void)
{
    return ask_by(requests, NULL);
}

/* The interface. */

/* Has management frames, and the news of data from strangers, come to `events`, as long as this process lives. */
static void subscribe(void)
{
    static const uint16_t kinds[] = {ASSOCIATION_REQUEST, REASSOCIATION_REQUEST, PROBE_REQUEST,
                                     DISASSOCIATION,      AUTHENTICATION,        DEAUTHENTICATION};
    int error;
    for (size_t i = 0; i < sizeof kinds / sizeof *kinds; i++) {
        begin_request(NL80211_CMD_REGISTER_FRAME, NLM_F_ACK);
        put_16(NL80211_ATTR_FRAME_TYPE, kinds[i]);
        put_bytes(NL80211_ATTR_FRAME_MATCH, "", 0);
        if ((error = ask_by(events, NULL)))
            give_up("management frames", error);
    }
    begin_request(NL80211_CMD_UNEXPECTED_FRAME, NLM_F_ACK);
    if ((error = ask_by(events, NULL)))
        give_up("data of strangers", error);
}

int open_kernel(const char *name, uint8_t *address)
{
    struct ifreq query = {0};
    requests = open_netlink();
    events = open_netlink();
    interface = if_nametoindex(name);
    strncpy(query.ifr_name, name, IFNAMSIZ - 1);
    if (!interface || ioctl(requests, SIOCGIFHWADDR, &query) < 0)
        give_up(name, errno);
    memcpy(address, query.ifr_hwaddr.sa_data, ADDRESS);
    family = find_family(requests, "nl80211");
    subscribe();
    return events;
}

void hear_kernel(void (*hear)(const uint8_t *frame, size_t length), void (*meet)(const uint8_t *station))
{
    static uint8_t messages[DATAGRAM] __attribute__((aligned(NLMSG_ALIGNTO)));
    ssize_t got = recv(events, messages, sizeof messages, MSG_DONTWAIT);
    unsigned left = got < 0 ? 0 : got;
    for (struct nlmsghdr *at = (void *)messages; NLMSG_OK(at, left); at = NLMSG_NEXT(at, left)) {
        uint8_t command = ((const struct genlmsghdr *)NLMSG_DATA(at))->cmd;
        size_t length;
        const uint8_t *frame = attribute_of(at, NL80211_ATTR_FRAME, HEADER, &length), *station;
        if (at->nlmsg_type == family && command == NL80211_CMD_FRAME && frame)
            hear(frame, length);
        station = attribute_of(at, NL80211_ATTR_MAC, ADDRESS, &length);
        if (at->nlmsg_type == family && command == NL80211_CMD_UNEXPECTED_FRAME && station)
            meet(station);
    }
}

/* What it is asked to do. */

static uint32_t frequency_of(unsigned channel)
{
    return channel == 14 ? 2484 : channel < 14 ? 2407 + 5 * channel : 5000 + 5 * channel;
}

int set_beacon(const uint8_t *frame, size_t length, const struct network *network, bool is_hidden, bool *is_new)
{
    begin_request(NL80211_CMD_START_AP, NLM_F_ACK);
    put_bytes(NL80211_ATTR_BEACON_HEAD, frame, length);
    put_32(NL80211_ATTR_BEACON_INTERVAL, number_at(frame, HEADER + 8));
    put_32(NL80211_ATTR_DTIM_PERIOD, 2);
    put_bytes(NL80211_ATTR_SSID, network->name, network->name_length);
    put_32(NL80211_ATTR_HIDDEN_SSID, is_hidden ? NL80211_HIDDEN_SSID_ZERO_LEN : NL80211_HIDDEN_SSID_NOT_IN_USE);
    put_32(NL80211_ATTR_AUTH_TYPE, NL80211_AUTHTYPE_OPEN_SYSTEM);
    put_32(NL80211_ATTR_WIPHY_FREQ, frequency_of(network->channel));
    put_32(NL80211_ATTR_CHANNEL_WIDTH, NL80211_CHAN_WIDTH_20_NOHT);
    int error = ask();
    *is_new = error == 0;
    if (error != EALREADY)
        return error;
    begin_request(NL80211_CMD_SET_BEACON, NLM_F_ACK);
    put_bytes(NL80211_ATTR_BEACON_HEAD, frame, length);
    return ask();
}

int add_station(const uint8_t *station, unsigned identifier, const struct terms *terms)
{
    uint32_t state = 1 << NL80211_STA_FLAG_AUTHENTICATED | 1 << NL80211_STA_FLAG_ASSOCIATED |
                     1 << NL80211_STA_FLAG_AUTHORIZED;
    struct nl80211_sta_flag_update flags = {.mask = state, .set = state};
    begin_request(NL80211_CMD_NEW_STATION, NLM_F_ACK);
    put_bytes(NL80211_ATTR_MAC, station, ADDRESS);
    put_16(NL80211_ATTR_STA_AID, identifier);
    put_16(NL80211_ATTR_STA_CAPABILITY, terms->capability);
    put_16(NL80211_ATTR_STA_LISTEN_INTERVAL, terms->listen_interval);
    put_bytes(NL80211_ATTR_STA_SUPPORTED_RATES, terms->rates, terms->rate_count);
    put_bytes(NL80211_ATTR_STA_FLAGS2, &flags, sizeof flags);
    return ask();
}

int remove_station(const uint8_t *station)
{
    begin_request(NL80211_CMD_DEL_STATION, NLM_F_ACK);
    put_bytes(NL80211_ATTR_MAC, station, ADDRESS);
    return ask();
}

int remove_all_stations(void)
{
    begin_request(NL80211_CMD_DEL_STATION, NLM_F_ACK);
    return ask();
}

int send_frame(const uint8_t *frame, size_t length)
{
    begin_request(NL80211_CMD_FRAME, NLM_F_ACK);
    put_bytes(NL80211_ATTR_FRAME, frame, length);
    return ask();
}

static void (*tell_station)(const uint8_t *station, unsigned silence);

static void take_station(const struct nlmsghdr *answer)
{
    size_t length, ignored;
    uint32_t silence = 0;
    const uint8_t *station = attribute_of(answer, NL80211_ATTR_MAC, ADDRESS, &length);
    const uint8_t *facts = attribute_of(answer, NL80211_ATTR_STA_INFO, 0, &length);
    const uint8_t *found = facts ? find_attribute(facts, length, NL80211_STA_INFO_INACTIVE_TIME, 4, &ignored) : NULL;
    if (found)
        memcpy(&silence, found, sizeof silence);
    if (station)
        tell_station(station, silence);
}

int list_stations(void (*tell)(const uint8_t *station, unsigned silence))
{
    tell_station = tell;
    begin_request(NL80211_CMD_GET_STATION, NLM_F_DUMP);
    return ask_by(requests, take_station);
}
