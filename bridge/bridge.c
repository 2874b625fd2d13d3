/* Lets apd serve an access point interface of the Linux kernel, which may be a radio or a simulated one.

       apd-bridge INTERFACE CONTROL RADIO OWN

   INTERFACE is the kernel's interface and apd's `interface=`: of the type AP, up, with the address that is apd's
   `bssid=`. CONTROL and RADIO are the ports of `apd run`, and OWN the one that `--drivers` gives this radio.
   README.md, beside this, says what it needs and what it does not do. */
#include "daemon.h"
#include "kernel.h"

#include <errno.h>
#include <inttypes.h>
#include <net/if.h>
#include <poll.h>
#include <stdio.h>
#include <stdlib.h>
#include <sys/socket.h>
#include <time.h>

enum {
    REQUESTS = 4096, /* how many stations' last requests are kept */
    PERIOD = 5       /* seconds between looks at the beacon and at who was heard */
};

/* The stations that the kernel has from here, each at its identifier; no address (zeros) where there is none. */
static uint8_t stations[IDENTIFIERS + 1][ADDRESS];
static const uint8_t no_address[ADDRESS];

/* What the last stations asked with, the next one in the place of the oldest. */
static struct {
    uint8_t station[ADDRESS];
    struct terms terms;
} asked[REQUESTS];

static int kernel, radio;      /* descriptors */
static uint8_t own[ADDRESS]; /* the interface's address */
static struct network network;
static uint8_t basic_rates[RATES];
static size_t basic_rate_count;

/* Whether the beacon is sent; and whether the kernel's stations are those of all words until now, so that the next
   word has this number. */
static bool is_beaconing, is_level;
static uint64_t next_number;

/* Stations. */

static bool is_address(const uint8_t *address)
{
    return !is_same(address, no_address);
}

/* The identifier that a station has here; 0 if none. */
static unsigned identifier_of(const uint8_t *station)
{
    unsigned identifier = IDENTIFIERS;
    while (identifier > 0 && !is_same(stations[identifier], station))
        identifier--;
    return identifier;
}

/* Keeps what a station asked with. */
static void note_request(const uint8_t *frame, size_t length)
{
    static size_t next;
    size_t place = 0, body = frame[0] == REASSOCIATION_REQUEST ? HEADER + 10 : HEADER + 4;
    if (length < body)
        return;
    while (place < REQUESTS && !is_same(asked[place].station, frame + 10))
        place++;
    if (place == REQUESTS)
        place = next++ % REQUESTS;
    struct terms *terms = &asked[place].terms;
    memcpy(asked[place].station, frame + 10, ADDRESS);
    *terms = (struct terms){.capability = number_at(frame, HEADER), .listen_interval = number_at(frame, HEADER + 2)};
    static const int rates[] = {1, 50}; /* Supported Rates, Extended Supported Rates (9.4.2.13) */
    for (size_t i = 0; i < 2; i++) {
        const uint8_t *element = find_element(frame, body, length, rates[i]);
        if (element && terms->rate_count + element[1] <= RATES) {
            memcpy(terms->rates + terms->rate_count, element + 2, element[1]);
            terms->rate_count += element[1];
        }
    }
}

/* What a station asked with: as it was heard, else as the daemon knows, with the basic rates. */
static struct terms find_terms(const uint8_t *station)
{
    struct terms terms = {.capability = 1, .listen_interval = 1, .rate_count = basic_rate_count};
    for (size_t place = 0; place < REQUESTS; place++)
        if (is_same(asked[place].station, station) && asked[place].terms.rate_count > 0)
            return asked[place].terms;
    memcpy(terms.rates, basic_rates, basic_rate_count);
    if (!ask_terms(station, &terms))
        say("%s: the daemon doesn't say what it asked with", spell_address(station));
    return terms;
}

static void take_out(unsigned identifier)
{
    int error = remove_station(stations[identifier]);
    say("removed %s %u%s%s", spell_address(stations[identifier]), identifier, error ? ": " : "",
        error ? strerror(error) : "");
    memset(stations[identifier], 0, ADDRESS);
}

/* Adds a station by the word of that number, to which a refusal of the kernel's is a fault. */
static void put_in(uint64_t number, const uint8_t *station, unsigned identifier)
{
    struct terms terms = find_terms(station);
    int error = add_station(station, identifier, &terms);
    if (error) {
        say("fault: %s %u is not added: %s", spell_address(station), identifier, strerror(error));
        dprintf(radio, "fault %" PRIu64, number);
        return;
    }
    say("added %s %u", spell_address(station), identifier);
    memcpy(stations[identifier], station, ADDRESS);
}

static void install(uint64_t number, const uint8_t *station, unsigned identifier)
{
    unsigned old = identifier_of(station);
    if (old == identifier)
        return;
    if (old)
        take_out(old);
    if (is_address(stations[identifier]))
        take_out(identifier);
    put_in(number, station, identifier);
}

/* Makes the kernel's stations those of a map. */
static void level(const struct word *word)
{
    static bool is_clean; /* the kernel has none of a run of this before */
    static uint8_t wanted[IDENTIFIERS + 1][ADDRESS];
    uint8_t station[ADDRESS];
    const char *rest = word->rest;
    unsigned identifier, count = 0;
    memset(wanted, 0, sizeof wanted);
    for (; next_of_map(&rest, station, &identifier); count++)
        memcpy(wanted[identifier], station, ADDRESS);
    if (*rest) {
        say("the map is not understood at: %.40s", rest);
        return;
    }
    for (identifier = 1; identifier <= IDENTIFIERS; identifier++)
        if (is_address(stations[identifier]) && !is_same(stations[identifier], wanted[identifier]))
            take_out(identifier);
    if (!is_clean)
        remove_all_stations();
    is_clean = true;
    for (identifier = 1; identifier <= IDENTIFIERS; identifier++)
        if (is_address(wanted[identifier]) && !is_address(stations[identifier]))
            put_in(word->number, wanted[identifier], identifier);
    say("level with the map %" PRIu64 " of %u stations", word->number, count);
    is_level = true;
    next_number = word->number + 1;
}

static void obey(const char *text)
{
    struct word word;
    if (!read_word(text, &word)) {
        say("not understood: %.40s", text);
        return;
    }
    if (!is_beaconing)
        return;
    if (word.kind == MAP) {
        level(&word);
        return;
    }
    if (is_level && word.number != next_number) {
        say("missed the words before %" PRIu64, word.number);
        is_level = false;
        dprintf(radio, "up");
    }
    if (!is_level)
        return;
    next_number++;
    if (word.kind == INSTALL)
        install(word.number, word.station, word.identifier);
    else if ((word.identifier = identifier_of(word.station)))
        take_out(word.identifier);
}

/* The beacon. It is made of the probe response to one who is not there: to any network's name, which a hidden network
   does not answer, and to its own. */

static const uint8_t asker_marks[] = {0x40, 0x80}; /* by which the askers' addresses differ from the own one */
enum { ANY_NAME, OWN_NAME };

/* Asks for a network by the name's first so many bytes: all, or none. */
static void probe(int asker, size_t length)
{
    static const uint8_t rates[] = {1, 8, 0x82, 0x84, 0x8b, 0x96, 0x8c, 0x98, 0xb0, 0x6c};
    uint8_t frame[HEADER + 2 + sizeof network.name + sizeof rates] = {PROBE_REQUEST}, *at = frame + HEADER;
    for (size_t field = 4; field < HEADER - 2; field += ADDRESS)
        memcpy(frame + field, own, ADDRESS);
    frame[15] ^= asker_marks[asker];
    *at++ = 0;
    *at++ = length;
    at = (uint8_t *)memcpy(at, network.name, length) + length;
    memcpy(at, rates, sizeof rates);
    send(radio, frame, at + sizeof rates - frame, 0);
}

static void ask_beacon(void)
{
    if (!ask_network(&network))
        return;
    probe(ANY_NAME, 0);
    probe(OWN_NAME, network.name_length);
}

/* Which asker a probe response is for; -1 if none. */
static int asker_of(const uint8_t *frame)
{
    for (int asker = ANY_NAME; asker <= OWN_NAME; asker++)
        if (memcmp(frame + 4, own, ADDRESS - 1) == 0 &&
            frame[9] == (own[5] ^ asker_marks[asker]))
            return asker;
    return -1;
}

/* Sends the beacon, or the changed one. Where it is sent anew, as after the interface was down, the kernel has no
   station; and as long as the stations may differ from the daemon's, the map is asked for. */
static void refresh_beacon(const uint8_t *frame, size_t length, bool is_hidden)
{
    static int last_error = -1;
    bool is_new;
    int error = set_beacon(frame, length, &network, is_hidden, &is_new);
    if (error != last_error)
        say("%s %s %.*s on channel %u", spell_address(own), error ? strerror(error) : "beacons for",
            (int)network.name_length, (const char *)network.name, network.channel);
    last_error = error;
    is_beaconing = !error;
    if (error || is_new) {
        is_level = false;
        memset(stations, 0, sizeof stations);
    }
    if (is_beaconing && !is_level)
        dprintf(radio, "up");
}

/* Takes a name out of a frame's element; the frame's length then. */
static size_t hide_name(uint8_t *frame, size_t length, size_t element)
{
    size_t behind = element + 2 + frame[element + 1];
    memmove(frame + element + 2, frame + behind, length - behind);
    length -= frame[element + 1];
    frame[element + 1] = 0;
    return length;
}

/* Makes the beacon of the probe response to an asker. */
static void take_response(uint8_t *frame, size_t length, int asker)
{
    static bool is_open; /* the response before was to any name */
    const uint8_t *name = find_element(frame, HEADER + 12, length, 0);
    const uint8_t *rates = find_element(frame, HEADER + 12, length, 1);
    bool is_hidden = asker == OWN_NAME, is_told = is_hidden && is_open;
    is_open = asker == ANY_NAME;
    if (!name || !rates || rates[1] > RATES || is_told)
        return;
    basic_rate_count = rates[1];
    memcpy(basic_rates, rates + 2, basic_rate_count);
    frame[0] = BEACON;
    memset(frame + 4, 0xff, ADDRESS);
    if (is_hidden)
        length = hide_name(frame, length, name - frame);
    refresh_beacon(frame, length, is_hidden);
}

/* Frames. */

/* Data without data: by it the daemon hears a station, or one who is none, as it sees no other data. */
static void tell_heard(const uint8_t *station)
{
    uint8_t frame[HEADER] = {0x48, 0x01}; /* a null frame, to the access point */
    memcpy(frame + 4, own, ADDRESS);
    memcpy(frame + 10, station, ADDRESS);
    memcpy(frame + 16, own, ADDRESS);
    send(radio, frame, sizeof frame, 0);
}

static void tell_if_heard(const uint8_t *station, unsigned silence)
{
    if (silence <= PERIOD * 1000)
        tell_heard(station);
}

/* Hands a frame from the air to the daemon, but that of an address that no kernel takes for a station's. */
static void hear_frame(const uint8_t *frame, size_t length)
{
    if (frame[0] == ASSOCIATION_REQUEST || frame[0] == REASSOCIATION_REQUEST)
        note_request(frame, length);
    if (is_address(frame + 10))
        send(radio, frame, length, 0);
}

/* Whether a frame tells a station that it is associated, which the kernel doesn't have. */
static bool is_untrue(const uint8_t *frame, size_t length)
{
    bool is_response = frame[0] == ASSOCIATION_RESPONSE || frame[0] == REASSOCIATION_RESPONSE;
    return is_response && length >= HEADER + 6 && number_at(frame, HEADER + 2) == 0 && !identifier_of(frame + 4);
}

/* Sends a frame of the daemon's, or obeys a word, which begins with a lower-case letter, as no such frame does. */
static void hear_datagram(uint8_t *datagram, size_t length)
{
    int asker;
    if (datagram[0] >= 'a' && datagram[0] <= 'z') {
        datagram[length] = 0;
        obey((const char *)datagram);
    } else if (length < HEADER) {
        say("a frame of %zu bytes is too short", length);
    } else if (datagram[0] == PROBE_RESPONSE && (asker = asker_of(datagram)) >= 0) {
        take_response(datagram, length, asker);
    } else if (is_untrue(datagram, length)) {
        say("%s is not told that it is associated", spell_address(datagram + 4));
    } else {
        int error = send_frame(datagram, length);
        if (error)
            say("a frame to %s is not sent: %s", spell_address(datagram + 4), strerror(error));
    }
}

/* What is done each second: all of it until the stations are those of the daemon, else each period. */
static void look_around(time_t second)
{
    if (is_level && second % PERIOD != 0)
        return;
    if (is_level)
        list_stations(tell_if_heard);
    ask_beacon();
}

static void serve(void)
{
    static uint8_t datagram[DATAGRAM + 1];
    struct pollfd waiting[] = {{.fd = kernel, .events = POLLIN}, {.fd = radio, .events = POLLIN}};
    struct timespec now;
    time_t last = 0;
    for (;;) {
        poll(waiting, 2, 200);
        if (waiting[0].revents)
            hear_kernel(hear_frame, tell_heard);
        ssize_t length = waiting[1].revents ? recv(radio, datagram, DATAGRAM, MSG_DONTWAIT) : -1;
        if (length > 0)
            hear_datagram(datagram, length);
        clock_gettime(CLOCK_MONOTONIC, &now);
        if (now.tv_sec != last)
            look_around(last = now.tv_sec);
    }
}

/* A port's number; the program ends where it is none. */
static uint16_t read_port(const char *text)
{
    char *end;
    unsigned long port = strtoul(text, &end, 10);
    if (*end || port < 1 || port > UINT16_MAX)
        give_up(text, ERANGE);
    return port;
}

int main(int count, char **words)
{
    if (count != 5 || strlen(words[1]) >= IFNAMSIZ) {
        fprintf(stderr, "use: apd-bridge INTERFACE CONTROL RADIO OWN\n");
        return 2;
    }
    radio = open_daemon(words[1], read_port(words[2]), read_port(words[3]), read_port(words[4]));
    kernel = open_kernel(words[1], own);
    serve();
}
