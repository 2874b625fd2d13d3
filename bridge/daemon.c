#include "daemon.h"

#include <arpa/inet.h>
#include <errno.h>
#include <inttypes.h>
#include <poll.h>
#include <stdio.h>
#include <stdlib.h>
#include <sys/socket.h>

enum {
    PATIENCE = 500 /* milliseconds that a command's reply may take */
};

static int control;
static const char *interface;

/* A socket of that port, or any for 0, that speaks with the other port alone. */
static int open_port(uint16_t own_port, uint16_t other_port)
{
    struct sockaddr_in own = {.sin_family = AF_INET, .sin_port = htons(own_port)}, other = own;
    int room = 4 << 20, descriptor = socket(AF_INET, SOCK_DGRAM | SOCK_CLOEXEC, 0);
    own.sin_addr.s_addr = other.sin_addr.s_addr = htonl(INADDR_LOOPBACK);
    other.sin_port = htons(other_port);
    if (descriptor < 0 || bind(descriptor, (struct sockaddr *)&own, sizeof own) < 0 ||
        connect(descriptor, (struct sockaddr *)&other, sizeof other) < 0 ||
        setsockopt(descriptor, SOL_SOCKET, SO_RCVBUFFORCE, &room, sizeof room) < 0)
        give_up("a port", errno);
    return descriptor;
}

int open_daemon(const char *name, uint16_t control_port, uint16_t radio_port, uint16_t own_port)
{
    interface = name;
    control = open_port(0, control_port);
    return open_port(own_port, radio_port);
}

/* Words. An address of a text is read into six places. */
#define ADDRESS_FORM "%2hhx:%2hhx:%2hhx:%2hhx:%2hhx:%2hhx"
#define PLACES(address) address, address + 1, address + 2, address + 3, address + 4, address + 5

static bool is_identifier(unsigned number)
{
    return number > 0 && number <= IDENTIFIERS;
}

bool read_word(const char *text, struct word *word)
{
    int end = 0;
    *word = (struct word){.kind = INSTALL};
    if (sscanf(text, "install %20" SCNu64 " " ADDRESS_FORM " %5u%n", &word->number, PLACES(word->station),
               &word->identifier, &end) == 2 + ADDRESS)
        return is_identifier(word->identifier) && !text[end];
    word->kind = REMOVE;
    if (sscanf(text, "remove %20" SCNu64 " " ADDRESS_FORM "%n", &word->number, PLACES(word->station), &end) ==
        1 + ADDRESS)
        return !text[end];
    word->kind = MAP;
    sscanf(text, "map %20" SCNu64 " down%n", &word->number, &end);
    word->rest = text + end;
    return end > 0;
}

bool next_of_map(const char **rest, uint8_t *station, unsigned *identifier)
{
    int end = 0;
    if (sscanf(*rest, "\n" ADDRESS_FORM " %5u%n", PLACES(station), identifier, &end) != ADDRESS + 1 ||
        !is_identifier(*identifier))
        return false;
    *rest += end;
    return true;
}

/* Commands. */

/* The reply to a command for this interface; NULL where none comes in time. */
static const char *ask(const char *command)
{
    static char reply[DATAGRAM];
    char text[128];
    struct pollfd waiting = {.fd = control, .events = POLLIN};
    int length = snprintf(text, sizeof text, "IFNAME=%s %s", interface, command);
    while (recv(control, reply, sizeof reply, MSG_DONTWAIT) >= 0 || errno == ECONNREFUSED)
        ; /* (what came too late for an earlier one) */
    if (send(control, text, length, 0) < 0 || poll(&waiting, 1, PATIENCE) != 1)
        return NULL;
    ssize_t got = recv(control, reply, sizeof reply - 1, 0);
    if (got < 0)
        return NULL;
    reply[got] = 0;
    return reply;
}

/* What stands behind `name=` at a line's beginning. */
static const char *find_value(const char *reply, const char *name)
{
    size_t length = strlen(name);
    while (reply) {
        if (strncmp(reply, name, length) == 0 && reply[length] == '=')
            return reply + length + 1;
        reply = strchr(reply, '\n');
        reply = reply ? reply + 1 : NULL;
    }
    return NULL;
}

/* Reads a byte of a name, which may be escaped. */
static uint8_t skip_byte(const char **at)
{
    static const char letters[] = "nrte", meant[] = "\n\r\t\033";
    uint8_t byte = *(*at)++;
    if (byte != '\\')
        return byte;
    byte = *(*at)++;
    const char *letter = strchr(letters, byte);
    if (byte == 'x' && sscanf(*at, "%2hhx", &byte) == 1)
        *at += 2;
    return letter ? (uint8_t)meant[letter - letters] : byte;
}

bool ask_network(struct network *network)
{
    const char *reply = ask("STATUS"), *channel, *name;
    if (!reply || !(channel = find_value(reply, "channel")) || !(name = find_value(reply, "ssid[0]")))
        return false;
    network->channel = atoi(channel);
    network->name_length = 0;
    while (*name != '\n' && network->name_length < sizeof network->name)
        network->name[network->name_length++] = skip_byte(&name);
    return true;
}

bool ask_terms(const uint8_t *station, struct terms *terms)
{
    char command[32];
    snprintf(command, sizeof command, "STA %s", spell_address(station));
    const char *reply = ask(command), *capability, *interval;
    if (!reply || !(capability = find_value(reply, "capability")) ||
        !(interval = find_value(reply, "listen_interval")))
        return false;
    terms->capability = strtoul(capability, NULL, 16);
    terms->listen_interval = atoi(interval);
    return true;
}
