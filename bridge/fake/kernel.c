/* In the place of kernel.c, for daemon.py: what the bridge asks of the kernel is printed, and the kernel's news come as
   datagrams on standard input: a frame as it is, the address of a stranger that was heard, or a text: "refuse" and
   "take" (what stations are added from then on), "fall" (the interface goes down and comes up). */
#include "../kernel.h"

#include <errno.h>
#include <stdio.h>
#include <sys/socket.h>

static uint8_t stations[IDENTIFIERS][ADDRESS];
static size_t count;
static bool is_refusing, is_beaconing;

int open_kernel(const char *name, uint8_t *address)
{
    memcpy(address, "\2\0\0\0\0\1", ADDRESS);
    setvbuf(stdout, NULL, _IOLBF, 0);
    printf("open %s\n", name);
    return 0;
}

void hear_kernel(void (*hear)(const uint8_t *frame, size_t length), void (*meet)(const uint8_t *station))
{
    uint8_t news[DATAGRAM];
    ssize_t length = recv(0, news, sizeof news - 1, 0);
    if (length <= 0)
        give_up("the end", 0);
    news[length] = 0;
    if (length >= HEADER) {
        hear(news, length);
    } else if (length == ADDRESS && news[0] == 2) {
        meet(news);
    } else if (news[0] == 'f') {
        is_beaconing = false;
        count = 0;
    } else {
        is_refusing = news[0] == 'r';
    }
}

int set_beacon(const uint8_t *frame, size_t length, const struct network *network, bool is_hidden, bool *is_new)
{
    static bool was_hidden;
    bool is_told = is_beaconing && was_hidden == is_hidden;
    *is_new = !is_beaconing;
    is_beaconing = true;
    was_hidden = is_hidden;
    if (!is_told)
        printf("beacon %.*s %s %u %u %zu\n", (int)network->name_length, network->name, is_hidden ? "hidden" : "open",
               network->channel, number_at(frame, HEADER + 8), length);
    return 0;
}

int add_station(const uint8_t *station, unsigned identifier, const struct terms *terms)
{
    if (is_refusing)
        return ENOSPC;
    memcpy(stations[count++], station, ADDRESS);
    printf("add %s %u %x %u %zu\n", spell_address(station), identifier, terms->capability, terms->listen_interval,
           terms->rate_count);
    return 0;
}

int remove_station(const uint8_t *station)
{
    for (size_t i = 0; i < count; i++)
        if (is_same(stations[i], station)) {
            memmove(stations[i], stations[--count], ADDRESS);
            printf("remove %s\n", spell_address(station));
            return 0;
        }
    return ENOENT;
}

int remove_all_stations(void)
{
    count = 0;
    puts("remove all");
    return 0;
}

int send_frame(const uint8_t *frame, size_t length)
{
    printf("send %02x %s %zu\n", frame[0], spell_address(frame + 4), length);
    return 0;
}

int list_stations(void (*tell)(const uint8_t *station, unsigned silence))
{
    for (size_t i = 0; i < count; i++)
        tell(stations[i], i ? 60000 : 0);
    return 0;
}
