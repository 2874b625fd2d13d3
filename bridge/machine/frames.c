/* Frames as they are, at an interface that monitors.

       apd-frames listen INTERFACE ADDRESS    prints each management frame that ADDRESS sends, but beacons
       apd-frames send INTERFACE FRAME        sends one

   An address and a frame are hexadecimal digits alone. */
#include "../common.h"

#include <arpa/inet.h>
#include <errno.h>
#include <linux/if_packet.h>
#include <net/ethernet.h>
#include <net/if.h>
#include <stdio.h>
#include <sys/socket.h>
#include <unistd.h>

static uint8_t bytes[DATAGRAM];

/* The number of bytes that are read, behind the first so many. */
static size_t read_digits(const char *digits, size_t from)
{
    size_t length = from;
    while (length < sizeof bytes && sscanf(digits + 2 * (length - from), "%2hhx", bytes + length) == 1)
        length++;
    return length;
}

static int open_interface(const char *name)
{
    struct sockaddr_ll address = {.sll_family = AF_PACKET, .sll_protocol = htons(ETH_P_ALL)};
    int it = socket(AF_PACKET, SOCK_RAW, htons(ETH_P_ALL));
    address.sll_ifindex = if_nametoindex(name);
    if (it < 0 || !address.sll_ifindex || bind(it, (void *)&address, sizeof address))
        give_up(name, errno);
    return it;
}

static void listen_to(int interface, const uint8_t *sender)
{
    for (;;) {
        ssize_t length = recv(interface, bytes, sizeof bytes, 0);
        size_t frame = length < 4 ? DATAGRAM : number_at(bytes, 2); /* behind radiotap's header */
        if (length < 0 && errno != EINTR)
            give_up("listen", errno);
        bool is_whole = length >= (ssize_t)(frame + HEADER);
        if (!is_whole || bytes[frame] & 0x0c || bytes[frame] == BEACON || !is_same(bytes + frame + 10, sender))
            continue;
        for (ssize_t at = frame; at < length; at++)
            printf("%02x", bytes[at]);
        putchar('\n');
        fflush(stdout);
    }
}

int main(int count, char **words)
{
    static uint8_t sender[ADDRESS];
    bool listens = count == 4 && strcmp(words[1], "listen") == 0;
    if (!listens && (count != 4 || strcmp(words[1], "send") != 0))
        give_up("use: apd-frames listen|send INTERFACE ADDRESS|FRAME", EINVAL);
    int interface = open_interface(words[2]);
    if (listens) {
        read_digits(words[3], 0);
        memcpy(sender, bytes, ADDRESS);
        listen_to(interface, sender);
    }
    enum { RADIOTAP = 8 }; /* bytes of its shortest header, of which one has the length */
    size_t length = read_digits(words[3], RADIOTAP);
    bytes[2] = RADIOTAP;
    if (send(interface, bytes, length, 0) != (ssize_t)length)
        give_up("send", errno);
}
