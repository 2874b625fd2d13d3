/* The air between two virtual machines, each with one simulated radio (mac80211_hwsim): what one radio sends the other
   receives, over a serial line.

       apd-air LINE INTERFACE

   A frame is acknowledged where the other machine's kernel took it and it is addressed to the interface there. So where
   the other machine is off nothing is. */
#include "../netlink.h"

#include <errno.h>
#include <fcntl.h>
#include <net/if.h>
#include <poll.h>
#include <stdio.h>
#include <stdlib.h>
#include <sys/ioctl.h>
#include <sys/socket.h>
#include <time.h>
#include <unistd.h>

/* Commands, attributes and flags, of the kernel's mac80211_hwsim.h, which no package has. */
enum { REGISTER = 1, FRAME, SENT };
enum { RECEIVER = 1, SENDER, BYTES, FLAGS, RATE, SIGNAL, ATTEMPTS, COOKIE, FREQUENCY = 19 };
enum { WANTS_NO_ACK = 2, IS_ACKED = 4 };

enum {
    WAITING = 256,  /* frames that wait to be acknowledged, at most */
    PATIENCE = 200, /* milliseconds that this may take */
    STALL = 50,     /* milliseconds that the line may take no byte, as one whose other end isn't read */
    LONGEST = 4096, /* bytes of a frame, at most */
    END = 0xc0,     /* the byte that ends a message on the line, also in front of it */
    ESCAPE = 0xdb   /* stands before either of these two, which is changed by 0x20 */
};

/* What goes by the line, with a frame's bytes behind it. */
struct message {
    uint32_t kind, number, frequency, sum;
};
enum { HEARD = 1, ACKED };

/* A frame that was sent, until it is acknowledged. */
static struct sent {
    bool waits;
    uint64_t cookie, since;
    uint32_t flags;
    uint8_t attempts[8];
} sent[WAITING];

static int line, kernel;
static uint16_t family;
static uint8_t radio[ADDRESS], own[ADDRESS]; /* the radio's address for this program, and its interface's */

static uint64_t now(void)
{
    struct timespec time;
    clock_gettime(CLOCK_MONOTONIC, &time);
    return time.tv_sec * 1000ull + time.tv_nsec / 1000000;
}

/* The line. */

static uint32_t sum_of(const uint8_t *bytes, size_t length)
{
    uint32_t sum = 1;
    for (size_t i = 0; i < length; i++)
        sum = sum * 31 + bytes[i];
    return sum;
}

/* Writes a message, or some of it where the line stalls. */
static void write_message(uint32_t kind, uint32_t number, uint32_t frequency, const uint8_t *frame, size_t length)
{
    static uint8_t bytes[sizeof(struct message) + LONGEST], text[2 * sizeof bytes + 2];
    struct message message = {kind, number, frequency, sum_of(frame, length)};
    size_t written = 1;
    if (length > LONGEST)
        return;
    memcpy(bytes, &message, sizeof message);
    if (length)
        memcpy(bytes + sizeof message, frame, length);
    text[0] = END;
    for (size_t i = 0; i < sizeof message + length; i++) {
        bool is_special = bytes[i] == END || bytes[i] == ESCAPE;
        if (is_special)
            text[written++] = ESCAPE;
        text[written++] = is_special ? bytes[i] ^ 0x20 : bytes[i];
    }
    text[written++] = END;
    struct pollfd waiting = {.fd = line, .events = POLLOUT};
    for (size_t from = 0; from < written;) {
        ssize_t took = write(line, text + from, written - from);
        if (took < 0 && poll(&waiting, 1, STALL) != 1)
            return;
        from += took < 0 ? 0 : took;
    }
}

/* The kernel. */

/* Tells the kernel what became of a frame that it sent. */
static void settle(struct sent *frame, bool is_acked)
{
    frame->waits = false;
    begin_message(family, SENT, 0);
    put_bytes(SENDER, radio, ADDRESS);
    put_32(FLAGS, frame->flags | (is_acked ? IS_ACKED : 0));
    put_32(SIGNAL, -30);
    put_bytes(ATTEMPTS, frame->attempts, sizeof frame->attempts);
    put_bytes(COOKIE, &frame->cookie, sizeof frame->cookie);
    send(kernel, &request, request.head.nlmsg_len, 0);
}

/* Takes a frame of the own radio. */
static void take_frame(const struct nlmsghdr *message)
{
    static uint32_t number;
    size_t length, ignored;
    const uint8_t *frame = attribute_of(message, BYTES, 10, &length);
    const uint8_t *flags = attribute_of(message, FLAGS, 4, &ignored);
    const uint8_t *cookie = attribute_of(message, COOKIE, 8, &ignored);
    const uint8_t *attempts = attribute_of(message, ATTEMPTS, 8, &ignored);
    const uint8_t *frequency = attribute_of(message, FREQUENCY, 4, &ignored);
    struct sent *place = &sent[++number % WAITING];
    uint32_t channel;
    if (!frame || !flags || !cookie || !attempts || !frequency)
        return;
    if (place->waits)
        settle(place, false);
    memcpy(&place->flags, flags, 4);
    memcpy(&place->cookie, cookie, 8);
    memcpy(place->attempts, attempts, 8);
    memcpy(&channel, frequency, 4);
    place->since = now();
    place->waits = true;
    write_message(HEARD, number, channel, frame, length);
    if (frame[4] & 1 || place->flags & WANTS_NO_ACK)
        settle(place, false);
}

/* Hands the own radio a frame of the other's. Whether it took it the kernel says by the request's number, to which the
   lowest bit is added: whether the frame is addressed to this machine. */
static void hand_over(const struct message *message, const uint8_t *frame, size_t length)
{
    begin_message(family, FRAME, NLM_F_ACK);
    request.head.nlmsg_seq = message->number << 1 | is_same(frame + 4, own);
    put_bytes(RECEIVER, radio, ADDRESS);
    put_bytes(BYTES, frame, length);
    put_32(RATE, 0);
    put_32(SIGNAL, -30);
    put_32(FREQUENCY, message->frequency);
    send(kernel, &request, request.head.nlmsg_len, 0);
}

static void hear_kernel(void)
{
    static uint8_t messages[DATAGRAM] __attribute__((aligned(NLMSG_ALIGNTO)));
    ssize_t got = recv(kernel, messages, sizeof messages, MSG_DONTWAIT);
    unsigned left = got < 0 ? 0 : got;
    for (struct nlmsghdr *at = (void *)messages; NLMSG_OK(at, left); at = NLMSG_NEXT(at, left)) {
        bool is_taken = at->nlmsg_type == NLMSG_ERROR && ((const struct nlmsgerr *)NLMSG_DATA(at))->error == 0;
        if (is_taken && at->nlmsg_seq & 1)
            write_message(ACKED, at->nlmsg_seq >> 1, 0, NULL, 0);
        if (at->nlmsg_type == family && ((const struct genlmsghdr *)NLMSG_DATA(at))->cmd == FRAME)
            take_frame(at);
    }
}

/* Takes a message of the other machine's. One that was cut off, as by the end of that machine, is passed over. */
static void take_message(const uint8_t *bytes, size_t length)
{
    struct message message;
    if (length < sizeof message)
        return;
    memcpy(&message, bytes, sizeof message);
    length -= sizeof message;
    if (message.sum != sum_of(bytes + sizeof message, length))
        return;
    struct sent *frame = &sent[message.number % WAITING];
    if (message.kind == HEARD && length >= 10)
        hand_over(&message, bytes + sizeof message, length);
    if (message.kind == ACKED && frame->waits)
        settle(frame, true);
}

static void hear_line(void)
{
    static uint8_t bytes[8192];
    static size_t length;
    static bool is_escaped;
    uint8_t text[4096];
    ssize_t got = read(line, text, sizeof text);
    for (ssize_t i = 0; i < got; i++) {
        if (text[i] == END) {
            take_message(bytes, length);
            length = 0;
        } else if (text[i] == ESCAPE) {
            is_escaped = true;
            continue;
        } else if (length < sizeof bytes) {
            bytes[length++] = is_escaped ? text[i] ^ 0x20 : text[i];
        }
        is_escaped = false;
    }
}

static void serve(void)
{
    struct pollfd waiting[] = {{.fd = kernel, .events = POLLIN}, {.fd = line, .events = POLLIN}};
    for (;;) {
        poll(waiting, 2, 20);
        if (waiting[0].revents)
            hear_kernel();
        if (waiting[1].revents)
            hear_line();
        for (size_t i = 0; i < WAITING; i++)
            if (sent[i].waits && now() > sent[i].since + PATIENCE)
                settle(&sent[i], false);
    }
}

int main(int count, char **words)
{
    struct ifreq query = {0};
    if (count != 3)
        give_up("use: apd-air LINE INTERFACE", EINVAL);
    line = open(words[1], O_RDWR | O_NOCTTY | O_NONBLOCK);
    kernel = open_netlink();
    strncpy(query.ifr_name, words[2], IFNAMSIZ - 1);
    if (line < 0 || ioctl(kernel, SIOCGIFHWADDR, &query) < 0)
        give_up("the line, or the interface", errno);
    memcpy(own, query.ifr_hwaddr.sa_data, ADDRESS);
    memcpy(radio, "\x42\0\0\0\0\0", ADDRESS); /* of the first radio */
    family = find_family(kernel, "MAC80211_HWSIM");
    begin_message(family, REGISTER, NLM_F_ACK);
    if (ask_by(kernel, NULL))
        give_up("the simulated radio", EPERM);
    serve();
}
