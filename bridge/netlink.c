#include "netlink.h"

#include <errno.h>
#include <sys/socket.h>

struct request request;

/* Requests. */

void begin_message(uint16_t type, uint8_t command, uint16_t flags)
{
    static uint32_t sequence;
    request.head = (struct nlmsghdr){
        .nlmsg_len = NLMSG_LENGTH(GENL_HDRLEN),
        .nlmsg_type = type,
        .nlmsg_flags = NLM_F_REQUEST | flags,
        .nlmsg_seq = ++sequence,
    };
    request.generic = (struct genlmsghdr){.cmd = command, .version = 1};
}

void put_bytes(uint16_t type, const void *value, size_t length)
{
    uint8_t *at = (uint8_t *)&request + NLMSG_ALIGN(request.head.nlmsg_len);
    struct nlattr head = {.nla_type = type, .nla_len = NLA_HDRLEN + length};
    if (at + NLA_ALIGN(head.nla_len) > (uint8_t *)(&request + 1))
        give_up("a frame", EMSGSIZE);
    memcpy(at, &head, sizeof head);
    memcpy(at + NLA_HDRLEN, value, length);
    request.head.nlmsg_len = NLMSG_ALIGN(request.head.nlmsg_len) + NLA_ALIGN(head.nla_len);
}

void put_16(uint16_t type, uint16_t value)
{
    put_bytes(type, &value, sizeof value);
}

void put_32(uint16_t type, uint32_t value)
{
    put_bytes(type, &value, sizeof value);
}

/* Answers. */

const uint8_t *find_attribute(const void *from, size_t bytes, int type, size_t least, size_t *length)
{
    const struct nlattr *attribute = from;
    while (bytes >= NLA_HDRLEN && attribute->nla_len >= NLA_HDRLEN && attribute->nla_len <= bytes) {
        size_t step = NLA_ALIGN(attribute->nla_len);
        if ((attribute->nla_type & NLA_TYPE_MASK) == type) {
            *length = attribute->nla_len - NLA_HDRLEN;
            return *length < least ? NULL : (const uint8_t *)attribute + NLA_HDRLEN;
        }
        bytes -= step < bytes ? step : bytes;
        attribute = (const struct nlattr *)((const uint8_t *)attribute + step);
    }
    return NULL;
}

const uint8_t *attribute_of(const struct nlmsghdr *message, int type, size_t least, size_t *length)
{
    const uint8_t *from = (const uint8_t *)NLMSG_DATA(message) + GENL_HDRLEN;
    return find_attribute(from, NLMSG_PAYLOAD(message, GENL_HDRLEN), type, least, length);
}

/* Whether the message ends the answers to the request; then also the error. */
static bool is_last(const struct nlmsghdr *message, int *error)
{
    *error = 0;
    if (message->nlmsg_type == NLMSG_ERROR)
        *error = -((const struct nlmsgerr *)NLMSG_DATA(message))->error;
    return message->nlmsg_type == NLMSG_ERROR || message->nlmsg_type == NLMSG_DONE;
}

int ask_by(int descriptor, void (*take)(const struct nlmsghdr *answer))
{
    static uint8_t answers[DATAGRAM] __attribute__((aligned(NLMSG_ALIGNTO)));
    int error;
    if (send(descriptor, &request, request.head.nlmsg_len, 0) < 0)
        return errno;
    for (;;) {
        ssize_t got = recv(descriptor, answers, sizeof answers, 0);
        if (got < 0)
            return errno;
        unsigned left = got;
        for (struct nlmsghdr *at = (void *)answers; NLMSG_OK(at, left); at = NLMSG_NEXT(at, left)) {
            if (at->nlmsg_seq != request.head.nlmsg_seq) /* (it tells of a frame that was sent) */
                continue;
            if (is_last(at, &error))
                return error;
            if (take)
                take(at);
        }
    }
}

/* Families. */

int open_netlink(void)
{
    struct sockaddr_nl any = {.nl_family = AF_NETLINK};
    int room = 4 << 20, descriptor = socket(AF_NETLINK, SOCK_RAW | SOCK_CLOEXEC, NETLINK_GENERIC);
    if (descriptor < 0 || bind(descriptor, (struct sockaddr *)&any, sizeof any) < 0 ||
        setsockopt(descriptor, SOL_SOCKET, SO_RCVBUFFORCE, &room, sizeof room) < 0)
        give_up("netlink", errno);
    return descriptor;
}

static uint16_t family;

static void take_family(const struct nlmsghdr *answer)
{
    size_t length;
    const uint8_t *number = attribute_of(answer, CTRL_ATTR_FAMILY_ID, sizeof family, &length);
    if (number)
        memcpy(&family, number, sizeof family);
}

uint16_t find_family(int descriptor, const char *name)
{
    family = 0;
    begin_message(GENL_ID_CTRL, CTRL_CMD_GETFAMILY, NLM_F_ACK);
    put_bytes(CTRL_ATTR_FAMILY_NAME, name, strlen(name) + 1);
    if (ask_by(descriptor, take_family) || !family)
        give_up(name, ENOENT);
    return family;
}
