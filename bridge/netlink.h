/* Requests to families of the kernel's generic netlink, and its answers. */
#ifndef NETLINK_H
#define NETLINK_H

#include "common.h"

#include <linux/genetlink.h>
#include <linux/netlink.h>

/* A request, as it is made: one at a time. */
extern struct request {
    struct nlmsghdr head;
    struct genlmsghdr generic;
    uint8_t attributes[8192];
} request;

/* A socket of netlink, and the number of a family. Each ends the program where it can't be had. */
int open_netlink(void);
uint16_t find_family(int descriptor, const char *name);

/* Begins a request to a family, and adds an attribute to it. */
void begin_message(uint16_t family, uint8_t command, uint16_t flags);
void put_bytes(uint16_t type, const void *value, size_t length);
void put_16(uint16_t type, uint16_t value);
void put_32(uint16_t type, uint32_t value);

/* Sends the request, hands out each answer, and returns 0 or the kernel's error. */
int ask_by(int descriptor, void (*take)(const struct nlmsghdr *answer));

/* The value of an attribute, of bytes or of a message; NULL where there is none of at least so many bytes. */
const uint8_t *find_attribute(const void *from, size_t bytes, int type, size_t least, size_t *length);
const uint8_t *attribute_of(const struct nlmsghdr *message, int type, size_t least, size_t *length);

#endif
