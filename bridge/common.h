/* What all parts of the bridge use. */
#ifndef COMMON_H
#define COMMON_H

#include <stdbool.h>
#include <stddef.h>
#include <stdint.h>
#include <string.h>

enum {
    ADDRESS = 6,              /* bytes of an address */
    HEADER = 24,              /* bytes of a management frame in front of its body */
    IDENTIFIERS = 2007,       /* association identifiers: 1 to this one (IEEE Std 802.11-2016, 9.4.1.8) */
    RATES = 32,               /* supported rates of a station, at most */
    DATAGRAM = 65536          /* no datagram is longer */
};

/* What a station asked with (9.4.1.4, 9.4.1.6, 9.4.2.3). */
struct terms {
    uint16_t capability, listen_interval;
    uint8_t rates[RATES];
    size_t rate_count;
};

/* What the daemon tells of its network. */
struct network {
    uint8_t name[32];
    size_t name_length;
    unsigned channel;
};

/* Subtypes of management frames, as the first byte of a frame has them. */
enum frame_kind {
    ASSOCIATION_REQUEST = 0x00,
    ASSOCIATION_RESPONSE = 0x10,
    REASSOCIATION_REQUEST = 0x20,
    REASSOCIATION_RESPONSE = 0x30,
    PROBE_REQUEST = 0x40,
    PROBE_RESPONSE = 0x50,
    BEACON = 0x80,
    DISASSOCIATION = 0xa0,
    AUTHENTICATION = 0xb0,
    DEAUTHENTICATION = 0xc0
};

/* Prints a line, with the moment in seconds in front. */
void say(const char *form, ...) __attribute__((format(printf, 1, 2)));

/* Prints what could not be done, and why, and ends the program. */
void give_up(const char *what, int error) __attribute__((noreturn));

/* An address in hexadecimal digits. What it returns holds until it was called twice more. */
const char *spell_address(const uint8_t *address);

/* An element of a frame, from the byte `from` on; NULL where it has none whole. Byte 1 has its length. */
const uint8_t *find_element(const uint8_t *frame, size_t from, size_t length, int identifier);

static inline bool is_same(const uint8_t *one, const uint8_t *other)
{
    return memcmp(one, other, ADDRESS) == 0;
}

static inline uint16_t number_at(const uint8_t *frame, size_t at)
{
    return frame[at] | frame[at + 1] << 8;
}

#endif
