/* An access point interface of the Linux kernel, by nl80211. */
#ifndef KERNEL_H
#define KERNEL_H

#include "common.h"

/* Takes the interface of that name, and its management frames. It gives the interface's address, and returns the
   descriptor that can be read where the kernel has something to tell. It ends the program where it can't. */
int open_kernel(const char *name, uint8_t *address);

/* Hands out what the kernel has to tell: a management frame that was received; that data came from one who is no
   station of the kernel's. */
void hear_kernel(void (*hear)(const uint8_t *frame, size_t length), void (*meet)(const uint8_t *station));

/* Each of these returns 0, or the number of the kernel's error. */

/* Sends a beacon, in the place of the one before. The frame is all of it, but the element that tells of sleeping
   stations, which the kernel adds. */
int set_beacon(const uint8_t *frame, size_t length, const struct network *network, bool is_hidden, bool *is_new);
int send_frame(const uint8_t *frame, size_t length);

int add_station(const uint8_t *station, unsigned identifier, const struct terms *terms);
int remove_station(const uint8_t *station);
int remove_all_stations(void);

/* Calls `tell` for each of the kernel's stations, with the milliseconds since it was heard last. */
int list_stations(void (*tell)(const uint8_t *station, unsigned silence));

#endif
