/* The daemon, apd: its words to a driver, and its replies to commands. */
#ifndef DAEMON_H
#define DAEMON_H

#include "common.h"

/* A driver call, or the whole map, by its number in the order of what the daemon says. */
struct word {
    enum { INSTALL, REMOVE, MAP } kind;
    uint64_t number;
    uint8_t station[ADDRESS]; /* of INSTALL and REMOVE */
    unsigned identifier;      /* of INSTALL */
    const char *rest;         /* of MAP: what next_of_map reads */
};

/* Takes a port of 127.0.0.1 to speak with the radio at another port, and returns its descriptor. Commands for the
   interface go to the port `control`. It ends the program where it can't. */
int open_daemon(const char *interface, uint16_t control, uint16_t radio, uint16_t own);

/* Reads a word, which ends in a byte 0; whether it is one. */
bool read_word(const char *text, struct word *word);

/* Reads the next station of a map and its identifier; whether there is one. */
bool next_of_map(const char **rest, uint8_t *station, unsigned *identifier);

/* Asks for the network, and what a station asked with; whether the daemon answered that. */
bool ask_network(struct network *network);
bool ask_terms(const uint8_t *station, struct terms *terms);

#endif
