#include "common.h"

#include <stdarg.h>
#include <stdio.h>
#include <stdlib.h>
#include <time.h>

void say(const char *form, ...)
{
    struct timespec now;
    va_list rest;
    clock_gettime(CLOCK_MONOTONIC, &now);
    printf("%ld.%03ld ", (long)now.tv_sec, now.tv_nsec / 1000000);
    va_start(rest, form);
    vprintf(form, rest);
    va_end(rest);
    putchar('\n');
    fflush(stdout);
}

void give_up(const char *what, int error)
{
    fprintf(stderr, "apd-bridge: %s: %s\n", what, strerror(error));
    exit(1);
}

const char *spell_address(const uint8_t *address)
{
    static char texts[2][18];
    static int turn;
    turn = !turn;
    snprintf(texts[turn], sizeof texts[turn], "%02x:%02x:%02x:%02x:%02x:%02x", address[0], address[1], address[2],
             address[3], address[4], address[5]);
    return texts[turn];
}

const uint8_t *find_element(const uint8_t *frame, size_t from, size_t length, int identifier)
{
    while (from + 2 <= length && from + 2 + frame[from + 1] <= length) {
        if (frame[from] == identifier)
            return frame + from;
        from += 2 + frame[from + 1];
    }
    return NULL;
}
