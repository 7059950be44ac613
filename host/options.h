/* options.h: the arguments of tha-gateway. */
#ifndef OPTIONS_H
#define OPTIONS_H

#include "host.h"

#include <stdbool.h>

enum { OPTIONS_ERROR_ROOM = 300 };

#define OPTIONS_USAGE                                                                                                    \
    "usage: tha-gateway [--firmware N] [--protocol N] [--delay TICKS] [--silent ADDRESS]... [--speed N] " \
    "[--handover FILE [--or-table]] [--state FILE] [--panel DEVICE] DEVICE TABLE"

struct options {
    uint16_t firmware;
    uint16_t protocol;
    unsigned speed;
    struct simple_site site;
    const char *handover; /* or NULL */
    const char *state;    /* or NULL */
    bool or_table;
    bool help; /* the usage is asked for, and nothing else */
    const char *devices[PORTS]; /* by the line's number; the panel's, or NULL */
    const char *table;
};

/* Reads the arguments; false says in error what is wrong. */
bool options_read(struct options *options, int count, char **arguments, char error[OPTIONS_ERROR_ROOM]);

#endif
