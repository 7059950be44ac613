/* host.h: all that a running gateway has: the proved gateway's value, its lines, its thermostats, its clock, its log, its files. */
#ifndef HOST_H
#define HOST_H

#include "../include/wrackpulley.h"
#include "clock.h"
#include "line.h"
#include "log.h"
#include "outbox.h"
#include "thermostats.h"

enum {
    PORTS = 2,             /* the controller's and the panel's, by their numbers */
    INBOX_ROOM = THA_BLOCK /* the most bytes of a line that are fed between two looks at the clock: a block */
};

/* A line, and the bytes that are on their way from it and to it. */
struct port {
    uint8_t number; /* THA_CONTROLLER or THA_PANEL */
    struct line line;
    struct outbox outbox;
    size_t inbox_next; /* the first byte of the inbox that was not fed yet */
    size_t inbox_end;
    uint8_t inbox[INBOX_ROOM];
};

/* The end of a gateway that hands over: it has stopped serving, and goes on until nothing waits. */
struct drain {
    bool on;
    uint64_t start;     /* the ticks when it began */
    uint64_t last_byte; /* and when a byte was fed for the last time, where one was since */
    size_t not_fed;     /* bytes that were read and could not be fed in time */
};

struct host {
    tha_gateway gateway;
    struct thermostats thermostats;
    struct tick_clock clock;
    struct event_log log;
    size_t port_count; /* how many lines are served: without a panel the controller's alone */
    struct port ports[PORTS];
    const char *handover; /* the hand-over file, or NULL */
    const char *state;    /* the state file, or NULL */
    bool unsaved;         /* an update was confirmed since the rows were written */
    struct drain drain;
};

#endif
