/*
 * log.h: one line an event, with the time and the number of ticks done.
 *
 * The log never holds up a line for long. Lines wait in a buffer of fixed size until the reader of the log takes them. Where the
 * buffer is full the reader gets LOG_PATIENCE milliseconds at most, and not again before it has taken all of the buffer. A line for
 * which there is no room is left out, and the next one that is kept says how many were.
 */
#ifndef LOG_H
#define LOG_H

#include "clock.h"

#include <stdbool.h>
#include <stddef.h>
#include <stdint.h>

enum {
    LOG_ROOM = 65536,    /* bytes that wait for the reader */
    LOG_LINE = 200,      /* the longest line */
    LOG_PATIENCE = 100,  /* milliseconds for a reader that is behind */
    LOG_LAST_WAIT = 500, /* milliseconds for each of the last writes, at the end */
    LOG_LAST_WRITES = 32 /* how many these are: twice as many as the buffer needs with a reader that takes PIPE_BUF bytes */
};

struct event_log {
    int fd;
    const struct tick_clock *clock;
    uint64_t left_out; /* lines left out since the last that was kept */
    bool behind;       /* the reader has had its time, and has not taken all since */
    size_t length;
    char bytes[LOG_ROOM];
};

void log_start(struct event_log *log, int fd, const struct tick_clock *clock);

/* Adds a line: the time in seconds, the ticks, and the words. */
void log_line(struct event_log *log, const char *format, ...) __attribute__((format(printf, 2, 3)));

/* Hands over what the reader takes without waiting. */
void log_flush(struct event_log *log);

/* Hands over the last lines, with a little patience. */
void log_end(struct event_log *log);

#endif
