/* log.c: one line an event, with the time and the number of ticks done. */
#include "log.h"

#include <errno.h>
#include <limits.h>
#include <poll.h>
#include <stdarg.h>
#include <stdio.h>
#include <string.h>
#include <unistd.h>

void log_start(struct event_log *log, int fd, const struct tick_clock *clock)
{
    log->fd = fd;
    log->clock = clock;
    log->left_out = 0;
    log->behind = false;
    log->length = 0;
}

/*
 * Whether within so many milliseconds a write of PIPE_BUF bytes ends at once, by taking bytes or by an error. A terminal promises less,
 * one byte: a write to it ends at once only where it does not wait (see main.c).
 */
static bool reader_takes(const struct event_log *log, int wait)
{
    struct pollfd reader = {.fd = log->fd, .events = POLLOUT};

    return poll(&reader, 1, wait) == 1;
}

/* The log can't be written: all its lines are left out. */
static void give_up(struct event_log *log)
{
    for (size_t i = 0; i < log->length; i++) {
        log->left_out += log->bytes[i] == '\n';
    }
    log->length = 0;
}

/* Writes the front of the buffer; false where nothing could be written. */
static bool write_front(struct event_log *log)
{
    size_t size = log->length < PIPE_BUF ? log->length : PIPE_BUF;
    ssize_t written = write(log->fd, log->bytes, size);

    if (written < 0) {
        if (errno != EAGAIN && errno != EINTR) {
            give_up(log);
        }
        return false;
    }
    log->length -= (size_t)written;
    memmove(log->bytes, log->bytes + written, log->length);
    return true;
}

/* Hands over the front of the buffer; false where the reader does not take it in time. Once it has taken all it is not behind. */
static bool flush_once(struct event_log *log, int wait)
{
    bool taken = log->length > 0 && reader_takes(log, wait) && write_front(log);

    if (log->length == 0) {
        log->behind = false;
    }
    return taken;
}

void log_flush(struct event_log *log)
{
    while (flush_once(log, 0)) {
    }
}

void log_end(struct event_log *log)
{
    int writes = 0;

    while (writes < LOG_LAST_WRITES && flush_once(log, LOG_LAST_WAIT)) {
        writes += 1;
    }
}

/* Whether two lines fit: the line itself, and the one that says how many were left out. */
static bool has_room(const struct event_log *log)
{
    return LOG_ROOM - log->length >= 2 * LOG_LINE;
}

/* Makes room where there is none. */
static bool make_room(struct event_log *log)
{
    if (!has_room(log)) {
        log_flush(log);
    }
    if (!has_room(log) && !log->behind) {
        log->behind = true;
        flush_once(log, LOG_PATIENCE);
        log_flush(log);
    }
    return has_room(log);
}

static void add(struct event_log *log, const char *words)
{
    uint64_t now = clock_now(log->clock);
    int length = snprintf(log->bytes + log->length, LOG_LINE, "%llu.%03llu tick %llu %s", (unsigned long long)(now / 1000),
                          (unsigned long long)(now % 1000), (unsigned long long)log->clock->ticks, words);

    log->length += length < LOG_LINE - 1 ? (size_t)length : LOG_LINE - 1;
    log->bytes[log->length] = '\n';
    log->length += 1;
}

void log_line(struct event_log *log, const char *format, ...)
{
    char words[LOG_LINE];
    va_list arguments;

    if (!make_room(log)) {
        log->left_out += 1;
        return;
    }
    if (log->left_out > 0) {
        snprintf(words, sizeof words, "%llu log lines left out", (unsigned long long)log->left_out);
        add(log, words);
        log->left_out = 0;
    }
    va_start(arguments, format);
    vsnprintf(words, sizeof words, format, arguments);
    va_end(arguments);
    add(log, words);
}
