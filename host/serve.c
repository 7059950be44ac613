/*
 * serve.c: the loop that serves the lines until it is told to stop.
 *
 * A round of the loop does at most one tick and feeds at most INBOX_ROOM bytes of each line, so neither a flood nor seconds to be made
 * up for keep the others waiting. A line is read only when its inbox has been fed, and the inbox is fed only while replies fit its
 * outbox: with a controller or a panel that does not read, bytes wait in its line, not here, and the other line goes on.
 *
 * With a state file, nothing is sent before the rows of the updates that were confirmed are on the disk. With a hand-over file, the
 * first signal begins the end (see drain.c).
 */
#include "serve.h"

#include "calls.h"
#include "drain.h"
#include "port.h"
#include "state.h"
#include "stop.h"

#include <poll.h>

enum { STOP, LOG, LINES, WATCHED = LINES + PORTS };

/* How many bytes of the line may be read now. */
static size_t room_to_read(const struct host *host, const struct port *port)
{
    if (port_unfed(port) > 0 || !outbox_has_room(&port->outbox)) {
        return 0;
    }
    return host->drain.on ? drain_reads(host, port) : INBOX_ROOM;
}

static struct pollfd watch_line(const struct host *host, const struct port *port)
{
    struct pollfd watched = {.fd = port->line.fd};

    if (room_to_read(host, port) > 0) {
        watched.events |= POLLIN;
    }
    if (port->outbox.length > 0) {
        watched.events |= POLLOUT;
    }
    return watched;
}

/* What to wait for. A descriptor of -1 is not looked at. */
static void watch(const struct host *host, int stop_fd, struct pollfd watched[WATCHED])
{
    watched[STOP] = (struct pollfd){.fd = stop_fd, .events = POLLIN};
    watched[LOG] = (struct pollfd){.fd = host->log.length > 0 ? host->log.fd : -1, .events = POLLOUT};
    for (size_t i = 0; i < PORTS; i++) {
        watched[LINES + i] = watch_line(host, &host->ports[i]);
    }
}

/* How long to sleep: not at all with bytes that can be fed. */
static int sleep_time(const struct host *host)
{
    for (size_t i = 0; i < host->port_count; i++) {
        if (port_unfed(&host->ports[i]) > 0 && outbox_has_room(&host->ports[i].outbox)) {
            return 0;
        }
    }
    return clock_sleep(&host->clock);
}

/* A tick if one is due; each tick looks for the lines that are lost. */
static void pass_time(struct host *host)
{
    if (!clock_due(&host->clock)) {
        return;
    }
    tick(host);
    for (size_t i = 0; i < host->port_count; i++) {
        if (!line_is_open(&host->ports[i].line)) {
            port_find(host, &host->ports[i]);
        }
    }
}

/* Writes the rows where an update was confirmed. False, with a log line, where they can't be written: its reply must not be sent. */
static bool keep_rows(struct host *host)
{
    char error[FILES_ERROR_ROOM];

    if (!host->unsaved || host->state == NULL) {
        return true;
    }
    if (!state_write(host->state, &host->gateway.table, error)) {
        log_line(&host->log, "rows not kept in %s: %s", host->state, error);
        return false;
    }
    host->unsaved = false;
    return true;
}

/* Whether the line is to be read: it has bytes and there is room for them, or it has hung up, and a read says so. */
static bool is_to_be_read(const struct port *port, size_t room, int events)
{
    int wanted = POLLHUP | POLLERR | POLLNVAL | (room > 0 ? POLLIN : 0);

    return line_is_open(&port->line) && port_unfed(port) == 0 && (events & wanted) != 0;
}

/* Reads a line and feeds what was read of it. */
static void take_bytes(struct host *host, struct port *port, int events)
{
    size_t room = room_to_read(host, port);

    if (is_to_be_read(port, room, events)) {
        port_read(host, port, room > 0 ? room : 1);
    }
    if (!host->drain.on) {
        feed(host, port);
    } else if (port_unfed(port) > 0) {
        drain_feed(host, port);
    }
}

static void send_all(struct host *host)
{
    for (size_t i = 0; i < host->port_count; i++) {
        port_send(host, &host->ports[i]);
    }
}

/* A round of the loop after a sleep, with what was seen of each line; false where the rows can't be kept. */
static bool do_round(struct host *host, const struct pollfd lines[PORTS])
{
    pass_time(host);
    for (size_t i = 0; i < host->port_count; i++) {
        take_bytes(host, &host->ports[i], lines[i].revents);
    }
    if (!keep_rows(host)) {
        return false;
    }
    send_all(host);
    log_flush(&host->log);
    return true;
}

/* A signal came: says whether the loop ends with it, and how. */
static bool ends_by_signal(struct host *host, enum serve_end *end)
{
    if (host->handover != NULL && !host->drain.on) {
        drain_begin(host);
        return false;
    }
    *end = host->drain.on ? SERVE_CUT_SHORT : SERVE_SIGNALLED;
    return true;
}

enum serve_end serve(struct host *host, int stop_fd)
{
    struct pollfd watched[WATCHED];
    enum serve_end end = SERVE_SIGNALLED;

    for (;;) {
        watch(host, stop_fd, watched);
        if (poll(watched, WATCHED, sleep_time(host)) < 0) {
            continue; /* a signal came: the pipe is readable */
        }
        if (watched[STOP].revents != 0 && stop_take(stop_fd) && ends_by_signal(host, &end)) {
            break;
        }
        if (!do_round(host, watched + LINES)) {
            return SERVE_NOT_KEPT;
        }
        if (host->drain.on && drain_is_over(host)) {
            return SERVE_DRAINED;
        }
    }
    send_all(host);
    return end;
}
