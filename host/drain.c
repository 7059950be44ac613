/* drain.c: the end of a gateway that hands over: the lines are read no more, and ticks, turns and replies go on until nothing waits. */
#include "drain.h"

#include "calls.h"
#include "port.h"

void drain_begin(struct host *host)
{
    host->drain.on = true;
    host->drain.start = host->clock.ticks;
    host->drain.last_byte = host->clock.ticks;
    log_line(&host->log, "stops reading, %u waiting", (unsigned)host->gateway.queue.count);
}

static const tha_receiver *receiver_of(const struct host *host, const struct port *port)
{
    const tha_receivers *receivers = &host->gateway.receivers;

    return port->number == THA_CONTROLLER ? &receivers->controller : &receivers->panel;
}

static bool packet_is_open(const struct host *host, const struct port *port)
{
    const tha_receiver *receiver = receiver_of(host, port);

    return receiver->inside || receiver->escaped;
}

static bool may_feed(const struct host *host)
{
    return host->clock.ticks < host->drain.start + DRAIN_PACKET;
}

size_t drain_reads(const struct host *host, const struct port *port)
{
    return packet_is_open(host, port) && may_feed(host) ? 1 : 0;
}

void drain_feed(struct host *host, struct port *port)
{
    size_t before = port_unfed(port);

    if (!may_feed(host)) {
        host->drain.not_fed += before;
        port->inbox_next = port->inbox_end;
        return;
    }
    feed(host, port);
    if (port_unfed(port) < before) {
        host->drain.last_byte = host->clock.ticks;
    }
}

/* Whether a byte of the line may still be fed, or a reply is still to be sent on it. */
static bool port_is_busy(const struct host *host, const struct port *port)
{
    bool reads_on = line_is_open(&port->line) && drain_reads(host, port) > 0;

    return reads_on || port_unfed(port) > 0 || port->outbox.length > 0;
}

/* Whether anything is still to come, on any line. */
static bool is_busy(const struct host *host)
{
    bool busy = host->gateway.queue.count > 0;

    for (size_t i = 0; i < host->port_count; i++) {
        busy = busy || port_is_busy(host, &host->ports[i]);
    }
    return busy;
}

/* Says what is left, of all lines. */
static void log_rest(struct host *host)
{
    uint64_t ticks = host->clock.ticks - host->drain.last_byte;
    size_t not_sent = 0;
    size_t not_answered = host->drain.not_fed;

    for (size_t i = 0; i < host->port_count; i++) {
        const tha_receiver *receiver = receiver_of(host, &host->ports[i]);

        not_sent += host->ports[i].outbox.length;
        not_answered += receiver->inside ? receiver->len + 1 : 0;
    }
    log_line(&host->log, "drained after %u ticks, %u bytes not sent, %u not answered", (unsigned)ticks, (unsigned)not_sent,
             (unsigned)not_answered);
}

bool drain_is_over(struct host *host)
{
    if (is_busy(host) && host->clock.ticks < host->drain.last_byte + DRAIN_MOST) {
        return false;
    }
    log_rest(host);
    return true;
}
