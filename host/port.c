/* port.c: a line of the gateway, and the bytes on their way: started, opened, read, written, lost and found again. */
#include "port.h"

#include "names.h"

#include <string.h>

void ports_start(struct host *host, const char *const paths[PORTS])
{
    host->port_count = paths[THA_PANEL] == NULL ? 1 : PORTS;
    for (size_t i = 0; i < PORTS; i++) {
        struct port *port = &host->ports[i];

        port->number = (uint8_t)i;
        port->inbox_next = 0;
        port->inbox_end = 0;
        outbox_empty(&port->outbox);
        line_name(&port->line, paths[i]);
    }
}

bool port_open(struct host *host, struct port *port)
{
    size_t other = port->number == THA_CONTROLLER ? THA_PANEL : THA_CONTROLLER;

    return line_open(&port->line, &host->ports[other].line);
}

void port_find(struct host *host, struct port *port)
{
    char before[sizeof port->line.error];

    memcpy(before, port->line.error, sizeof before);
    if (port_open(host, port)) {
        log_line(&host->log, "%s line back: %s", line_word(port->number), port->line.path);
    } else if (strcmp(before, port->line.error) != 0) {
        log_line(&host->log, "%s line not back: %s", line_word(port->number), port->line.error);
    }
}

/* The line is gone: what was read or to be sent on it is forgotten. Records, queue, ticks and the other line go on. */
static void lose(struct host *host, struct port *port)
{
    log_line(&host->log, "%s line lost: %s, %u bytes not sent", line_word(port->number), port->line.error,
             (unsigned)port->outbox.length);
    line_close(&port->line);
    outbox_empty(&port->outbox);
    port->inbox_next = 0;
    port->inbox_end = 0;
}

bool port_takes_reply(const struct port *port)
{
    return line_is_open(&port->line) && outbox_has_room(&port->outbox);
}

size_t port_unfed(const struct port *port)
{
    return port->inbox_end - port->inbox_next;
}

void port_read(struct host *host, struct port *port, size_t most)
{
    int moved = line_read(&port->line, port->inbox, most);

    if (moved == LINE_LOST) {
        lose(host, port);
        return;
    }
    port->inbox_next = 0;
    port->inbox_end = (size_t)moved;
}

void port_send(struct host *host, struct port *port)
{
    int moved;

    if (!line_is_open(&port->line) || port->outbox.length == 0) {
        return;
    }
    moved = line_write(&port->line, port->outbox.bytes, port->outbox.length);
    if (moved == LINE_LOST) {
        lose(host, port);
    } else {
        outbox_sent(&port->outbox, (size_t)moved);
    }
}
