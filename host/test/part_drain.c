/* part_drain.c: the end of a gateway that hands over: when bytes are still read and fed, and when it is over. */
#include "../drain.h"
#include "../port.h"
#include "check.h"
#include "frames.h"
#include "parts.h"

#include <fcntl.h>
#include <string.h>
#include <unistd.h>

static struct host host;

static tha_heard no_answer(void *site, const tha_update *update)
{
    (void)site;
    (void)update;
    return (tha_heard){.answered = false, .value = 0};
}

/* The line that a test is about, and the other one. */
static struct port *port;
static struct port *other;

/* A host with one device, at so many ticks, with the lines open or not; its log goes nowhere. */
static void make_host(uint64_t ticks, bool open_lines, uint8_t line)
{
    const char *const paths[PORTS] = {"line", "panel"};
    tha_row row = {.address = 5, .mask = 8};
    int fd = open("/dev/null", O_RDWR);

    NEED(fd >= 0);
    memset(&host, 0, sizeof host);
    memset(row.cool, THA_NONE, sizeof row.cool);
    memset(row.slab, THA_NONE, sizeof row.slab);
    host.gateway = tha_add(tha_fresh(0, 0), row).gateway;
    NEED(host.gateway.table.count == 1);
    host.thermostats.ask = no_answer;
    ports_start(&host, paths);
    host.ports[THA_CONTROLLER].line.fd = open_lines ? fd : -1;
    host.ports[THA_PANEL].line.fd = open_lines ? fd : -1;
    port = &host.ports[line];
    other = &host.ports[line == THA_CONTROLLER ? THA_PANEL : THA_CONTROLLER];
    clock_start(&host.clock, 1);
    log_start(&host.log, fd, &host.clock);
    host.clock.ticks = ticks;
    drain_begin(&host);
}

static void put_inbox(const uint8_t *bytes, size_t length)
{
    memcpy(port->inbox, bytes, length);
    port->inbox_next = 0;
    port->inbox_end = length;
}

static void put_update(void)
{
    port->inbox_next = 0;
    port->inbox_end = record_frame(port->inbox, UPDATE, FAN, (const uint8_t[]){5, 0, 3, 50}, 4);
}

/* Does a test for each line. */
static void for_each_line(void (*test)(uint8_t line))
{
    test(THA_CONTROLLER);
    test(THA_PANEL);
}

/* Nothing is left to do: it is over at once, and nothing is read. */
void drained_at_once(void)
{
    make_host(7, true, THA_CONTROLLER);
    CHECK(host.drain.on && drain_reads(&host, port) == 0 && drain_reads(&host, other) == 0);
    CHECK(drain_is_over(&host));
}

/* A packet is open, or an escape is pending: one byte of this line at a time, within three ticks, and none of the other. */
static void last_packet_of(uint8_t line)
{
    make_host(7, true, line);
    put_inbox((const uint8_t[]){0xCA, 0x07}, 2);
    drain_feed(&host, port);
    CHECK(drain_reads(&host, port) == 1 && drain_reads(&host, other) == 0 && !drain_is_over(&host));
    host.clock.ticks = 7 + DRAIN_PACKET - 1;
    CHECK(drain_reads(&host, port) == 1 && !drain_is_over(&host));
    host.clock.ticks = 7 + DRAIN_PACKET;
    CHECK(drain_reads(&host, port) == 0 && drain_is_over(&host));
    make_host(7, true, line);
    put_inbox((const uint8_t[]){0x2F}, 1);
    drain_feed(&host, port);
    CHECK(drain_reads(&host, port) == 1);
    put_inbox((const uint8_t[]){0x00}, 1);
    drain_feed(&host, port);
    CHECK(drain_reads(&host, port) == 0 && drain_is_over(&host));
    /* without a line no byte is to come */
    make_host(7, false, line);
    put_inbox((const uint8_t[]){0xCA}, 1);
    drain_feed(&host, port);
    CHECK(drain_is_over(&host));
}

void last_packet(void)
{
    for_each_line(last_packet_of);
}

/* What was read before is fed within three ticks; after that it is counted. */
static void last_bytes_of(uint8_t line)
{
    make_host(7, true, line);
    put_update();
    CHECK(!drain_is_over(&host));
    host.clock.ticks = 7 + DRAIN_PACKET - 1;
    drain_feed(&host, port);
    CHECK(host.gateway.queue.count == 1 && host.drain.last_byte == host.clock.ticks && host.drain.not_fed == 0);
    make_host(7, true, line);
    put_update();
    host.clock.ticks = 7 + DRAIN_PACKET;
    drain_feed(&host, port);
    CHECK(host.gateway.queue.count == 0 && port->inbox_next == port->inbox_end && host.drain.not_fed == port->inbox_end);
    CHECK(drain_is_over(&host));
}

void last_bytes(void)
{
    for_each_line(last_bytes_of);
}

/* An update that waits, and a reply that the line does not take, hold it up: not for more than 120 ticks after the last byte. */
static void held_up_by(uint8_t line)
{
    make_host(7, true, line);
    put_update();
    host.clock.ticks = 9;
    drain_feed(&host, port);
    CHECK(host.gateway.queue.count == 1);
    host.clock.ticks = 9 + 119;
    CHECK(!drain_is_over(&host));
    host.clock.ticks = 9 + 120;
    CHECK(drain_is_over(&host));
    make_host(7, true, line);
    outbox_add(&port->outbox, (const uint8_t[]){1, 2, 3}, 3);
    CHECK(!drain_is_over(&host));
    host.clock.ticks = 7 + 119;
    CHECK(!drain_is_over(&host));
    outbox_sent(&port->outbox, 3);
    CHECK(drain_is_over(&host));
    outbox_add(&port->outbox, (const uint8_t[]){1, 2, 3}, 3);
    host.clock.ticks = 7 + 120;
    CHECK(drain_is_over(&host));
}

void held_up(void)
{
    for_each_line(held_up_by);
}

/* What is left is that of both lines. */
void left_on_both_lines(void)
{
    char text[256] = "";
    int log[2];

    make_host(7, true, THA_CONTROLLER);
    NEED(pipe(log) == 0);
    host.log.length = 0;
    host.log.fd = log[1];
    outbox_add(&port->outbox, (const uint8_t[]){1, 2, 3}, 3);
    outbox_add(&other->outbox, (const uint8_t[]){1, 2}, 2);
    put_inbox((const uint8_t[]){0xCA, 0x07}, 2);
    drain_feed(&host, port);
    port = other;
    put_inbox((const uint8_t[]){0xCA, 0x07, 0x06}, 3);
    drain_feed(&host, port);
    host.clock.ticks = 7 + 120;
    CHECK(drain_is_over(&host));
    log_flush(&host.log);
    CHECK(read(log[0], text, sizeof text - 1) > 0);
    CHECK_SAYS(strstr(text, "drained after 120 ticks, 5 bytes not sent, 5 not answered\n") != NULL, "%s", text);
    close(log[0]);
    close(log[1]);
}
