/* part_calls.c: the calls on the gateway with a thermostat side of one's own, without a line. */
#include "../calls.h"
#include "../port.h"
#include "check.h"
#include "frames.h"
#include "parts.h"

#include <fcntl.h>
#include <stdio.h>
#include <string.h>
#include <unistd.h>

/* A site that remembers what it was asked and answers what the test says. */
struct site {
    tha_heard heard;
    tha_update asked;
    unsigned times;
};

static tha_heard ask(void *given, const tha_update *update)
{
    struct site *site = given;

    site->asked = *update;
    site->times += 1;
    return site->heard;
}

static void answer_from_now_on(struct site *site, uint8_t value)
{
    site->heard.answered = true;
    site->heard.value = value;
}

/* A host with one device, whose log goes to a pipe; any open file stands for each line, which these calls do not touch. */
static void make_host(struct host *host, struct site *site, int log[2])
{
    const char *const paths[PORTS] = {"line", "panel"};
    tha_row row = {.address = 5, .mask = 8, .state = 3};

    memset(row.cool, THA_NONE, sizeof row.cool);
    memset(row.slab, THA_NONE, sizeof row.slab);
    NEED(pipe(log) == 0 && fcntl(log[0], F_SETFL, O_NONBLOCK) == 0);
    memset(host, 0, sizeof *host);
    memset(site, 0, sizeof *site);
    host->gateway = tha_add(tha_fresh(0, 0), row).gateway;
    NEED(host->gateway.table.count == 1);
    host->thermostats.ask = ask;
    host->thermostats.site = site;
    ports_start(host, paths);
    host->ports[THA_CONTROLLER].line.fd = log[0];
    host->ports[THA_PANEL].line.fd = log[0];
    clock_start(&host->clock, 1);
    log_start(&host->log, log[1], &host->clock);
}

/* Takes the time and the ticks away that each line begins with. */
static void strip_times(char *text)
{
    char *to = text;
    int past = 0;

    for (const char *line = text; *line != '\0'; past = 0) {
        size_t length = strcspn(line, "\n") + 1;

        sscanf(line, "%*u.%*u tick %*u %n", &past);
        memmove(to, line + past, length - (size_t)past);
        to += length - (size_t)past;
        line += length;
    }
    *to = '\0';
}

/* Whether the log's next lines have the words. */
static bool logged(struct host *host, int log, const char *words)
{
    char text[1024];
    ssize_t length;

    log_flush(&host->log);
    length = read(log, text, sizeof text - 1);
    text[length > 0 ? length : 0] = '\0';
    strip_times(text);
    return strstr(text, words) != NULL;
}

/* An Update of the fan in a state is in the line's inbox, and is fed. */
static void feed_update(struct host *host, uint8_t line, uint8_t state, uint8_t value)
{
    struct port *port = &host->ports[line];

    port->inbox_next = 0;
    port->inbox_end = record_frame(port->inbox, UPDATE, FAN, (const uint8_t[]){5, 0, state, value}, 4);
    feed(host, port);
}

/* The reply to such an Update is all that is to be sent on the line. */
static bool sends(const struct host *host, uint8_t line, uint8_t state, uint8_t value)
{
    const struct outbox *outbox = &host->ports[line].outbox;
    uint8_t reply[64];
    size_t length = record_frame(reply, UPDATED, FAN, (const uint8_t[]){5, 0, state, value}, 4);

    return outbox->length == length && memcmp(outbox->bytes, reply, length) == 0;
}

/* Silence, then a value that no fan has, then another value than was asked for: that one is stored, and answered. */
void plugged_in_thermostats(void)
{
    static struct host host;
    struct site site;
    const struct outbox *outbox = &host.ports[THA_CONTROLLER].outbox;
    int log[2];

    make_host(&host, &site, log);
    feed_update(&host, THA_CONTROLLER, 3, 50);
    CHECK(site.times == 1 && site.asked.field.address == 5 && site.asked.field.kind == THA_FAN && site.asked.field.state == 3);
    CHECK(site.asked.value == 50 && site.asked.age == 0 && site.asked.line == THA_CONTROLLER);
    CHECK(logged(&host, log[0], "queued controller fan 5 state 3 value 50, 1 waiting\n"));
    tick(&host);
    CHECK(site.times == 2 && site.asked.age == 1 && outbox->length == 0 && !logged(&host, log[0], "fan"));
    answer_from_now_on(&site, 101);
    tick(&host);
    CHECK(site.asked.age == 2 && logged(&host, log[0], "failed controller fan 5 state 3, 101 is not a value for it\n"));
    CHECK(outbox->length == 0 && host.gateway.queue.count == 1);
    answer_from_now_on(&site, 7);
    tick(&host);
    CHECK(logged(&host, log[0], "confirmed controller fan 5 state 3 value 7\n") && host.gateway.table.rows[0].fan[3] == 7);
    CHECK(sends(&host, THA_CONTROLLER, 3, 7));
    tick(&host);
    CHECK(site.times == 4 && host.clock.ticks == 4 && host.gateway.queue.count == 0);
    close(log[0]);
    close(log[1]);
}

/* A bus with one exchange at a time, which keeps to the rules of thermostats.h; its thermostat accepts what it is asked for. */
struct bus {
    bool running;
    bool done; /* the thermostat has answered */
    uint8_t value;
    tha_field forgotten;
    unsigned times_forgotten;
};

static tha_heard ask_bus(void *given, const tha_update *update)
{
    struct bus *bus = given;
    tha_heard heard = {.answered = bus->running && bus->done, .value = bus->value};

    if (!bus->running) {
        bus->value = update->value;
        bus->done = false;
    }
    bus->running = !heard.answered;
    return heard;
}

static void forget(void *given, const tha_field *field)
{
    struct bus *bus = given;

    bus->running = false;
    bus->forgotten = *field;
    bus->times_forgotten += 1;
}

/* The thermostat's answer is on the bus. */
static void answer_arrives(struct bus *bus)
{
    bus->done = true;
}

/*
 * Asked once, the first update times out while its line is lost. Its late answer is not taken for that to the second, asked at the same
 * age.
 */
void timed_out_is_forgotten(void)
{
    static struct host host;
    struct site unused;
    struct bus bus = {.running = false};
    int log[2];

    make_host(&host, &unused, log);
    host.thermostats = (struct thermostats){.ask = ask_bus, .timed_out = forget, .site = &bus};
    feed_update(&host, THA_CONTROLLER, 3, 50);
    CHECK(bus.running && bus.value == 50);
    host.ports[THA_CONTROLLER].line.fd = -1;
    for (unsigned i = 0; i < THA_LIFETIME; i++) {
        CHECK(bus.times_forgotten == 0 && host.gateway.queue.count == 1);
        tick(&host);
    }
    CHECK(bus.times_forgotten == 1 && bus.forgotten.address == 5 && bus.forgotten.kind == THA_FAN && bus.forgotten.state == 3);
    host.ports[THA_CONTROLLER].line.fd = log[0];
    answer_arrives(&bus);
    feed_update(&host, THA_CONTROLLER, 3, 60);
    CHECK(bus.running && bus.value == 60 && host.gateway.queue.count == 1 && host.ports[THA_CONTROLLER].outbox.length == 0);
    answer_arrives(&bus);
    tick(&host);
    CHECK(host.gateway.table.rows[0].fan[3] == 60 && host.gateway.queue.count == 0 && bus.times_forgotten == 1);
    CHECK(logged(&host, log[0], "confirmed controller fan 5 state 3 value 60\n"));
    close(log[0]);
    close(log[1]);
}

/* With no room for a reply on either line, no byte is fed and no update is tried; the ticks go on. */
void full_outbox_stops_all(void)
{
    static struct host host;
    struct port *port = &host.ports[THA_CONTROLLER];
    struct site site;
    int log[2];

    make_host(&host, &site, log);
    feed_update(&host, THA_CONTROLLER, 3, 50);
    feed_update(&host, THA_PANEL, 4, 60);
    CHECK(site.times == 3 && host.gateway.queue.slots[0].line == THA_CONTROLLER);
    host.ports[THA_PANEL].line.fd = -1;
    port->outbox.length = OUTBOX_ROOM - THA_REPLY_ROOM + 1;
    feed_update(&host, THA_CONTROLLER, 3, 51);
    tick(&host);
    CHECK(site.times == 3 && port->inbox_next == 0 && host.gateway.queue.slots[0].age == 1);
    CHECK(host.gateway.queue.slots[0].line == THA_CONTROLLER);
    port->outbox.length -= 1;
    answer_from_now_on(&site, 50);
    tick(&host);
    CHECK(site.times == 4 && port->outbox.length > OUTBOX_ROOM - THA_REPLY_ROOM && host.gateway.queue.count == 1);
    close(log[0]);
    close(log[1]);
}

/* Each answer goes to the line that asked, and the log names it. */
void answers_by_line(void)
{
    static struct host host;
    struct site site;
    int log[2];

    make_host(&host, &site, log);
    feed_update(&host, THA_PANEL, 3, 50);
    CHECK(site.asked.line == THA_PANEL && logged(&host, log[0], "queued panel fan 5 state 3 value 50, 1 waiting\n"));
    feed_update(&host, THA_CONTROLLER, 3, 51);
    CHECK(logged(&host, log[0], "controller refused 15 (an update of the field waits already)\n"));
    feed_update(&host, THA_CONTROLLER, 4, 51);
    CHECK(logged(&host, log[0], "queued controller fan 5 state 4 value 51, 2 waiting\n"));
    answer_from_now_on(&site, 7);
    tick(&host);
    CHECK(sends(&host, THA_PANEL, 3, 7) && sends(&host, THA_CONTROLLER, 4, 7));
    CHECK(host.gateway.queue.count == 0);
    host.ports[THA_PANEL].inbox_next = 0;
    host.ports[THA_PANEL].inbox_end = 2;
    memcpy(host.ports[THA_PANEL].inbox, (const uint8_t[]){0xCA, 0x35}, 2);
    feed(&host, &host.ports[THA_PANEL]);
    CHECK(logged(&host, log[0], "panel drop 4 body 0 (EOF too early)\n"));
    close(log[0]);
    close(log[1]);
}

static void put_bytes(struct port *port, const uint8_t *bytes, size_t length)
{
    memcpy(port->inbox + port->inbox_end, bytes, length);
    port->inbox_end += length;
}

static void put_record(struct port *port, uint8_t service, uint32_t method, const uint8_t *fields, size_t length)
{
    port->inbox_end += record_frame(port->inbox + port->inbox_end, service, method, fields, length);
}

/*
 * One block with drops, refusals and updates: a line for the drops, one for each update as it was queued, and one for the refusals. Then
 * one with one number more than once, and one with a single drop and a single refusal.
 */
void several_in_a_block(void)
{
    static struct host host;
    struct port *port = &host.ports[THA_PANEL];
    struct site site;
    int log[2];

    make_host(&host, &site, log);
    feed_update(&host, THA_CONTROLLER, 0, 49);
    CHECK(logged(&host, log[0], "queued controller fan 5 state 0 value 49, 1 waiting\n"));
    port->inbox_next = port->inbox_end = 0;
    put_record(port, UPDATE, FAN, (const uint8_t[]){5, 0, 0, 50}, 4);
    put_bytes(port, (const uint8_t[]){0xCA, 0x01, 0x06, 0x07, 0x35, 0xCA, 0xCA, 0x01, 0x35}, 9);
    put_record(port, UPDATE, FAN, (const uint8_t[]){5, 0, 1, 50}, 4);
    put_record(port, UPDATE, FAN, (const uint8_t[]){6, 0, 1, 50}, 4);
    put_record(port, UPDATE, FAN, (const uint8_t[]){5, 0, 2, 51}, 4);
    put_record(port, UPDATE, FAN, (const uint8_t[]){5, 0, 2, 51}, 4);
    feed(&host, port);
    CHECK(port_unfed(port) == 0 && port->outbox.length == 0 && host.gateway.queue.count == 3 && site.times == 4);
    CHECK(logged(&host, log[0],
                 "panel drop 3 x1 4 x2 body 4\n"
                 "queued panel fan 5 state 1 value 50, 2 waiting\n"
                 "queued panel fan 5 state 2 value 51, 3 waiting\n"
                 "panel refused 13 x1 15 x2\n"));
    port->inbox_next = port->inbox_end = 0;
    put_bytes(port, (const uint8_t[]){0xCA, 0x01, 0x35, 0xCA, 0x01, 0x06, 0x35}, 7);
    put_record(port, UPDATE, FAN, (const uint8_t[]){6, 0, 1, 50}, 4);
    put_record(port, REQUEST, FAN, (const uint8_t[]){6, 0, 1, 50}, 4);
    feed(&host, port);
    CHECK(logged(&host, log[0], "panel drop 4 x2 body 3 (EOF too early)\npanel refused 13 x2 (no device has this address)\n"));
    port->inbox_next = port->inbox_end = 0;
    put_bytes(port, (const uint8_t[]){0xCA, 0x01, 0x35}, 3);
    put_record(port, REQUEST, FAN, (const uint8_t[]){6, 0, 1, 50}, 4);
    feed(&host, port);
    CHECK(logged(&host, log[0], "panel drop 4 body 1 (EOF too early)\npanel refused 13 (no device has this address)\n"));
    close(log[0]);
    close(log[1]);
}

/* Requests without an end to a line that takes nothing: the block stops where its outbox is full, and goes on from there. */
void block_without_room(void)
{
    static struct host host;
    struct port *port = &host.ports[THA_CONTROLLER];
    struct site site;
    uint8_t reply[64];
    size_t length = record_frame(reply, REQUESTED, NETWORK_ERROR, (const uint8_t[]){0, 0}, 2);
    size_t replies = 0;
    int log[2];

    make_host(&host, &site, log);
    while (port->inbox_end + length <= INBOX_ROOM) {
        put_record(port, REQUEST, NETWORK_ERROR, (const uint8_t[]){0, 0}, 2);
        replies += 1;
    }
    port->outbox.length = OUTBOX_ROOM - THA_REPLY_ROOM - length;
    feed(&host, port);
    CHECK(port->inbox_next == 2 * length && port->outbox.length == OUTBOX_ROOM - THA_REPLY_ROOM + length);
    feed(&host, port);
    CHECK(port->inbox_next == 2 * length);
    outbox_sent(&port->outbox, port->outbox.length);
    for (size_t done = 2; done < replies; done++) {
        feed(&host, port);
        CHECK(port->outbox.length >= length && memcmp(port->outbox.bytes, reply, length) == 0);
        outbox_sent(&port->outbox, length);
    }
    CHECK(port_unfed(port) == 0 && port->outbox.length == 0);
    close(log[0]);
    close(log[1]);
}

/* A line that is lost, or has no room: its updates at the head are not asked for, grow older and let the other line's pass. */
static void passed_by(uint8_t unable, bool lost)
{
    static struct host host;
    uint8_t able = unable == THA_CONTROLLER ? THA_PANEL : THA_CONTROLLER;
    struct port *port = &host.ports[unable];
    struct site site;
    int log[2];

    make_host(&host, &site, log);
    feed_update(&host, unable, 0, 50);
    feed_update(&host, unable, 1, 50);
    CHECK(site.times == 3 && host.gateway.queue.count == 2);
    port->line.fd = lost ? -1 : port->line.fd;
    port->outbox.length = lost ? 0 : OUTBOX_ROOM - THA_REPLY_ROOM + 1;
    answer_from_now_on(&site, 7);
    feed_update(&host, able, 2, 51);
    CHECK(site.times == 4 && site.asked.line == able && sends(&host, able, 2, 7) && host.gateway.queue.count == 2);
    tick(&host);
    CHECK(site.times == 4 && host.gateway.queue.slots[0].age == 1 && host.gateway.queue.slots[1].age == 1);
    for (unsigned i = 1; i < THA_LIFETIME - 1; i++) {
        tick(&host);
    }
    CHECK(site.times == 4 && host.gateway.queue.count == 2 && host.gateway.queue.slots[0].field.state == 0);
    if (lost) {
        /* the line is back before the last tick */
        port->line.fd = log[0];
        feed_update(&host, able, 3, 51);
        CHECK(site.times == 7 && host.gateway.queue.count == 0 && port->outbox.length > 0);
    } else {
        tick(&host);
        CHECK(site.times == 4 && host.gateway.queue.count == 0);
        CHECK(logged(&host, log[0], unable == THA_PANEL ? "timed out panel fan 5 state 1\n" : "timed out controller fan 5 state 1\n"));
    }
    close(log[0]);
    close(log[1]);
}

void unable_line_is_passed_by(void)
{
    passed_by(THA_CONTROLLER, true);
    passed_by(THA_CONTROLLER, false);
    passed_by(THA_PANEL, true);
    passed_by(THA_PANEL, false);
}
