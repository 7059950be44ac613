/*
 * cases_restart.c: gateways replaced one after the other while the controller, or it and the panel, keep sending: each frame is
 * answered once, on its line, by the old gateway or the new one, and what was confirmed is there afterwards.
 */
#include "cases.h"
#include "check.h"
#include "frames.h"
#include "rig.h"

#include <signal.h>
#include <stdio.h>
#include <string.h>

enum {
    DEVICES = 8,
    STATES = 7,
    FIELDS = DEVICES * STATES, /* cool of each device and state; each sender has devices of its own */
    RESTARTS = 6,
    WINDOW = 8,   /* updates that wait for their replies: no more than a line has places */
    BACKLOG = 200 /* Requests that do */
};

/* The controller or the panel: what it has sent on its line, and what was answered. */
struct sender {
    struct rig *rig;
    uint16_t first; /* the address of its first device */
    struct reply_reader reader;
    size_t requests;
    size_t replies;
    unsigned updates;        /* each field in turn */
    unsigned confirmed;
    unsigned asked[FIELDS];  /* how many updates of the field were sent */
    unsigned said[FIELDS];   /* and confirmed */
    uint8_t values[FIELDS];  /* the last value that was confirmed */
    uint8_t frame[64];       /* being sent, from place on */
    size_t place;
    size_t length;
    uint32_t state;
};

static uint32_t next_random(struct sender *sender)
{
    sender->state = sender->state * 1664525 + 1013904223;
    return sender->state >> 16;
}

static uint16_t address_of(const struct sender *sender, unsigned field)
{
    return (uint16_t)(sender->first + field / STATES);
}

/* The next frame: an Update while the queue has room for it, or a Request; false where neither may be sent now. */
static bool make_frame(struct sender *sender)
{
    unsigned field = sender->updates % FIELDS;

    if (sender->updates - sender->confirmed < WINDOW && next_random(sender) % 4 == 0) {
        uint8_t value = (uint8_t)(100 + sender->updates / FIELDS % 100);
        const uint8_t fields[] = {(uint8_t)address_of(sender, field), 0, (uint8_t)(field % STATES), value};

        sender->place = 0;
        sender->length = record_frame(sender->frame, UPDATE, COOL, fields, sizeof fields);
        sender->updates += 1;
        sender->asked[field] += 1;
        return true;
    }
    if (sender->requests - sender->replies < BACKLOG) {
        memcpy(sender->frame, rig_request, RIG_REQUEST);
        sender->place = 0;
        sender->length = RIG_REQUEST;
        sender->requests += 1;
        return true;
    }
    return false;
}

/* A reply is that of the Request, or confirms an update. */
static void take_reply(struct sender *sender)
{
    const uint8_t *body = sender->reader.body;
    unsigned field;

    if (sender->reader.length == 10 && memcmp(body, rig_answer + 1, 10) == 0) {
        sender->replies += 1;
        return;
    }
    CHECK(sender->reader.length == 12 && body[2] == UPDATED && body[3] == COOL % 256 && body[9] < STATES);
    CHECK(body[7] >= sender->first && body[7] < sender->first + DEVICES);
    field = (unsigned)(body[7] - sender->first) * STATES + body[9];
    sender->said[field] += 1;
    sender->values[field] = body[10];
    sender->confirmed += 1;
    CHECK_SAYS(sender->said[field] <= sender->asked[field], "field %u is answered once", field);
}

static void take_replies(struct sender *sender)
{
    uint8_t bytes[256];
    size_t count = rig_pull(sender->rig, bytes, sizeof bytes);

    for (size_t i = 0; i < count; i++) {
        if (reply_byte(&sender->reader, bytes[i])) {
            take_reply(sender);
        }
    }
}

/* Sends a few bytes, which may end inside a frame, and takes the replies that are there. */
static void send_some(struct sender *sender)
{
    size_t most = 1 + next_random(sender) % 16;

    while (most > 0) {
        size_t rest = sender->length - sender->place;
        size_t moved;

        if (rest == 0 && !make_frame(sender)) {
            break;
        }
        rest = sender->length - sender->place;
        moved = rig_push(sender->rig, sender->frame + sender->place, rest < most ? rest : most);
        sender->place += moved;
        most -= moved;
        if (moved == 0) {
            break;
        }
    }
    take_replies(sender);
}

/* The senders, and the gateway's rig. */
struct traffic {
    struct rig *rig;
    size_t count;
    struct sender senders[2];
};

static void go_on(struct traffic *traffic)
{
    for (size_t i = 0; i < traffic->count; i++) {
        send_some(&traffic->senders[i]);
    }
    rig_pause(1);
}

/* Whether each sender has updates that wait for their replies, half a window at least. */
static bool all_wait(const struct traffic *traffic)
{
    bool all = true;

    for (size_t i = 0; i < traffic->count; i++) {
        all = all && traffic->senders[i].updates - traffic->senders[i].confirmed >= WINDOW / 2;
    }
    return all;
}

/* Sends the rest of the frame, and waits until all is answered. */
static void finish(struct sender *sender)
{
    int waited = 0;

    rig_send_bytes(sender->rig, sender->frame + sender->place, sender->length - sender->place);
    while ((sender->replies < sender->requests || sender->confirmed < sender->updates) && waited < RIG_PATIENCE) {
        take_replies(sender);
        rig_pause(1);
        waited += 1;
    }
    CHECK_SAYS(sender->replies == sender->requests && sender->confirmed == sender->updates,
               "each frame is answered: %zu of %zu Requests, %u of %u Updates", sender->replies, sender->requests,
               sender->confirmed, sender->updates);
}

/* Replaces the gateway while the senders go on; says whether updates waited at the signal. */
static bool replace(struct traffic *traffic, const char *options)
{
    struct rig *rig = traffic->rig;
    unsigned waiting = 0;

    rig_signal(rig, SIGTERM);
    while (!rig_has_ended(rig)) {
        go_on(traffic);
    }
    CHECK(rig_wait(rig) == 0);
    rig_log_until(rig, "stops reading");
    CHECK(sscanf(strstr(rig->line, "stops"), "stops reading, %u waiting", &waiting) == 1);
    rig_log_until(rig, "drained after");
    CHECK_SAYS(strstr(rig->line, "0 bytes not sent, 0 not answered") != NULL, "nothing is left: %s", rig->line);
    CHECK(rig_has(rig->handover, ""));
    rig_launch(rig, rig_options(rig, options));
    for (int i = 0; i < 50; i++) {
        go_on(traffic);
    }
    rig_log_until(rig, "records from the hand-over ");
    return waiting > 0;
}

static void check_values(const struct sender *sender)
{
    for (unsigned field = 0; field < FIELDS; field++) {
        uint8_t value = sender->said[field] > 0 ? sender->values[field] : 44;

        rig_send(sender->rig, setting_hex(REQUEST, COOL, address_of(sender, field), (uint8_t)(field % STATES), 0));
        rig_reply(sender->rig, setting_hex(REQUESTED, COOL, address_of(sender, field), (uint8_t)(field % STATES), value));
    }
}

/* A row with cooling for each device of the senders. */
static const char *table_of(size_t devices)
{
    static char table[4096];

    table[0] = '\0';
    for (size_t i = 1; i <= devices; i++) {
        snprintf(table + strlen(table), sizeof table - strlen(table),
                 "row %zu 0 2 0 0 0 44 44 44 44 44 44 44 255 255 255 255 255 255 255 255 255 255 255 255 255 255\n", i);
    }
    return table;
}

/* Restarts under the traffic of so many senders, and then looks at what each of them was told. */
static void restarts(struct traffic *traffic)
{
    const char *options = "--speed 4 --delay 2 --handover @h";
    unsigned waited = 0;

    rig_start(traffic->rig, rig_options(traffic->rig, options));
    for (int i = 0; i < RESTARTS; i++) {
        for (unsigned j = 0; j < 300 + next_random(&traffic->senders[0]) % 100; j++) {
            go_on(traffic);
        }
        while (!all_wait(traffic)) {
            go_on(traffic);
        }
        waited += replace(traffic, options);
    }
    for (size_t i = 0; i < traffic->count; i++) {
        struct sender *sender = &traffic->senders[i];

        finish(sender);
        check_values(sender);
        CHECK_SAYS(waited >= RESTARTS / 2 && sender->updates > 5 * RESTARTS, "updates waited at %u of %d restarts, %u were sent",
                   waited, RESTARTS, sender->updates);
    }
}

void restarts_under_traffic(void)
{
    static struct traffic traffic = {.count = 1, .senders = {{.first = 1, .state = 1}}};
    struct rig rig;

    rig_make(&rig, table_of(DEVICES));
    traffic.rig = &rig;
    traffic.senders[0].rig = &rig;
    restarts(&traffic);
    rig_end(&rig);
}

void restarts_of_both_lines(void)
{
    static struct traffic traffic = {.count = 2, .senders = {{.first = 1, .state = 1}, {.first = 1 + DEVICES, .state = 2}}};
    struct rig rig;
    struct rig panel;

    rig_make_both(&rig, &panel, table_of(2 * DEVICES));
    traffic.rig = &rig;
    traffic.senders[0].rig = &rig;
    traffic.senders[1].rig = &panel;
    restarts(&traffic);
    rig_end(&rig);
    rig_end(&panel);
}

/* Takes replies to the Request, all of which must be whole and in order; returns how many bytes there are so far. */
static size_t take_answers(struct rig *rig, size_t before)
{
    uint8_t found[4096];
    size_t count = rig_pull(rig, found, sizeof found);

    for (size_t i = 0; i < count; i++) {
        NEED_SAYS(found[i] == rig_answer[(before + i) % RIG_REQUEST], "a reply to the Request, after %zu bytes", before + i);
    }
    return before + count;
}

/* The gateway is stopped while it can't send, with bytes that it has read and not fed: all are answered once the controller reads. */
void restart_with_a_full_line(void)
{
    struct rig rig;
    size_t sent;
    size_t whole;
    size_t answered = 0;
    int waited = 0;
    bool replaced = false;

    rig_make(&rig, RIG_ROW_1);
    rig_start(&rig, rig_options(&rig, "--handover @h"));
    sent = rig_fill(&rig);
    whole = (sent + RIG_REQUEST - 1) / RIG_REQUEST * RIG_REQUEST;
    rig_signal(&rig, SIGTERM);
    rig_log_until(&rig, "stops reading");
    while (answered < whole && waited < RIG_PATIENCE) {
        size_t before = answered;

        sent += sent < whole ? rig_push(&rig, rig_request + sent % RIG_REQUEST, whole - sent) : 0;
        answered = take_answers(&rig, answered);
        if (!replaced && rig_has_ended(&rig)) {
            CHECK(rig_wait(&rig) == 0);
            rig_launch(&rig, rig_options(&rig, "--handover @h"));
            replaced = true;
        }
        if (answered == before) {
            rig_pause(1);
            waited += 1;
        }
    }
    CHECK_SAYS(replaced && answered == whole, "all are answered, by two gateways: %zu of %zu bytes", answered, whole);
    rig_log_until(&rig, "drained after");
    CHECK_SAYS(strstr(rig.line, "0 bytes not sent, 0 not answered") != NULL, "nothing is left: %s", rig.line);
    rig_log_until(&rig, "records from the hand-over ");
    rig_quiet(&rig);
    rig_end(&rig);
}
