/*
 * pair.c: calls on both gateways, and the comparison of all that they answer, write and hold.
 */
#include "pair.h"
#include <stdio.h>
#include <stdlib.h>
#include <string.h>

enum { UNTOUCHED = 0xEE };

static _Noreturn void differ(const pair *p, const char *call, const char *what, long proved, long plain)
{
    fprintf(stderr, "bench: the gateways differ in call %llu (%s): %s is %ld proved, %ld plain\n", (unsigned long long)p->calls, call,
            what, proved, plain);
    exit(1);
}

static void same(const pair *p, const char *call, const char *what, long proved, long plain)
{
    if (proved != plain) {
        differ(p, call, what, proved, plain);
    }
}

static void same_bytes(const pair *p, const char *call, const char *what, const uint8_t *proved, const uint8_t *plain, size_t n)
{
    if (memcmp(proved, plain, n) == 0) {
        return;
    }
    size_t i = 0;
    while (proved[i] == plain[i]) {
        i++;
    }
    char which[64];
    snprintf(which, sizeof which, "%s, at place %zu,", what, i);
    differ(p, call, which, proved[i], plain[i]);
}

static void same_field(const pair *p, const char *call, tha_field proved, tha_field plain)
{
    same(p, call, "a field's address", proved.address, plain.address);
    same(p, call, "a field's kind", proved.kind, plain.kind);
    same(p, call, "a field's state", proved.state, plain.state);
}

static void same_line_field(const pair *p, const char *call, tha_line_field proved, tha_line_field plain)
{
    same(p, call, "a field's line", proved.line, plain.line);
    same_field(p, call, proved.field, plain.field);
}

static void same_row(const pair *p, const char *call, const tha_row *proved, const tha_row *plain)
{
    same(p, call, "a row's address", proved->address, plain->address);
    same(p, call, "a row's version", proved->version, plain->version);
    same(p, call, "a row's mask", proved->mask, plain->mask);
    same(p, call, "a row's mode", proved->mode, plain->mode);
    same(p, call, "a row's state", proved->state, plain->state);
    same(p, call, "a row's events", proved->events, plain->events);
    same_bytes(p, call, "a row's cool", proved->cool, plain->cool, THA_STATES);
    same_bytes(p, call, "a row's slab", proved->slab, plain->slab, THA_STATES);
    same_bytes(p, call, "a row's fan", proved->fan, plain->fan, THA_STATES);
}

static void same_receiver(const pair *p, const char *call, const tha_receiver *proved, const plain_receiver *plain)
{
    same(p, call, "inside a packet", proved->inside, plain->inside);
    same(p, call, "an escape pending", proved->escaped, plain->escaped);
    same(p, call, "the body's length", (long)proved->len, plain->len);
    same_bytes(p, call, "a byte of the body", proved->bytes, plain->body, plain->len);
}

static void same_receivers(const pair *p, const char *call)
{
    same_receiver(p, call, &p->proved.receivers.controller, &p->plain.receivers[THA_CONTROLLER]);
    same_receiver(p, call, &p->proved.receivers.panel, &p->plain.receivers[THA_PANEL]);
}

static void same_table(const pair *p, const char *call)
{
    const tha_table *proved = &p->proved.table;
    const tha_table *plain = &p->plain.table;
    same(p, call, "the number of rows", (long)proved->count, (long)plain->count);
    for (size_t i = 0; i < plain->count; i++) {
        same_row(p, call, &proved->rows[i], &plain->rows[i]);
    }
}

static void same_queue(const pair *p, const char *call)
{
    const tha_queue *proved = &p->proved.queue;
    same(p, call, "the number that wait", (long)proved->count, p->plain.queue.count);
    for (size_t i = 0; i < proved->count; i++) {
        const tha_update *plain = plain_waiting(&p->plain, i);
        same(p, call, "an update's line", proved->slots[i].line, plain->line);
        same_field(p, call, proved->slots[i].field, plain->field);
        same(p, call, "a value asked for", proved->slots[i].value, plain->value);
        same(p, call, "an age", proved->slots[i].age, plain->age);
    }
}

static void same_properties(const pair *p, const char *call)
{
    const tha_properties *proved = &p->proved.properties;
    const tha_properties *plain = &p->plain.properties;
    same(p, call, "the network error", proved->error, plain->error);
    same(p, call, "reporting", proved->reporting, plain->reporting);
    same(p, call, "firmware", proved->firmware, plain->firmware);
    same(p, call, "protocol", proved->protocol, plain->protocol);
    same(p, call, "the year", proved->date.year, plain->date.year);
    same(p, call, "the month", proved->date.month, plain->date.month);
    same(p, call, "the day", proved->date.day, plain->date.day);
    same(p, call, "the weekday", proved->date.weekday, plain->date.weekday);
    same(p, call, "the hour", proved->date.hour, plain->date.hour);
    same(p, call, "the minute", proved->date.minute, plain->date.minute);
}

void pair_compare(const pair *p, const char *call)
{
    same_receivers(p, call);
    same_table(p, call);
    same_queue(p, call);
    same_properties(p, call);
}

static void same_answer(pair *p, const char *call, tha_answer proved, tha_answer plain)
{
    same(p, call, "the answer's outcome", proved.outcome, plain.outcome);
    same(p, call, "the number of refusal", proved.number, plain.number);
    same(p, call, "the answer's line", proved.line, plain.line);
    same(p, call, "the answer's count", (long)proved.count, (long)plain.count);
    p->outcomes[plain.outcome]++;
    p->numbers[plain.number]++;
}

void pair_fresh(pair *p, uint16_t firmware, uint16_t protocol)
{
    p->proved = tha_fresh(firmware, protocol);
    plain_fresh(&p->plain, firmware, protocol);
    pair_compare(p, "fresh");
}

tha_answer pair_add(pair *p, tha_row row)
{
    p->calls++;
    tha_result r = tha_add(p->proved, row);
    tha_answer plain = plain_add(&p->plain, &row);
    p->proved = r.gateway;
    same_answer(p, "add", r.answer, plain);
    pair_compare(p, "add");
    return plain;
}

/* What a byte's answer met on a line. */
static void note_meeting(pair *p, size_t line, tha_answer answer)
{
    const plain_receiver *other = &p->plain.receivers[THA_PANEL - line];
    bool framed = answer.outcome != THA_NOTHING && answer.number != THA_NO_ROOM && !tha_is_drop(answer.number);
    p->met[line][BETWEEN] += framed && other->inside;
    if (answer.number == THA_QUEUE_FULL) {
        p->met[line][p->plain.queue.count == THA_WAITING ? FULL_BOTH : FULL_ALONE]++;
    }
}

tha_answer pair_byte(pair *p, uint8_t line, uint8_t byte, size_t room)
{
    uint8_t proved[PAIR_ROOM];
    uint8_t plain[PAIR_ROOM];
    memset(proved, UNTOUCHED, sizeof proved);
    memset(plain, UNTOUCHED, sizeof plain);
    p->calls++;
    tha_result r = tha_byte(p->proved, line, byte, proved, room);
    tha_answer answer = plain_byte(&p->plain, line, byte, plain, room);
    p->proved = r.gateway;
    same_answer(p, "byte", r.answer, answer);
    same_bytes(p, "byte", "a byte of the buffer", proved, plain, PAIR_ROOM);
    pair_compare(p, "byte");
    note_meeting(p, line == THA_CONTROLLER ? THA_CONTROLLER : THA_PANEL, answer);
    return answer;
}

static void same_counts(const pair *p, const tha_counts *proved, const tha_counts *plain)
{
    for (size_t i = 0; i < THA_COUNTED; i++) {
        same(p, "block", "how often a number came up", proved->numbers[i], plain->numbers[i]);
    }
    same(p, "block", "how many were queued", proved->queued, plain->queued);
    same(p, "block", "the drops' body bytes", proved->body, plain->body);
}

/* How a block of n bytes ended. */
static void note_block(pair *p, const plain_blocked *b, size_t n)
{
    size_t how = b->number != 0 ? NO_AREA : b->used == n ? WHOLE : b->used == THA_BLOCK ? BLOCK_LIMIT : AREA_FULL;
    p->ended[how]++;
    for (size_t i = 0; i < THA_COUNTED; i++) {
        p->counted[i] += b->counts.numbers[i];
    }
    p->counted[THA_COUNTED] += b->counts.queued;
}

/* The plain block call, a byte at a time and tuned by turns. */
static plain_blocked plain_by_turns(pair *p, uint8_t line, const uint8_t *bytes, size_t n, uint8_t *area, size_t room)
{
    if (p->calls % 2 == 0) {
        return plain_block(&p->plain, line, bytes, n, area, room);
    }
    return plain_block_tuned(&p->plain, line, bytes, n, area, room);
}

plain_blocked pair_block(pair *p, uint8_t line, const uint8_t *bytes, size_t n, uint8_t *area, size_t room)
{
    static uint8_t proved[PAIR_AREA];
    memset(proved, UNTOUCHED, sizeof proved);
    memset(area, UNTOUCHED, PAIR_AREA);
    p->calls++;
    tha_blocked r = tha_block(p->proved, line, bytes, n, proved, room);
    plain_blocked plain = plain_by_turns(p, line, bytes, n, area, room);
    p->proved = r.gateway;
    same(p, "block", "the number of refusal", r.number, plain.number);
    same(p, "block", "how many bytes were used", (long)r.used, (long)plain.used);
    same(p, "block", "how many bytes were written", (long)r.written, (long)plain.written);
    same_counts(p, &r.counts, &plain.counts);
    same_bytes(p, "block", "a byte of the area", proved, area, PAIR_AREA);
    pair_compare(p, "block");
    note_block(p, &plain, n);
    return plain;
}

tha_answer pair_turn(pair *p, tha_field field, tha_heard heard, size_t room)
{
    uint8_t proved[PAIR_ROOM];
    uint8_t plain[PAIR_ROOM];
    memset(proved, UNTOUCHED, sizeof proved);
    memset(plain, UNTOUCHED, sizeof plain);
    p->calls++;
    tha_result r = tha_turn(p->proved, field, heard, proved, room);
    tha_answer answer = plain_turn(&p->plain, field, heard, plain, room);
    p->proved = r.gateway;
    same_answer(p, "turn", r.answer, answer);
    same_bytes(p, "turn", "a byte of the buffer", proved, plain, PAIR_ROOM);
    pair_compare(p, "turn");
    p->met[answer.line][CONFIRMED] += answer.outcome == THA_REPLIED;
    return answer;
}

size_t pair_tick(pair *p)
{
    static const tha_line_field blank = {0, {0, 0, 0}};
    tha_line_field list[THA_WAITING];
    p->calls++;
    tha_ticked r = tha_tick(p->proved);
    size_t count = plain_tick(&p->plain, list);
    p->proved = r.gateway;
    same(p, "tick", "the number of fields listed", (long)r.fields.count, (long)count);
    for (size_t i = 0; i < THA_WAITING; i++) {
        same_line_field(p, "tick", r.fields.list[i], i < count ? list[i] : blank);
    }
    for (size_t i = 0; i < count; i++) {
        p->met[list[i].line][TIMED_OUT]++;
    }
    pair_compare(p, "tick");
    return count;
}

tha_head_answer pair_head(pair *p)
{
    p->calls++;
    tha_head_answer proved = tha_head(p->proved);
    tha_head_answer plain = plain_head(&p->plain);
    same(p, "head", "the number of refusal", proved.number, plain.number);
    same(p, "head", "the head's line", proved.line, plain.line);
    same(p, "head", "the value asked for", proved.value, plain.value);
    same_field(p, "head", proved.field, plain.field);
    return plain;
}

void pair_set_network_error(pair *p, uint16_t error)
{
    p->calls++;
    p->proved = tha_set_network_error(p->proved, error);
    plain_set_network_error(&p->plain, error);
    pair_compare(p, "set_network_error");
}

void pair_check_date(pair *p)
{
    p->calls++;
    p->proved = tha_check_date(p->proved);
    plain_check_date(&p->plain);
    pair_compare(p, "check_date");
}

void pair_plant_date(pair *p, tha_date date)
{
    p->proved.properties.date = date;
    p->plain.properties.date = date;
}

void pair_plant_row(pair *p, size_t place, tha_row row)
{
    p->proved.table.rows[place] = row;
    p->plain.table.rows[place] = row;
}

tha_answer pair_hand(pair *p, size_t place, size_t room, uint8_t *frame)
{
    uint8_t proved[PAIR_ROOM];
    memset(proved, UNTOUCHED, sizeof proved);
    memset(frame, UNTOUCHED, PAIR_ROOM);
    p->calls++;
    tha_answer answer = plain_hand(&p->plain, place, frame, room);
    same_answer(p, "hand", tha_hand(p->proved, place, proved, room), answer);
    same_bytes(p, "hand", "a byte of the buffer", proved, frame, PAIR_ROOM);
    p->handed += answer.count > 0;
    return answer;
}

tha_answer pair_read(pair *p, uint16_t firmware, uint16_t protocol, size_t count, const uint8_t *bytes, size_t n)
{
    p->calls++;
    tha_result r = tha_read(firmware, protocol, count, bytes, n);
    tha_answer answer = plain_read(&p->plain, firmware, protocol, count, bytes, n);
    p->proved = r.gateway;
    same_answer(p, "read", r.answer, answer);
    pair_compare(p, "read");
    p->read[answer.number]++;
    return answer;
}

tha_answer pair_write(pair *p, uint8_t type, const uint8_t *data, size_t n, size_t room)
{
    uint8_t proved[THA_FRAME_ROOM];
    uint8_t plain[THA_FRAME_ROOM];
    memset(proved, UNTOUCHED, sizeof proved);
    memset(plain, UNTOUCHED, sizeof plain);
    p->calls++;
    tha_answer answer = plain_write(type, data, n, plain, room);
    same_answer(p, "write", tha_write(type, data, n, proved, room), answer);
    same_bytes(p, "write", "a byte of the buffer", proved, plain, THA_FRAME_ROOM);
    return answer;
}
