/*
 * plain_queue.c: the updates that wait, in a ring of sixteen slots, eight for each line (document 01, "Turn" and "Tick"; document
 * 02, M-106).
 */
#include "plain_parts.h"

static size_t slot(const plain_queue *q, size_t place)
{
    return (q->first + place) % THA_WAITING;
}

const tha_update *plain_at(const plain_queue *q, size_t place)
{
    return &q->slots[slot(q, place)];
}

bool plain_same_field(tha_field a, tha_field b)
{
    return a.address == b.address && a.kind == b.kind && a.state == b.state;
}

bool plain_waits(const plain_queue *q, tha_field field)
{
    for (size_t i = 0; i < q->count; i++) {
        if (plain_same_field(plain_at(q, i)->field, field)) {
            return true;
        }
    }
    return false;
}

/* Whether a line's places are taken, or all slots, as no calls leave them while a line has a place. */
static bool is_full(const plain_queue *q, uint8_t line)
{
    size_t taken = 0;
    for (size_t i = 0; i < q->count; i++) {
        taken += plain_at(q, i)->line == line;
    }
    return taken >= THA_LINE_WAITING || q->count == THA_WAITING;
}

tha_answer plain_enqueue(plain_queue *q, uint8_t line, tha_field field, uint8_t value)
{
    if (plain_waits(q, field)) {
        return plain_refused(THA_FIELD_WAITS);
    }
    if (is_full(q, line)) {
        return plain_refused(THA_QUEUE_FULL);
    }
    q->slots[slot(q, q->count)] = (tha_update){.line = line, .field = field, .value = value, .age = 0};
    q->count++;
    return plain_answer(THA_QUEUED, q->count);
}

void plain_pop(plain_queue *q)
{
    q->first = (uint8_t)slot(q, 1);
    q->count--;
}

void plain_rotate(plain_queue *q)
{
    tha_update head = q->slots[q->first];
    q->slots[slot(q, q->count)] = head;
    q->first = (uint8_t)slot(q, 1);
}

/* Those that stay close up towards the head. */
size_t plain_age(plain_queue *q, tha_line_field *list)
{
    size_t left = 0;
    uint8_t kept = 0;
    for (size_t i = 0; i < q->count; i++) {
        tha_update u = *plain_at(q, i);
        u.age++;
        if (u.age >= THA_LIFETIME) {
            list[left++] = (tha_line_field){.line = u.line, .field = u.field};
        } else {
            q->slots[slot(q, kept++)] = u;
        }
    }
    q->count = kept;
    return left;
}
