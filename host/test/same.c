/* same.c: gateways compared field by field. */
#include "same.h"

#include <string.h>

bool same_row(const tha_row *a, const tha_row *b)
{
    return a->address == b->address && a->version == b->version && a->mask == b->mask && a->mode == b->mode && a->state == b->state &&
           a->events == b->events && memcmp(a->cool, b->cool, THA_STATES) == 0 && memcmp(a->slab, b->slab, THA_STATES) == 0 &&
           memcmp(a->fan, b->fan, THA_STATES) == 0;
}

bool same_field(tha_field a, tha_field b)
{
    return a.address == b.address && a.kind == b.kind && a.state == b.state;
}

bool same_line_field(tha_line_field a, tha_line_field b)
{
    return a.line == b.line && same_field(a.field, b.field);
}

bool same_receiver(const tha_receiver *a, const tha_receiver *b)
{
    return a->inside == b->inside && a->escaped == b->escaped && a->len == b->len && memcmp(a->bytes, b->bytes, THA_BODY) == 0;
}

bool same_receivers(const tha_receivers *a, const tha_receivers *b)
{
    return same_receiver(&a->controller, &b->controller) && same_receiver(&a->panel, &b->panel);
}

bool same_update(const tha_update *a, const tha_update *b)
{
    return a->line == b->line && same_field(a->field, b->field) && a->value == b->value && a->age == b->age;
}

bool same_table(const tha_table *a, const tha_table *b)
{
    bool same = a->count == b->count;

    for (size_t i = 0; i < THA_ROWS; i++) {
        same = same && same_row(&a->rows[i], &b->rows[i]);
    }
    return same;
}

bool same_queue(const tha_queue *a, const tha_queue *b)
{
    bool same = a->count == b->count;

    for (size_t i = 0; i < THA_WAITING; i++) {
        same = same && same_update(&a->slots[i], &b->slots[i]);
    }
    return same;
}

static bool same_date(const tha_date *a, const tha_date *b)
{
    return a->year == b->year && a->month == b->month && a->day == b->day && a->weekday == b->weekday && a->hour == b->hour &&
           a->minute == b->minute;
}

bool same_properties(const tha_properties *a, const tha_properties *b)
{
    return a->error == b->error && a->reporting == b->reporting && a->firmware == b->firmware && a->protocol == b->protocol &&
           same_date(&a->date, &b->date);
}

bool same_records(const tha_gateway *a, const tha_gateway *b)
{
    return same_table(&a->table, &b->table) && same_queue(&a->queue, &b->queue) && same_properties(&a->properties, &b->properties);
}

bool same_gateway(const tha_gateway *a, const tha_gateway *b)
{
    return same_receivers(&a->receivers, &b->receivers) && same_records(a, b);
}
