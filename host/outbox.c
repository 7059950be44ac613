/* outbox.c: bytes that are to be sent and that a line has not taken yet. */
#include "outbox.h"

#include "../include/wrackpulley.h"

#include <assert.h>
#include <string.h>

void outbox_empty(struct outbox *outbox)
{
    outbox->length = 0;
}

uint8_t *outbox_end(struct outbox *outbox)
{
    return outbox->bytes + outbox->length;
}

size_t outbox_room(const struct outbox *outbox)
{
    return OUTBOX_ROOM - outbox->length;
}

void outbox_written(struct outbox *outbox, size_t length)
{
    assert(length <= outbox_room(outbox));
    outbox->length += length;
}

bool outbox_has_room(const struct outbox *outbox)
{
    return outbox_room(outbox) >= THA_REPLY_ROOM;
}

void outbox_add(struct outbox *outbox, const uint8_t *reply, size_t length)
{
    assert(length <= outbox_room(outbox));
    memcpy(outbox_end(outbox), reply, length);
    outbox_written(outbox, length);
}

void outbox_sent(struct outbox *outbox, size_t length)
{
    assert(length <= outbox->length);
    outbox->length -= length;
    memmove(outbox->bytes, outbox->bytes + length, outbox->length);
}
