/* outbox.h: bytes that are to be sent and that a line has not taken yet. Its size is fixed. */
#ifndef OUTBOX_H
#define OUTBOX_H

#include <stdbool.h>
#include <stddef.h>
#include <stdint.h>

enum { OUTBOX_ROOM = 4096 };

struct outbox {
    size_t length;
    uint8_t bytes[OUTBOX_ROOM];
};

void outbox_empty(struct outbox *outbox);

/* Whether another reply fits, whichever it is. */
bool outbox_has_room(const struct outbox *outbox);

/* Adds a reply after the others. The caller has asked for room before. */
void outbox_add(struct outbox *outbox, const uint8_t *reply, size_t length);

/* Where the bytes after the others go, and how many fit there; then takes in how many were written there. */
uint8_t *outbox_end(struct outbox *outbox);
size_t outbox_room(const struct outbox *outbox);
void outbox_written(struct outbox *outbox, size_t length);

/* Takes the first bytes out, which have been sent. */
void outbox_sent(struct outbox *outbox, size_t length);

#endif
