/*
 * sheet.h: a hand-over made here and not by the archive under test: the records of document 02, M-112, one for each frame, which a test
 * may spoil before they become bytes.
 */
#ifndef SHEET_H
#define SHEET_H

#include "../../include/wrackpulley.h"

enum { SHEET_OWN = 5, SHEET_ROW = 26, SHEET_MOST = SHEET_OWN + SHEET_ROW * THA_ROWS, SHEET_DATA = 16, SHEET_FRAME = 40 };

/* The places of a row's frames, counted from its first. */
enum { AT_ATTRIBUTES, AT_VERSION, AT_STATE, AT_EVENTS, AT_MODE, AT_COOL, AT_SLAB, AT_FAN };

/* The places of the gateway's own frames. */
enum { AT_ERROR, AT_REPORTING, AT_FIRMWARE, AT_PROTOCOL, AT_DATE };

struct record {
    uint8_t type;
    size_t length;
    uint8_t data[SHEET_DATA];
};

struct sheet {
    size_t count;
    struct record records[SHEET_MOST];
};

/* The bytes of a hand-over; ends[i] is the place of the EOF of frame i. */
struct sheet_bytes {
    size_t length;
    size_t ends[SHEET_MOST];
    uint8_t bytes[SHEET_MOST * SHEET_FRAME];
};

/* The records of a gateway. */
void sheet_of(struct sheet *sheet, const tha_gateway *gateway);

/* The records as frames, one behind the other; needless puts an escape before every byte inside a frame. */
void sheet_write(const struct sheet *sheet, bool needless, struct sheet_bytes *to);

/* The place of a frame of a row. */
size_t sheet_place(size_t row, size_t at);

#endif
