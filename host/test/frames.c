/* frames.c: frames for the tests, made here and not by the archive under test. */
#include "frames.h"

#include <stdio.h>
#include <string.h>

enum { SOF = 0xCA, END = 0x35, ESCAPE = 0x2F };

static size_t put(uint8_t *frame, size_t place, uint8_t byte)
{
    if (byte == SOF || byte == END || byte == ESCAPE) {
        frame[place] = ESCAPE;
        place += 1;
    }
    frame[place] = byte;
    return place + 1;
}

size_t frame_of(uint8_t *frame, uint8_t type, const uint8_t *data, size_t length)
{
    uint8_t sum = (uint8_t)(length + type);
    size_t place = 1;

    frame[0] = SOF;
    place = put(frame, place, (uint8_t)length);
    place = put(frame, place, type);
    for (size_t i = 0; i < length; i++) {
        place = put(frame, place, data[i]);
        sum = (uint8_t)(sum + data[i]);
    }
    place = put(frame, place, sum);
    frame[place] = END;
    return place + 1;
}

size_t record_frame(uint8_t *frame, uint8_t service, uint32_t method, const uint8_t *fields, size_t length)
{
    uint8_t data[64] = {service, (uint8_t)method, (uint8_t)(method >> 8), (uint8_t)(method >> 16), (uint8_t)(method >> 24)};

    memcpy(data + 5, fields, length);
    return frame_of(frame, 6, data, 5 + length);
}

void write_hex(char *text, const uint8_t *bytes, size_t length)
{
    text[0] = '\0';
    for (size_t i = 0; i < length; i++) {
        sprintf(text + 3 * i, "%02x ", bytes[i]);
    }
}

const char *setting_hex(uint8_t service, uint32_t method, uint16_t address, uint8_t state, uint8_t value)
{
    static char texts[4][128];
    static unsigned next;
    uint8_t fields[] = {(uint8_t)address, (uint8_t)(address >> 8), state, value};
    uint8_t frame[64];
    size_t length = record_frame(frame, service, method, fields, sizeof fields);
    char *text = texts[next % 4];

    next += 1;
    write_hex(text, frame, length);
    return text;
}

bool reply_byte(struct reply_reader *reader, uint8_t byte)
{
    bool escaped = reader->escaped;

    reader->escaped = !escaped && byte == ESCAPE;
    if (reader->escaped) {
        return false;
    }
    if (!escaped && byte == SOF) {
        reader->inside = true;
        reader->length = 0;
        return false;
    }
    if (!escaped && byte == END) {
        reader->inside = false;
        return true;
    }
    if (reader->inside && reader->length < sizeof reader->body) {
        reader->body[reader->length] = byte;
        reader->length += 1;
    }
    return false;
}

/* A receiver: the open packet's body, if one is open. */
struct model {
    bool inside;
    bool escaped;
    size_t length;
    uint8_t first; /* the Length byte */
    uint8_t sum;   /* of all but the last byte */
    uint8_t last;
};

/* A plain byte; gives 5 where it was one too many, else 0. */
static unsigned model_plain(struct model *model, uint8_t byte)
{
    model->escaped = false;
    if (!model->inside) {
        return 0;
    }
    if (model->length > 0 && model->length == (size_t)model->first + 3) {
        model->inside = false;
        return 5;
    }
    if (model->length == 0) {
        model->first = byte;
    } else {
        model->sum = (uint8_t)(model->sum + model->last);
    }
    model->last = byte;
    model->length += 1;
    return 0;
}

/* EOF inside a packet: gives 4 or 6, or 0 for a frame. */
static unsigned model_end(const struct model *model)
{
    if (model->length == 0 || model->length < (size_t)model->first + 3) {
        return 4;
    }
    return model->sum != model->last ? 6 : 0;
}

/* Gives the number of the drop, where the byte drops a packet, else 0. */
static unsigned model_byte(struct model *model, uint8_t byte)
{
    struct model before = *model;

    if (!model->escaped && byte == ESCAPE) {
        model->escaped = true;
        return 0;
    }
    if (!model->escaped && byte == SOF) {
        *model = (struct model){.inside = true};
        return before.inside ? 3 : 0;
    }
    if (!model->escaped && byte == END) {
        model->inside = false;
        return before.inside ? model_end(&before) : 0;
    }
    return model_plain(model, byte);
}

size_t list_drops(const uint8_t *bytes, size_t length, struct drop *list, size_t most)
{
    struct model model = {.inside = false};
    size_t drops = 0;

    for (size_t i = 0; i < length; i++) {
        size_t body = model.length;
        unsigned number = model_byte(&model, bytes[i]);

        if (number != 0) {
            if (drops < most) {
                list[drops] = (struct drop){.number = number, .body = body};
            }
            drops += 1;
        }
    }
    return drops;
}
