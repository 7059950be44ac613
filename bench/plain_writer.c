/*
 * plain_writer.c: a type and data become a frame (document 01, "Writing"). The length is known before the first byte is written.
 */
#include "plain_parts.h"

static bool is_special(uint8_t byte)
{
    return byte == LINE_SOF || byte == LINE_EOF || byte == LINE_ESCAPE;
}

static uint8_t *put(uint8_t *at, uint8_t byte)
{
    if (is_special(byte)) {
        *at++ = LINE_ESCAPE;
    }
    *at++ = byte;
    return at;
}

tha_answer plain_write(uint8_t type, const uint8_t *data, size_t data_length, uint8_t *buffer, size_t length)
{
    if (data_length > 255) {
        return plain_refused(THA_TOO_MUCH_DATA);
    }
    uint8_t size = (uint8_t)data_length;
    uint8_t sum = (uint8_t)(size + type);
    size_t width = data_length + 5;
    for (size_t i = 0; i < data_length; i++) {
        sum = (uint8_t)(sum + data[i]);
        width += is_special(data[i]);
    }
    width += (size_t)is_special(size) + is_special(type) + is_special(sum);
    if (length < width) {
        return plain_refused(THA_NO_ROOM);
    }
    uint8_t *at = buffer;
    *at++ = LINE_SOF;
    at = put(put(at, size), type);
    for (size_t i = 0; i < data_length; i++) {
        at = put(at, data[i]);
    }
    at = put(at, sum);
    *at = LINE_EOF;
    return plain_answer(THA_WRITTEN, width);
}
