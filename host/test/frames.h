/* frames.h: frames for the tests, made here and not by the archive under test. */
#ifndef FRAMES_H
#define FRAMES_H

#include <stdbool.h>
#include <stddef.h>
#include <stdint.h>

enum { UPDATE = 0, REQUEST = 1, UPDATED = 3, REQUESTED = 4 };

/* The methods of document 01, and SetbackState, which only the hand-over has. */
enum {
    NETWORK_ERROR = 0x107,
    REPORTING = 0x10F,
    ATTRIBUTES = 0x11F,
    MODE = 0x127,
    COOL = 0x147,
    SLAB = 0x14F,
    FAN = 0x157,
    SETBACK_STATE = 0x177,
    EVENTS = 0x17F,
    FIRMWARE = 0x187,
    PROTOCOL = 0x18F,
    VERSION = 0x19F,
    DATE = 0x1A7
};

/* Writes the frame of a type and data; returns its length. */
size_t frame_of(uint8_t *frame, uint8_t type, const uint8_t *data, size_t length);

/* Writes the frame of a service, a method and its fields; returns its length. */
size_t record_frame(uint8_t *frame, uint8_t service, uint32_t method, const uint8_t *fields, size_t length);

/* Writes bytes as hex text, with a space after each: 3 * length + 1 characters. */
void write_hex(char *text, const uint8_t *bytes, size_t length);

/* The frame of cool, slab or fan as hex text, for the rig. The text is the caller's until the next call but three. */
const char *setting_hex(uint8_t service, uint32_t method, uint16_t address, uint8_t state, uint8_t value);

/* A reader of replies, which come whole: the body of the last one, Length first. */
struct reply_reader {
    bool inside;
    bool escaped;
    size_t length;
    uint8_t body[64];
};

/* Takes a byte; says whether it ends a reply. */
bool reply_byte(struct reply_reader *reader, uint8_t byte);

/* A dropped packet: its number, and how many body bytes it had taken. */
struct drop {
    unsigned number;
    size_t body;
};

/*
 * How many packets a fresh receiver drops in the bytes, by the frame rules of document 01, and the first `most` of them: a small
 * receiver of the test's own, so that the log's lines can be counted and compared.
 */
size_t list_drops(const uint8_t *bytes, size_t length, struct drop *list, size_t most);

#endif
