/*
 * plain_listing.c: document 01's listing program over the plain gateway: raw bytes on standard input, a line of text for each event
 * on standard output. Built with REACH=plain_reach_tuned it is the tuned one.
 */
#define _POSIX_C_SOURCE 200809L
#include "plain.h"
#include <string.h>
#include <unistd.h>

#ifndef REACH
#define REACH plain_reach
#endif

enum { BLOCK = 65536, LINE_ROOM = 256 };

static char out[BLOCK];
static size_t used;

static bool flush(void)
{
    size_t at = 0;
    while (at < used) {
        ssize_t n = write(STDOUT_FILENO, out + at, used - at);
        if (n <= 0) {
            return false;
        }
        at += (size_t)n;
    }
    used = 0;
    return true;
}

static void put_text(const char *text)
{
    size_t n = strlen(text);
    memcpy(out + used, text, n);
    used += n;
}

static void put_decimal(uint64_t n)
{
    char digits[20];
    size_t at = sizeof digits;
    do {
        digits[--at] = (char)('0' + n % 10);
        n /= 10;
    } while (n > 0);
    memcpy(out + used, digits + at, sizeof digits - at);
    used += sizeof digits - at;
}

static void put_hex(const uint8_t *bytes, size_t n)
{
    static const char digits[] = "0123456789abcdef";
    for (size_t i = 0; i < n; i++) {
        out[used++] = ' ';
        out[used++] = digits[bytes[i] >> 4];
        out[used++] = digits[bytes[i] & 15];
    }
}

static const char *word_of(tha_answer answer)
{
    if (answer.outcome == THA_QUEUED) {
        return " queued ";
    }
    if (answer.outcome == THA_REPLIED) {
        return " reply ";
    }
    return tha_is_drop(answer.number) ? " drop " : " refused ";
}

static void put_line(uint64_t offset, tha_answer answer, const uint8_t *reply)
{
    put_decimal(offset);
    put_text(word_of(answer));
    put_decimal(answer.outcome == THA_REFUSED ? answer.number : answer.count);
    if (answer.outcome == THA_REPLIED) {
        put_hex(reply, answer.count);
    }
    if (tha_is_drop(answer.number)) {
        put_text(" ");
        put_decimal(answer.count);
    }
    out[used++] = '\n';
}

/* The lines of a block of the controller's whose first byte has this offset; false where they can't be written. */
static bool list_block(plain_gateway *g, uint64_t offset, const uint8_t *block, size_t n)
{
    uint8_t reply[THA_REPLY_ROOM];
    for (size_t i = 0; i < n;) {
        plain_reached r = REACH(g, THA_CONTROLLER, block + i, n - i, reply);
        i += r.used;
        if (r.answer.outcome == THA_NOTHING) {
            continue;
        }
        if (sizeof out - used < LINE_ROOM && !flush()) {
            return false;
        }
        put_line(offset + i - 1, r.answer, reply);
    }
    return flush();
}

static void start(plain_gateway *g)
{
    tha_row row = {.address = 1, .version = 112810, .mask = 0x0B, .mode = 0, .state = 4, .events = 0};
    memset(row.cool, 44, sizeof row.cool);
    memset(row.slab, THA_NONE, sizeof row.slab);
    memset(row.fan, 0, sizeof row.fan);
    plain_fresh(g, 0, 0);
    (void)plain_add(g, &row);
}

int main(void)
{
    static plain_gateway gateway;
    static uint8_t block[BLOCK];
    uint64_t offset = 0;
    start(&gateway);
    for (;;) {
        ssize_t n = read(STDIN_FILENO, block, sizeof block);
        if (n <= 0 || !list_block(&gateway, offset, block, (size_t)n)) {
            return 0;
        }
        offset += (uint64_t)n;
    }
}
