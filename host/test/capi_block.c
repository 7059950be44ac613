/* capi_block.c: a block of a line's bytes: its limits, its counts, and any cutting of a line against one byte at a time. */
#include "capi.h"
#include "check.h"
#include "frames.h"
#include "same.h"

#include <string.h>

enum {
    AREA = 3 * THA_BLOCK, /* room for all replies to a block */
    LINE = 3 * THA_BLOCK, /* the longest line here */
    REPLIES = 3 * LINE,
    KEPT = 0xEE, /* the bytes of an area before a call */
    LOW = 0x01,  /* the address of the first row */
    HIGH = 0x41
};

/* The Request of the network error, and its reply. */
static const uint8_t request[] = {0xCA, 0x07, 0x06, 0x01, 0x07, 0x01, 0x00, 0x00, 0x00, 0x00, 0x16, 0x35};
static const uint8_t answer[] = {0xCA, 0x07, 0x06, 0x04, 0x07, 0x01, 0x00, 0x00, 0x00, 0x00, 0x19, 0x35};

enum { REQUEST_LENGTH = sizeof request };

/* Bytes of a line. */
struct line_bytes {
    size_t length;
    uint8_t bytes[LINE + 512];
};

static void put(struct line_bytes *line, const uint8_t *bytes, size_t length)
{
    NEED(length <= sizeof line->bytes - line->length);
    memcpy(line->bytes + line->length, bytes, length);
    line->length += length;
}

static void put_record(struct line_bytes *line, uint8_t service, uint32_t method, const uint8_t *fields, size_t length)
{
    uint8_t frame[64];

    put(line, frame, record_frame(frame, service, method, fields, length));
}

/* Takes a block with an area of its own, past whose written bytes nothing may change. The area is the caller's until the next call. */
static tha_blocked take_block(tha_gateway gateway, uint8_t line, const uint8_t *bytes, size_t length, size_t room, const uint8_t **area)
{
    static uint8_t places[AREA + 64];
    static uint8_t before[sizeof places];
    tha_blocked done;

    NEED(room <= AREA);
    memset(places, KEPT, sizeof places);
    memset(before, KEPT, sizeof before);
    done = tha_block(gateway, line, bytes, length, places, room);
    CHECK(done.number == (room < THA_REPLY_ROOM ? THA_NO_ROOM : 0));
    CHECK_SAYS(done.used <= length && done.used <= THA_BLOCK && done.written <= room, "used %zu, written %zu", done.used, done.written);
    CHECK_SAYS(memcmp(places + done.written, before, sizeof places - done.written) == 0, "the area past %zu of %zu bytes is kept",
               done.written, room);
    if (area != NULL) {
        *area = places;
    }
    return done;
}

static size_t least(size_t one, size_t other)
{
    return one < other ? one : other;
}

static bool no_counts(const tha_counts *counts)
{
    static const tha_counts none;

    return memcmp(counts, &none, sizeof none) == 0;
}

/* What the bytes of a line came to. */
struct outcome {
    tha_gateway gateway;
    tha_counts counts;
    size_t length; /* of the replies */
    uint8_t replies[REPLIES];
};

static void start_at(struct outcome *outcome, const tha_gateway *gateway)
{
    outcome->gateway = *gateway;
    memset(&outcome->counts, 0, sizeof outcome->counts);
    outcome->length = 0;
}

static void add_replies(struct outcome *outcome, const uint8_t *bytes, size_t length)
{
    NEED(length <= sizeof outcome->replies - outcome->length);
    memcpy(outcome->replies + outcome->length, bytes, length);
    outcome->length += length;
}

static void add_byte(struct outcome *outcome, uint8_t line, uint8_t byte)
{
    uint8_t reply[THA_REPLY_ROOM];
    tha_result result = tha_byte(outcome->gateway, line, byte, reply, sizeof reply);

    outcome->gateway = result.gateway;
    if (result.answer.outcome == THA_REPLIED) {
        add_replies(outcome, reply, result.answer.count);
    } else if (result.answer.outcome == THA_QUEUED) {
        outcome->counts.queued += 1;
    } else if (result.answer.outcome == THA_REFUSED) {
        outcome->counts.numbers[result.answer.number - 3] += 1;
        outcome->counts.body += tha_is_drop(result.answer.number) ? (uint32_t)result.answer.count : 0;
    }
}

/* Takes a block, and says how many bytes it used. */
static size_t add_block(struct outcome *outcome, uint8_t line, const uint8_t *bytes, size_t length, size_t room)
{
    const uint8_t *area;
    tha_blocked done = take_block(outcome->gateway, line, bytes, length, room, &area);

    outcome->gateway = done.gateway;
    add_replies(outcome, area, done.written);
    for (size_t i = 0; i < THA_COUNTED; i++) {
        outcome->counts.numbers[i] += done.counts.numbers[i];
    }
    outcome->counts.queued += done.counts.queued;
    outcome->counts.body += done.counts.body;
    return done.used;
}

static void check_same(const struct outcome *blocks, const struct outcome *single)
{
    CHECK_SAYS(blocks->length == single->length, "replies of %zu bytes: %zu", single->length, blocks->length);
    CHECK(memcmp(blocks->replies, single->replies, single->length) == 0);
    CHECK(memcmp(&blocks->counts, &single->counts, sizeof single->counts) == 0);
    CHECK(same_gateway(&blocks->gateway, &single->gateway));
}

/* All of a line in blocks of so many bytes with areas of so many gives what one byte at a time gives. */
static void check_cutting(const tha_gateway *gateway, uint8_t line, const struct line_bytes *bytes, size_t size, size_t room)
{
    static struct outcome blocks;
    static struct outcome single;
    size_t place = 0;

    start_at(&blocks, gateway);
    start_at(&single, gateway);
    while (place < bytes->length) {
        size_t used = add_block(&blocks, line, bytes->bytes + place, least(bytes->length - place, size), room);

        NEED(used > 0);
        place += used;
    }
    for (size_t i = 0; i < bytes->length; i++) {
        add_byte(&single, line, bytes->bytes[i]);
    }
    check_same(&blocks, &single);
}

/* A gateway with an escape pending on the controller's line and a packet open on the panel's, and one update that waits. */
static tha_gateway busy_gateway(void)
{
    tha_gateway gateway = queue_setting(gateway_of_rows(2), COOL, 0x4101, 3, 70);
    uint8_t reply[THA_REPLY_ROOM];

    gateway = tha_byte(gateway, THA_CONTROLLER, 0x2F, reply, sizeof reply).gateway;
    return feed_frame(gateway, THA_PANEL, (const uint8_t[]){0xCA, 0x02, 0x06}, 3, reply).gateway;
}

/* 1 for an area under 32 bytes: nothing is used or changed. An empty block is refused so too, and else does nothing. */
void blocks_refused(void)
{
    static const uint8_t noise[2 * THA_BLOCK];
    static const size_t lengths[] = {0, 1, REQUEST_LENGTH, 2 * THA_BLOCK};
    tha_gateway gateway = busy_gateway();

    for (size_t room = 0; room <= THA_REPLY_ROOM; room++) {
        for (size_t i = 0; i < 2 * sizeof lengths / sizeof lengths[0]; i++) {
            size_t length = lengths[i / 2];
            const uint8_t *bytes = length == REQUEST_LENGTH ? request : noise;

            if (room < THA_REPLY_ROOM || length == 0) {
                tha_blocked done = take_block(gateway, i % 2, bytes, length, room, NULL);

                CHECK(done.number == (room < THA_REPLY_ROOM ? THA_NO_ROOM : 0));
                CHECK(done.used == 0 && done.written == 0 && no_counts(&done.counts) && same_gateway(&done.gateway, &gateway));
            }
        }
    }
}

/* Requests with noise between: as many are answered as find 32 bytes of the area left, and not a byte behind is used. */
void areas_with_little_room(void)
{
    static struct line_bytes line;
    tha_gateway gateway = gateway_of_rows(2);

    line.length = 0;
    while (line.length < 400) {
        put(&line, request, REQUEST_LENGTH);
        put(&line, (const uint8_t[]){0x00, 0x35}, 2);
    }
    for (size_t room = THA_REPLY_ROOM; room <= 200; room++) {
        size_t replies = (room - THA_REPLY_ROOM) / REQUEST_LENGTH + 1;
        const uint8_t *area;
        tha_blocked done = take_block(gateway, THA_CONTROLLER, line.bytes, line.length, room, &area);

        CHECK_SAYS(done.used == replies * (REQUEST_LENGTH + 2) - 2, "with %zu bytes %zu are used", room, done.used);
        CHECK(done.written == replies * REQUEST_LENGTH && no_counts(&done.counts));
        for (size_t i = 0; i < replies; i++) {
            CHECK(memcmp(area + i * REQUEST_LENGTH, answer, REQUEST_LENGTH) == 0);
        }
        check_cutting(&gateway, THA_PANEL, &line, line.length, room);
    }
}

/* Of 4,095, 4,096, 4,097 and 8,192 bytes: of a longer block 4,096 are used, and a frame that is cut there goes on. */
void blocks_of_4096(void)
{
    static struct line_bytes line;
    static const size_t lengths[] = {THA_BLOCK - 1, THA_BLOCK, THA_BLOCK + 1, 2 * THA_BLOCK};
    tha_gateway gateway = gateway_of_rows(2);

    for (size_t i = 0; i < sizeof lengths / sizeof lengths[0]; i++) {
        for (size_t before = 0; before <= REQUEST_LENGTH; before++) {
            size_t used = least(lengths[i], THA_BLOCK);
            size_t replies = before == REQUEST_LENGTH && used == THA_BLOCK ? 1 : 0;
            tha_blocked done;

            /* a Request that has so many of its bytes before place 4,096 */
            memset(line.bytes, 0, sizeof line.bytes);
            memcpy(line.bytes + THA_BLOCK - before, request, REQUEST_LENGTH);
            line.length = lengths[i];
            done = take_block(gateway, THA_CONTROLLER, line.bytes, line.length, AREA, NULL);
            CHECK_SAYS(done.used == used, "%zu of %zu bytes are used", done.used, lengths[i]);
            CHECK(done.written == replies * REQUEST_LENGTH && no_counts(&done.counts));
            check_cutting(&gateway, THA_CONTROLLER, &line, line.length, THA_REPLY_ROOM);
        }
    }
}

/* Packets that are dropped with each of the numbers 3 to 6, and their body bytes. */
static const struct {
    size_t length;
    uint8_t bytes[8];
    uint32_t body;
} drops[] = {
    {3, {0xCA, 0x00, 0xCA}, 1}, /* the packet that it opens is dropped by the SOF of the next one */
    {5, {0xCA, 0x01, 0x06, 0x07, 0x35}, 3},
    {6, {0xCA, 0x00, 0x06, 0x06, 0x2F, 0x35}, 3},
    {5, {0xCA, 0x00, 0x06, 0x07, 0x35}, 3},
};

/* The data of records that are refused with each of the numbers 7 to 16: 7 by its type, 15 and 16 by what waits. */
static const struct {
    size_t length;
    uint8_t data[9];
} refused[] = {
    {7, {1, 0x07, 1, 0, 0, 0, 0}},
    {4, {1, 0x07, 1, 0}},
    {7, {2, 0x07, 1, 0, 0, 0, 0}},
    {7, {1, 0x07, 1, 1, 0, 0, 0}},
    {7, {0, 0x87, 1, 0, 0, 0, 0}},
    {6, {1, 0x07, 1, 0, 0, 0}},
    {8, {1, 0x27, 1, 0, 0, LOW + 2, HIGH, 0}},
    {9, {1, 0x47, 1, 0, 0, LOW, HIGH, 8, 0}},
    {9, {0, 0x47, 1, 0, 0, LOW, HIGH, 3, 71}},
    {9, {0, 0x4F, 1, 0, 0, LOW, HIGH, 3, 71}},
};

/* Puts a packet that is refused with the number. */
static void put_refused(struct line_bytes *line, unsigned number)
{
    uint8_t frame[64];

    if (number < 7) {
        put(line, drops[number - 3].bytes, drops[number - 3].length);
        return;
    }
    put(line, frame, frame_of(frame, number == 7 ? 7 : 6, refused[number - 7].data, refused[number - 7].length));
}

/* Eight updates: the cool of the first device in all states, and a fan. */
static void put_updates(struct line_bytes *line)
{
    for (uint8_t state = 0; state < THA_STATES; state++) {
        put_record(line, UPDATE, COOL, (const uint8_t[]){LOW, HIGH, state, 70}, 4);
    }
    put_record(line, UPDATE, FAN, (const uint8_t[]){LOW, HIGH, 0, 30}, 4);
}

/* Each number from 4 on alone, as many times as it says: it is counted so often, and no other. Then all of them in one block. */
void counts_of_blocks(void)
{
    static struct line_bytes all;
    tha_gateway fresh = gateway_of_rows(2);
    uint32_t body = 0;
    tha_blocked done;

    all.length = 0;
    put_updates(&all);
    done = take_block(fresh, THA_PANEL, all.bytes, all.length, AREA, NULL);
    CHECK(done.counts.queued == THA_LINE_WAITING && done.counts.body == 0 && done.gateway.queue.count == THA_LINE_WAITING);
    for (unsigned number = 4; number <= 16; number++) {
        static struct line_bytes line;
        tha_blocked one;

        line.length = 0;
        for (unsigned i = 0; i < number; i++) {
            put_refused(&line, number);
            put_refused(&all, number);
            body += number < 7 ? drops[number - 3].body : 0;
        }
        one = take_block(done.gateway, THA_PANEL, line.bytes, line.length, AREA, NULL);
        CHECK_SAYS(one.counts.numbers[number - 3] == number, "%u comes up %u times", number, one.counts.numbers[number - 3]);
        CHECK(one.counts.body == (number < 7 ? number * drops[number - 3].body : 0) && one.written == 0);
        one.counts.numbers[number - 3] = 0;
        one.counts.body = 0;
        CHECK(no_counts(&one.counts));
    }
    /* 3 last: two packets with one body byte, then empty ones */
    put(&all, (const uint8_t[]){0xCA, 0x00, 0xCA, 0x00, 0xCA, 0xCA, 0xCA}, 7);
    body += 2;
    done = take_block(fresh, THA_PANEL, all.bytes, all.length, AREA, NULL);
    CHECK(done.used == all.length && done.counts.queued == THA_LINE_WAITING && done.counts.numbers[0] == 4);
    for (unsigned number = 4; number <= 16; number++) {
        CHECK_SAYS(done.counts.numbers[number - 3] == number, "%u comes up %u times", number, done.counts.numbers[number - 3]);
    }
    CHECK_SAYS(done.counts.body == body, "%u body bytes: %u", body, done.counts.body);
    check_cutting(&fresh, THA_PANEL, &all, THA_BLOCK, AREA);
}

/* A packet that is dropped in a later block: its body bytes count there, all of them, and nothing before. */
void bodies_over_blocks(void)
{
    uint8_t packet[THA_BODY + 2] = {0xCA, 0xFF, 0x06};
    static const uint8_t ends[] = {0x35, 0xCA, 0x00};
    tha_gateway gateway = gateway_of_rows(2);

    for (size_t cut = 1; cut < sizeof packet; cut++) {
        tha_blocked first = take_block(gateway, THA_CONTROLLER, packet, cut, THA_REPLY_ROOM, NULL);
        tha_blocked second;

        CHECK(first.used == cut && no_counts(&first.counts));
        second = take_block(first.gateway, THA_CONTROLLER, ends, 1, THA_REPLY_ROOM, NULL);
        CHECK_SAYS(second.counts.body == cut - 1, "%zu body bytes: %u", cut - 1, second.counts.body);
        second = take_block(first.gateway, THA_CONTROLLER, packet + cut, sizeof packet - cut - 1, THA_REPLY_ROOM, NULL);
        CHECK(no_counts(&second.counts));
        for (size_t i = 0; i < sizeof ends; i++) {
            tha_blocked third = take_block(second.gateway, THA_CONTROLLER, ends + i, 1, THA_REPLY_ROOM, NULL);

            CHECK(third.counts.body == THA_BODY && third.counts.numbers[i == 0 ? 3 : i == 1 ? 0 : 2] == 1);
        }
    }
}

/* Every number but 0 is the panel's; the other line's receiver stays as it is. */
void lines_of_blocks(void)
{
    static const uint8_t cut[] = {0xCA, 0x09, 0x06, 0x2F};
    tha_gateway gateway = busy_gateway();

    for (unsigned number = 0; number < 256; number++) {
        uint8_t other = number == 0 ? THA_PANEL : THA_CONTROLLER;
        tha_blocked done = take_block(gateway_of_rows(1), (uint8_t)number, cut, sizeof cut, THA_REPLY_ROOM, NULL);
        tha_receiver *receiver = receiver_of(&done.gateway, number == 0 ? THA_CONTROLLER : THA_PANEL);

        CHECK_SAYS(receiver->inside && receiver->escaped && receiver->len == 2, "line %u", number);
        done = take_block(gateway, (uint8_t)number, cut, sizeof cut, THA_REPLY_ROOM, NULL);
        CHECK(same_receiver(receiver_of(&done.gateway, other), receiver_of(&gateway, other)));
        CHECK(same_records(&done.gateway, &gateway));
    }
}

/* Numbers that look random, the same at each run. */
static uint32_t random_below(uint32_t limit)
{
    static uint64_t state = 20261117;

    state = state * 6364136223846793005u + 1442695040888963407u;
    return (uint32_t)((state >> 33) % limit);
}

/* A record with a right or wrong service, method, width, address or state. */
static void put_random_record(struct line_bytes *line)
{
    static const struct {
        uint32_t method;
        size_t width;
    } methods[] = {
        {NETWORK_ERROR, 2}, {REPORTING, 1}, {ATTRIBUTES, 4}, {MODE, 3}, {COOL, 4},     {SLAB, 4}, {FAN, 4},
        {EVENTS, 3},        {FIRMWARE, 2},  {PROTOCOL, 2},   {VERSION, 6}, {DATE, 7}, {0x20107, 2},
    };
    size_t which = random_below(sizeof methods / sizeof methods[0]);
    uint8_t fields[8] = {(uint8_t)(1 + random_below(4)), HIGH, (uint8_t)random_below(9), (uint8_t)random_below(256)};
    uint8_t service = (uint8_t)(random_below(16) == 0 ? 2 : random_below(2));

    put_record(line, service, methods[which].method, fields, methods[which].width + (random_below(16) == 0));
}

/* A packet, perhaps with a byte that is changed or lost, or noise. */
static void put_random_packet(struct line_bytes *line)
{
    static const uint8_t values[] = {0xCA, 0x35, 0x2F, 0x00, 0x06};
    size_t from = line->length;
    size_t place;

    put_random_record(line);
    place = from + random_below((uint32_t)(line->length - from));
    switch (random_below(12)) {
    case 0:
        line->bytes[place] = values[random_below(sizeof values)];
        break;
    case 1:
        line->length = place;
        break;
    case 2:
        line->bytes[place] = (uint8_t)random_below(256);
        break;
    default:
        break;
    }
}

/* Blocks and areas of random sizes; now and then an empty block, or one that is refused. */
static void check_random_cutting(const tha_gateway *gateway, uint8_t number, const struct line_bytes *line, const struct outcome *single)
{
    static struct outcome blocks;
    uint32_t most = 1 + random_below(1u << (3 + random_below(10)));
    uint32_t room = 1 + random_below(1u << (5 + random_below(8)));
    size_t place = 0;

    start_at(&blocks, gateway);
    while (place < line->length) {
        size_t size = least(line->length - place, random_below(most + 1));

        place += add_block(&blocks, number, line->bytes + place, size, 31 + random_below(1 + room));
    }
    check_same(&blocks, single);
}

/* Lines of random traffic, each cut in many ways, on either line of a gateway on which updates wait. */
void cuttings_of_lines(void)
{
    static struct line_bytes line;
    static struct outcome single;

    for (unsigned i = 0; i < 40; i++) {
        tha_gateway gateway = i % 3 == 0 ? busy_gateway() : gateway_of_rows(3);
        uint8_t number = (uint8_t)(i % 2 == 0 ? THA_CONTROLLER : 1 + random_below(255));
        size_t length = i % 20 == 0 ? LINE : 1 + random_below(1500);

        line.length = 0;
        while (line.length < length) {
            put_random_packet(&line);
        }
        start_at(&single, &gateway);
        for (size_t place = 0; place < line.length; place++) {
            add_byte(&single, number, line.bytes[place]);
        }
        for (unsigned j = 0; j < 8; j++) {
            check_random_cutting(&gateway, number, &line, &single);
        }
    }
}

/* One line that is cut in two at each of its places. */
void cuttings_at_each_place(void)
{
    static struct line_bytes line;
    static struct outcome single;
    static struct outcome blocks;
    tha_gateway gateway = gateway_of_rows(2);

    line.length = 0;
    put(&line, (const uint8_t[]){0x2F, 0xCA, 0x35, 0x2F, 0x2F}, 5);
    put_updates(&line);
    for (unsigned number = 3; number <= 16; number++) {
        put_refused(&line, number);
        put(&line, request, REQUEST_LENGTH);
    }
    start_at(&single, &gateway);
    for (size_t i = 0; i < line.length; i++) {
        add_byte(&single, THA_CONTROLLER, line.bytes[i]);
    }
    CHECK(single.counts.queued == 8 && single.length == 14 * REQUEST_LENGTH);
    for (size_t cut = 0; cut <= line.length; cut++) {
        start_at(&blocks, &gateway);
        CHECK(add_block(&blocks, THA_CONTROLLER, line.bytes, cut, AREA) == cut);
        CHECK(add_block(&blocks, THA_CONTROLLER, line.bytes + cut, line.length - cut, AREA) == line.length - cut);
        check_same(&blocks, &single);
    }
}

/* Counts over an array's length count as that length here too, and kinds and lines of slots stay as they are. */
void blocks_of_other_values(void)
{
    static const size_t too_large[] = {17, 33, 259, 65536, SIZE_MAX};
    static struct line_bytes line;

    line.length = 0;
    put_updates(&line);
    put(&line, request, REQUEST_LENGTH);
    for (unsigned number = 3; number <= 16; number++) {
        put_refused(&line, number);
    }
    for (size_t i = 0; i < sizeof too_large / sizeof too_large[0]; i++) {
        tha_gateway gateway = gateway_of_rows(THA_ROWS);

        gateway.table.count = too_large[i] < THA_ROWS ? THA_ROWS : too_large[i];
        check_cutting(&gateway, THA_CONTROLLER, &line, THA_BLOCK, AREA);
        gateway.queue.count = too_large[i];
        check_cutting(&gateway, THA_PANEL, &line, 7, AREA);
        gateway.queue.count = 3;
        gateway.queue.slots[1].line = 7;
        gateway.queue.slots[2].field = field_at(0x4101, 255, 9);
        check_cutting(&gateway, THA_PANEL, &line, THA_BLOCK, AREA);
        gateway.receivers.panel.inside = true;
        gateway.receivers.panel.len = too_large[i] < 259 ? 259 : too_large[i];
        check_cutting(&gateway, THA_PANEL, &line, THA_BLOCK, AREA);
    }
}
