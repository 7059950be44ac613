/* capi_handover.c: the hand-over: what is written, what is read, and every refusal of both (document 02, M-112). */
#include "capi.h"
#include "check.h"
#include "frames.h"
#include "same.h"
#include "sheet.h"

#include <string.h>

enum { ROOM = THA_REPLY_ROOM + 8, OTHER_FIRMWARE = 0x0A0B, OTHER_PROTOCOL = 0x0C0D };

static struct sheet sheet;
static struct sheet_bytes whole;

/* A gateway with so many rows, another value in each property, and a packet open in its receivers. */
static tha_gateway busy_gateway(size_t rows)
{
    const uint8_t date[] = {0xDC, 0x07, 6, 26, 2, 10, 27};
    uint8_t reply[THA_REPLY_ROOM];
    tha_gateway gateway = tha_set_network_error(gateway_of_rows(rows), 0x35CA);

    gateway = feed_record(gateway, UPDATE, REPORTING, (const uint8_t[]){1}, 1, reply).gateway;
    gateway = feed_record(gateway, UPDATE, DATE, date, sizeof date, reply).gateway;
    for (uint8_t line = THA_CONTROLLER; line <= THA_PANEL; line++) {
        gateway = tha_byte(gateway, line, 0xCA, reply, sizeof reply).gateway;
        gateway = tha_byte(gateway, line, 0x2F, reply, sizeof reply).gateway;
    }
    return gateway;
}

/* Its hand-over, in sheet and whole. */
static void make_whole(size_t rows)
{
    tha_gateway gateway = busy_gateway(rows);

    sheet_of(&sheet, &gateway);
    sheet_write(&sheet, false, &whole);
}

/* The frame at a place is this one, and the buffer past it keeps its bytes. */
static void check_handed(tha_gateway gateway, size_t place, const uint8_t *frame, size_t length)
{
    uint8_t found[ROOM];
    uint8_t wanted[ROOM];
    tha_answer answer;

    memset(found, 0xEE, ROOM);
    memset(wanted, 0xEE, ROOM);
    memcpy(wanted, frame, length);
    answer = tha_hand(gateway, place, found, THA_REPLY_ROOM);
    CHECK_SAYS(answer.outcome == THA_WRITTEN && answer.number == 0 && answer.count == length, "frame %zu is written", place);
    CHECK_SAYS(memcmp(found, wanted, ROOM) == 0, "frame %zu, and the bytes past it", place);
}

static void check_all_handed(size_t rows)
{
    static const size_t past[] = {0, 1, 25, 26, 1000000};
    tha_gateway gateway = busy_gateway(rows);
    size_t first = 0;

    make_whole(rows);
    CHECK(sheet.count == SHEET_OWN + SHEET_ROW * rows);
    for (size_t i = 0; i < sheet.count; i++) {
        check_handed(gateway, i, whole.bytes + first, whole.ends[i] + 1 - first);
        first = whole.ends[i] + 1;
    }
    for (size_t i = 0; i < sizeof past / sizeof past[0]; i++) {
        check_handed(gateway, sheet.count + past[i], whole.bytes, 0);
    }
    check_handed(gateway, SIZE_MAX, whole.bytes, 0);
}

void frames_handed(void)
{
    check_all_handed(0);
    check_all_handed(1);
    check_all_handed(THA_ROWS);
}

/* A stored date that is not valid is handed over as not available in every part. */
void dates_handed(void)
{
    tha_gateway gateway = busy_gateway(0);
    tha_gateway none = gateway;
    tha_date bad = {.year = 2012, .month = 2, .day = 30, .weekday = 4, .hour = 11, .minute = 4};

    none.properties.date = tha_fresh(0, 0).properties.date;
    sheet_of(&sheet, &none);
    sheet_write(&sheet, false, &whole);
    gateway.properties.date = bad;
    check_handed(gateway, AT_DATE, whole.bytes + whole.ends[AT_PROTOCOL] + 1, whole.ends[AT_DATE] - whole.ends[AT_PROTOCOL]);
    check_handed(none, AT_DATE, whole.bytes + whole.ends[AT_PROTOCOL] + 1, whole.ends[AT_DATE] - whole.ends[AT_PROTOCOL]);
}

static void check_not_handed(tha_gateway gateway, size_t place, size_t length, uint8_t number)
{
    uint8_t buffer[ROOM];
    uint8_t kept[ROOM];
    tha_answer answer;

    memset(buffer, 0xEE, ROOM);
    memset(kept, 0xEE, ROOM);
    answer = tha_hand(gateway, place, buffer, length);
    CHECK_SAYS(answer.outcome == THA_REFUSED && answer.number == number && answer.count == 0, "place %zu, %zu bytes: refused %u", place,
               length, number);
    CHECK(memcmp(buffer, kept, ROOM) == 0);
}

/* 1 before 23, and both at any place. */
void refusals_of_handing(void)
{
    static const size_t places[] = {0, 4, 5, 30, 31, SIZE_MAX};
    static const size_t lengths[] = {0, 1, 31};
    tha_gateway empty = gateway_of_rows(1);
    tha_gateway waits = queue_setting(empty, COOL, 0x4101, 3, 70);

    for (size_t i = 0; i < sizeof places / sizeof places[0]; i++) {
        for (size_t j = 0; j < sizeof lengths / sizeof lengths[0]; j++) {
            check_not_handed(empty, places[i], lengths[j], THA_NO_ROOM);
            check_not_handed(waits, places[i], lengths[j], THA_NO_ROOM);
        }
        check_not_handed(waits, places[i], THA_REPLY_ROOM, THA_UPDATES_WAIT);
        check_not_handed(waits, places[i], ROOM, THA_UPDATES_WAIT);
    }
}

static tha_result read_bytes(size_t devices, const uint8_t *bytes, size_t length)
{
    return tha_read(OTHER_FIRMWARE, OTHER_PROTOCOL, devices, bytes, length);
}

/* Accepted: the records of the gateway that was handed over, fresh receivers, nothing waiting. */
static void check_read(const tha_gateway *gateway, size_t devices, const uint8_t *bytes, size_t length)
{
    tha_gateway fresh = tha_fresh(0, 0);
    tha_result result = read_bytes(devices, bytes, length);

    CHECK_SAYS(result.answer.outcome == THA_READ && result.answer.number == 0 && result.answer.count == 0, "read: %u at %zu",
               result.answer.number, result.answer.count);
    CHECK(same_receivers(&result.gateway.receivers, &fresh.receivers) && same_queue(&result.gateway.queue, &fresh.queue));
    CHECK(same_table(&result.gateway.table, &gateway->table) && same_properties(&result.gateway.properties, &gateway->properties));
}

static void check_round_trip(size_t rows)
{
    tha_gateway gateway = busy_gateway(rows);

    make_whole(rows);
    check_read(&gateway, rows, whole.bytes, whole.length);
    sheet_write(&sheet, true, &whole);
    check_read(&gateway, rows, whole.bytes, whole.length);
}

/* With no, one and 32 rows; also with every byte escaped. */
void hand_overs_read(void)
{
    tha_gateway fresh = tha_fresh(0x1234, 0x5678);

    check_round_trip(0);
    check_round_trip(1);
    check_round_trip(THA_ROWS);
    sheet_of(&sheet, &fresh);
    sheet_write(&sheet, false, &whole);
    check_read(&fresh, 0, whole.bytes, whole.length);
}

/* Refused: the fresh gateway with the numbers handed in, and the place of the byte that caused it. */
static void check_refused(size_t devices, const uint8_t *bytes, size_t length, uint8_t number, size_t place)
{
    tha_gateway fresh = tha_fresh(OTHER_FIRMWARE, OTHER_PROTOCOL);
    tha_result result = read_bytes(devices, bytes, length);

    CHECK_SAYS(result.answer.outcome == THA_REFUSED && result.answer.number == number && result.answer.count == place,
               "refused %u at %zu: %u at %zu", number, place, result.answer.number, result.answer.count);
    CHECK(same_gateway(&result.gateway, &fresh));
}

/* 21 before any byte is looked at. */
void refusals_of_counts(void)
{
    make_whole(1);
    check_refused(33, whole.bytes, whole.length, THA_TABLE_FULL, 0);
    check_refused(33, whole.bytes, 0, THA_TABLE_FULL, 0);
    check_refused(33, (const uint8_t[]){0x35}, 1, THA_TABLE_FULL, 0);
    check_refused(SIZE_MAX, whole.bytes, whole.length, THA_TABLE_FULL, 0);
    check_refused(32, whole.bytes, whole.length, THA_WRONG_LENGTH, whole.length);
    check_refused(0, whole.bytes, whole.length, THA_WRONG_LENGTH, whole.ends[AT_DATE] + 1);
    check_refused(2, whole.bytes, whole.length, THA_WRONG_LENGTH, whole.length);
}

/* What a test does to a record. */
typedef void spoil(struct record *record);

static void other_type(struct record *record)
{
    record->type = 7;
}

static void other_service(struct record *record)
{
    record->data[0] = record->data[0] == REQUESTED ? UPDATED : REQUESTED;
}

static void a_request(struct record *record)
{
    record->data[0] = REQUEST;
}

static void other_method(struct record *record)
{
    record->data[1] = record->data[1] == COOL % 256 ? SLAB % 256 : COOL % 256;
}

static void unknown_method(struct record *record)
{
    record->data[4] = 1;
}

static void one_more(struct record *record)
{
    record->length += 1;
}

static void one_less(struct record *record)
{
    record->length -= 1;
}

static void short_record(struct record *record)
{
    record->length = 4;
}

static void no_data(struct record *record)
{
    record->length = 0;
}

/* A record of a hand-over of one row is spoilt: 24, at the EOF of its frame. */
static void check_spoilt(size_t place, spoil *how)
{
    make_whole(1);
    how(&sheet.records[place]);
    sheet_write(&sheet, false, &whole);
    check_refused(1, whole.bytes, whole.length, THA_NOT_DUE, whole.ends[place]);
}

void frames_not_due(void)
{
    spoil *const ways[] = {other_type, other_service, a_request, other_method, unknown_method, one_more, one_less, short_record, no_data};

    for (size_t i = 0; i < sizeof ways / sizeof ways[0]; i++) {
        for (size_t place = 0; place < SHEET_OWN + SHEET_ROW; place++) {
            check_spoilt(place, ways[i]);
        }
    }
}

static void other_address(struct record *record)
{
    record->data[5] ^= 1;
}

static void other_high_address(struct record *record)
{
    record->data[6] ^= 0x80;
}

static void other_state(struct record *record)
{
    record->data[7] = (uint8_t)((record->data[7] + 1) % THA_STATES);
}

static void current_state(struct record *record)
{
    record->data[7] = 7;
}

/* The address of all but a row's first frame, which sets it, and the state before a value. */
void fields_not_due(void)
{
    for (size_t at = AT_VERSION; at < SHEET_ROW; at++) {
        check_spoilt(sheet_place(0, at), other_address);
        check_spoilt(sheet_place(0, at), other_high_address);
    }
    for (size_t at = AT_COOL; at < SHEET_ROW; at++) {
        check_spoilt(sheet_place(0, at), other_state);
        check_spoilt(sheet_place(0, at), current_state);
    }
    /* the first frame alone has another address: the second is the one that does not fit */
    make_whole(1);
    other_address(&sheet.records[sheet_place(0, AT_ATTRIBUTES)]);
    sheet_write(&sheet, false, &whole);
    check_refused(1, whole.bytes, whole.length, THA_NOT_DUE, whole.ends[sheet_place(0, AT_VERSION)]);
}

/* The order of the values is state by state: by methods, the second value does not fit. */
void frames_out_of_order(void)
{
    make_whole(1);
    for (size_t i = 0; i + 1 < sheet.count; i++) {
        struct record kept = sheet.records[i];

        sheet.records[i] = sheet.records[i + 1];
        sheet.records[i + 1] = kept;
        sheet_write(&sheet, false, &whole);
        check_refused(1, whole.bytes, whole.length, THA_NOT_DUE, whole.ends[i]);
        make_whole(1);
    }
}

static void check_value(size_t place, size_t at, uint8_t value, bool good)
{
    tha_result result;

    make_whole(1);
    sheet.records[place].data[at] = value;
    sheet_write(&sheet, false, &whole);
    result = read_bytes(1, whole.bytes, whole.length);
    CHECK_SAYS((result.answer.outcome == THA_READ) == good, "byte %zu of frame %zu is %u", at, place, value);
    if (!good) {
        check_refused(1, whole.bytes, whole.length, THA_NOT_DUE, whole.ends[place]);
    }
}

/* Reporting is 0 or 1. A date is valid, or not available in every part. */
void values_not_due(void)
{
    uint8_t *date = sheet.records[AT_DATE].data + 5;

    check_value(AT_REPORTING, 5, 0, true);
    check_value(AT_REPORTING, 5, 1, true);
    for (unsigned value = 2; value < 256; value++) {
        check_value(AT_REPORTING, 5, (uint8_t)value, false);
    }
    check_value(AT_DATE, 8, 30, true);
    check_value(AT_DATE, 8, 31, false);
    check_value(AT_DATE, 7, 13, false);
    check_value(AT_DATE, 7, 0, false);
    check_value(AT_DATE, 9, 8, false);
    check_value(AT_DATE, 10, 24, false);
    check_value(AT_DATE, 11, 60, false);
    for (size_t i = 0; i < 7; i++) {
        check_value(AT_DATE, 5 + i, THA_NONE, i == 0); /* the year 0x07FF is 2047 */
        make_whole(1);
        memset(date, THA_NONE, 7);
        date[i] = (const uint8_t[]){0xDC, 0x07, 6, 26, 2, 10, 27}[i];
        sheet_write(&sheet, false, &whole);
        check_refused(1, whole.bytes, whole.length, THA_NOT_DUE, whole.ends[AT_DATE]);
    }
    make_whole(1);
    memset(date, THA_NONE, 7);
    sheet_write(&sheet, false, &whole);
    CHECK(read_bytes(1, whole.bytes, whole.length).answer.outcome == THA_READ);
}

/* Puts a byte before the one at the place. */
static void put_byte(size_t place, uint8_t byte)
{
    memmove(whole.bytes + place + 1, whole.bytes + place, whole.length - place);
    whole.bytes[place] = byte;
    whole.length += 1;
}

static void check_stray(size_t place, uint8_t byte)
{
    make_whole(1);
    put_byte(place, byte);
    check_refused(1, whole.bytes, whole.length, THA_NOT_DUE, place);
}

/* Any byte but a SOF before the first frame and between two. A SOF there opens a packet, which the next SOF drops. */
void stray_bytes(void)
{
    size_t between;

    make_whole(1);
    between = whole.ends[AT_FIRMWARE] + 1;
    for (unsigned byte = 0; byte < 256; byte++) {
        if (byte != 0xCA) {
            check_stray(0, (uint8_t)byte);
            check_stray(between, (uint8_t)byte);
        }
    }
    for (size_t i = 0; i + 1 < sheet.count; i++) {
        make_whole(1);
        check_stray(whole.ends[i] + 1, 0x2F);
        check_stray(whole.ends[i] + 1, 0x35);
    }
    make_whole(1);
    put_byte(between, 0xCA);
    check_refused(1, whole.bytes, whole.length, THA_NOT_DUE, between + 1);
}

/* Drops 3 to 6, each at the byte that causes it. */
void frames_dropped(void)
{
    size_t first;

    make_whole(1);
    first = whole.ends[AT_ERROR] + 1;
    put_byte(first + 4, 0xCA);
    check_refused(1, whole.bytes, whole.length, THA_NOT_DUE, first + 4);
    make_whole(1);
    put_byte(first + 4, 0x35);
    check_refused(1, whole.bytes, whole.length, THA_NOT_DUE, first + 4);
    make_whole(1);
    put_byte(whole.ends[AT_REPORTING], 0x00);
    check_refused(1, whole.bytes, whole.length, THA_NOT_DUE, whole.ends[AT_REPORTING]);
    make_whole(1);
    whole.bytes[whole.ends[AT_REPORTING] - 1] ^= 1;
    check_refused(1, whole.bytes, whole.length, THA_NOT_DUE, whole.ends[AT_REPORTING]);
}

/* The records of a gateway with these two rows, whatever they are; the second one is refused at its last frame. */
static void check_second_row(const tha_row *second, uint8_t number)
{
    tha_gateway gateway = busy_gateway(2);

    gateway.table.rows[1] = *second;
    sheet_of(&sheet, &gateway);
    sheet_write(&sheet, false, &whole);
    check_refused(2, whole.bytes, whole.length, number, whole.length - 1);
    check_refused(3, whole.bytes, whole.length, number, whole.length - 1);
}

void rows_not_read(void)
{
    tha_row row = busy_row(2);

    row.address = 0;
    check_second_row(&row, THA_BAD_ROW);
    row = busy_row(2);
    row.state = 7;
    check_second_row(&row, THA_BAD_ROW);
    row = busy_row(2);
    row.mask = 0x1F;
    check_second_row(&row, THA_BAD_ROW);
    row = busy_row(2);
    row.mask = 0x10;
    check_second_row(&row, THA_BAD_ROW);
    row = busy_row(2);
    row.cool[0] = THA_NONE;
    check_second_row(&row, THA_BAD_ROW);
    row = busy_row(2);
    row.slab[6] = THA_NONE;
    check_second_row(&row, THA_BAD_ROW);
    row = busy_row(2);
    row.fan[3] = 101;
    check_second_row(&row, THA_BAD_ROW);
    row = busy_row(2);
    row.mode = 5;
    check_second_row(&row, THA_BAD_ROW);
    row = busy_row(2);
    row.events = 3;
    check_second_row(&row, THA_BAD_ROW);
    row = busy_row(2);
    row.address = busy_row(1).address;
    check_second_row(&row, THA_ADDRESS_TAKEN);
    row.fan[3] = 101;
    check_second_row(&row, THA_BAD_ROW);
}

/* A row's last frame that is not the one due there is 24, and not 19; a row's mistake is met after a stray byte before its end. */
void first_met_decides(void)
{
    tha_gateway gateway = busy_gateway(2);

    gateway.table.rows[1].address = 0;
    sheet_of(&sheet, &gateway);
    other_state(&sheet.records[sheet.count - 1]);
    sheet_write(&sheet, false, &whole);
    check_refused(2, whole.bytes, whole.length, THA_NOT_DUE, whole.length - 1);
    sheet_of(&sheet, &gateway);
    sheet_write(&sheet, false, &whole);
    put_byte(whole.ends[sheet.count - 2] + 1, 0);
    check_refused(2, whole.bytes, whole.length, THA_NOT_DUE, whole.ends[sheet.count - 2] + 1);
    sheet_write(&sheet, false, &whole);
    put_byte(whole.length, 0);
    check_refused(2, whole.bytes, whole.length, THA_BAD_ROW, whole.length - 2);
    /* a wrong frame is judged at its EOF: before that the bytes just end too early */
    make_whole(1);
    other_type(&sheet.records[AT_ERROR]);
    sheet_write(&sheet, false, &whole);
    check_refused(1, whole.bytes, whole.ends[AT_ERROR], THA_WRONG_LENGTH, whole.ends[AT_ERROR]);
    check_refused(1, whole.bytes, whole.ends[AT_ERROR] + 1, THA_NOT_DUE, whole.ends[AT_ERROR]);
}

/* No bytes, the bytes cut at every length, and any byte or a whole frame behind the last. */
void wrong_lengths(void)
{
    make_whole(1);
    for (size_t length = 0; length < whole.length; length++) {
        check_refused(1, whole.bytes, length, THA_WRONG_LENGTH, length);
    }
    for (unsigned byte = 0; byte < 256; byte++) {
        whole.bytes[whole.length] = (uint8_t)byte;
        check_refused(1, whole.bytes, whole.length + 1, THA_WRONG_LENGTH, whole.length);
    }
    memcpy(whole.bytes + whole.length, whole.bytes, whole.ends[0] + 1);
    check_refused(1, whole.bytes, whole.length + whole.ends[0] + 1, THA_WRONG_LENGTH, whole.length);
    make_whole(0);
    check_refused(0, whole.bytes, 0, THA_WRONG_LENGTH, 0);
    check_refused(0, whole.bytes, whole.length - 1, THA_WRONG_LENGTH, whole.length - 1);
}

/* Every bit of the bytes and of the number of devices: refused, or read as the same records. */
void flipped_bits(void)
{
    tha_gateway gateway = busy_gateway(1);
    tha_gateway fresh = tha_fresh(OTHER_FIRMWARE, OTHER_PROTOCOL);
    size_t refused = 0;

    make_whole(1);
    for (size_t bit = 0; bit < 8 * whole.length; bit++) {
        uint8_t *place = &whole.bytes[bit / 8];
        tha_result result;
        bool read;

        *place ^= (uint8_t)(1u << bit % 8);
        result = read_bytes(1, whole.bytes, whole.length);
        *place ^= (uint8_t)(1u << bit % 8);
        read = result.answer.outcome == THA_READ;
        refused += !read;
        CHECK_SAYS(read ? same_table(&result.gateway.table, &gateway.table) &&
                              same_properties(&result.gateway.properties, &gateway.properties)
                        : same_gateway(&result.gateway, &fresh),
                   "bit %zu flipped: no other record", bit);
    }
    CHECK_SAYS(refused == 8 * whole.length, "each flipped bit is refused: %zu of %zu", refused, 8 * whole.length);
    for (unsigned bit = 0; bit < 8; bit++) {
        CHECK(read_bytes(1u ^ 1u << bit, whole.bytes, whole.length).answer.outcome == THA_REFUSED);
    }
}

/* On the line SetbackState is no method. */
void setback_state_on_the_line(void)
{
    static const uint8_t services[] = {UPDATE, REQUEST};
    tha_gateway gateway = gateway_of_rows(1);
    uint8_t reply[THA_REPLY_ROOM];

    for (size_t i = 0; i < sizeof services; i++) {
        tha_result result = feed_record(gateway, services[i], SETBACK_STATE, (const uint8_t[]){0x01, 0x41, 5}, 3, reply);

        CHECK(result.answer.outcome == THA_REFUSED && result.answer.number == THA_UNKNOWN_METHOD);
        CHECK(same_records(&result.gateway, &gateway));
    }
}
