/* cases_load.c: garbage, floods, and readers that do not read. */
#include "cases.h"
#include "check.h"
#include "frames.h"
#include "rig.h"

#include <fcntl.h>
#include <stdio.h>
#include <string.h>
#include <unistd.h>

enum {
    MEGABYTE = 1 << 20,
    BLOCK = 61, /* garbage, two bytes that end a pending escape, a Request; a read may end anywhere in one */
    NOISE = BLOCK - RIG_REQUEST - 2
};

/* Numbers that look random, the same at each run. */
static uint8_t noise(void)
{
    static uint32_t state = 1;

    state = state * 1664525 + 1013904223;
    return (uint8_t)(state >> 24);
}

/* Blocks of garbage with a Request after each. */
static void fill_blocks(uint8_t *bytes, size_t length)
{
    memset(bytes, 0, length);
    for (size_t start = 0; start + BLOCK <= length; start += BLOCK) {
        for (size_t i = 0; i < NOISE; i++) {
            bytes[start + i] = noise();
        }
        memcpy(bytes + start + BLOCK - RIG_REQUEST, rig_request, RIG_REQUEST);
    }
}

/* Whether these bytes, which come after so many others, are replies to the Request. */
static bool are_replies(const uint8_t *bytes, size_t length, size_t before)
{
    bool good = true;

    for (size_t i = 0; i < length; i++) {
        good = good && bytes[i] == rig_answer[(before + i) % RIG_REQUEST];
    }
    return good;
}

/* Sends all bytes while reading so many replies, each of which must be the Request's. */
static void exchange(struct rig *rig, const uint8_t *bytes, size_t length, size_t replies)
{
    uint8_t found[4096];
    size_t sent = 0;
    size_t read = 0;
    int idle = 0;

    while (read < replies * RIG_REQUEST && idle < 60000) {
        size_t pushed = sent < length ? rig_push(rig, bytes + sent, length - sent) : 0;
        size_t pulled = rig_pull(rig, found, sizeof found);

        NEED(are_replies(found, pulled, read));
        sent += pushed;
        read += pulled;
        idle = pushed + pulled > 0 ? 0 : idle + 1;
        if (idle > 0) {
            rig_pause(1);
        }
    }
    CHECK_SAYS(sent == length && read == replies * RIG_REQUEST, "all sent and answered: %zu of %zu bytes sent, %zu of %zu replies",
               sent, length, read / RIG_REQUEST, replies);
}

/* What the drops of the bytes count, by the test's own receiver. */
static struct rig_counts count_drops(const uint8_t *bytes, size_t length)
{
    static struct drop list[MEGABYTE];
    size_t drops = list_drops(bytes, length, list, MEGABYTE);
    struct rig_counts counts = {{0}, 0};

    NEED(drops <= MEGABYTE);
    for (size_t i = 0; i < drops; i++) {
        counts.numbers[list[i].number] += 1;
        counts.body += list[i].body;
    }
    return counts;
}

/* The drops in the log are these, however the bytes were cut into blocks; none of the bytes is refused. */
static void check_drops(const struct rig_counts *found, const struct rig_counts *wanted)
{
    for (unsigned number = 0; number < RIG_NUMBERS; number++) {
        CHECK_SAYS(found->numbers[number] == wanted->numbers[number], "%lu drops with %u: %lu", wanted->numbers[number], number,
                   found->numbers[number]);
    }
    CHECK_SAYS(found->body == wanted->body, "%lu body bytes of drops: %lu", wanted->body, found->body);
}

void garbage(void)
{
    static uint8_t bytes[BLOCK * 200];
    struct rig_counts found = {{0}, 0};
    struct rig_counts wanted;
    struct rig rig;

    fill_blocks(bytes, sizeof bytes);
    wanted = count_drops(bytes, sizeof bytes);
    CHECK_SAYS(wanted.numbers[3] + wanted.numbers[4] + wanted.numbers[5] > 20, "there is garbage");
    rig_make(&rig, RIG_ROW_1);
    rig_start(&rig, "");
    exchange(&rig, bytes, sizeof bytes, sizeof bytes / BLOCK);
    while (rig_next_line(&rig)) {
        CHECK_SAYS(rig_count(&found, rig.line, "controller"), "no other line: %s", rig.line);
    }
    check_drops(&found, &wanted);
    /* the record is untouched */
    rig_send(&rig, setting_hex(REQUEST, COOL, 1, 2, 0));
    rig_reply(&rig, setting_hex(REQUESTED, COOL, 1, 2, 44));
    rig_quiet(&rig);
    rig_end(&rig);
}

/* From the first to the last line that the log has now. */
struct span {
    unsigned long ticks;
    unsigned long time;
    unsigned long lines;
    struct rig_counts drops;
    unsigned long timed_out; /* the ticks of the line that says so, 0 where none does */
};

static struct span read_span(struct rig *rig)
{
    struct span span = {.lines = 0};
    unsigned long first_ticks = 0;
    unsigned long first_time = 0;

    while (rig_next_line(rig)) {
        if (span.lines == 0) {
            first_ticks = rig_log_ticks(rig);
            first_time = rig_log_time(rig);
        }
        span.lines += 1;
        span.ticks = rig_log_ticks(rig) - first_ticks;
        span.time = rig_log_time(rig) - first_time;
        rig_count(&span.drops, rig->line, "controller");
        if (strstr(rig->line, "timed out controller fan 1 state 3") != NULL) {
            span.timed_out = rig_log_ticks(rig);
        }
    }
    return span;
}

/* A megabyte. The ticks go on during it, and an update of a silent device times out on its 120th tick as ever. */
void flood_of_a_megabyte(void)
{
    static uint8_t bytes[MEGABYTE];
    struct rig_counts wanted;
    struct rig rig;
    struct span span;
    unsigned long queued;

    fill_blocks(bytes, MEGABYTE);
    wanted = count_drops(bytes, MEGABYTE);
    rig_make(&rig, RIG_ROW_1);
    rig_start(&rig, "--speed 200 --silent 1");
    rig_send(&rig, setting_hex(UPDATE, FAN, 1, 3, 80));
    queued = rig_log(&rig, "queued controller fan 1 state 3 value 80, 1 waiting");
    exchange(&rig, bytes, MEGABYTE, MEGABYTE / BLOCK);
    rig_send(&rig, setting_hex(REQUEST, FAN, 1, 3, 0));
    rig_reply(&rig, setting_hex(REQUESTED, FAN, 1, 3, 0));
    span = read_span(&rig);
    check_drops(&span.drops, &wanted);
    CHECK_SAYS(span.ticks >= 3 && span.ticks * 1000 > span.time / 4, "ticks go on: %lu in %lu ms", span.ticks, span.time);
    if (span.timed_out == 0) {
        span.timed_out = rig_log_until(&rig, "timed out controller fan 1 state 3");
    }
    CHECK_SAYS(span.timed_out == queued + 120, "120 ticks: queued at %lu, timed out at %lu", queued, span.timed_out);
    rig_quiet(&rig);
    rig_end(&rig);
}

/* Requests without end, and no reply is read until the line takes no more: the gateway has stopped reading. Then all are answered. */
void controller_that_does_not_read(void)
{
    static uint8_t bytes[RIG_REQUEST * 50000];
    struct rig rig;
    size_t sent = 0;
    int idle = 0;

    for (size_t i = 0; i < sizeof bytes; i++) {
        bytes[i] = rig_request[i % RIG_REQUEST];
    }
    rig_make(&rig, RIG_ROW_1);
    rig_start(&rig, "--speed 10 --delay 0");
    while (idle < 500) {
        size_t pushed = rig_push(&rig, bytes + sent, sizeof bytes - sent);

        sent += pushed;
        idle = pushed > 0 ? 0 : idle + 1;
        rig_pause(1);
    }
    CHECK_SAYS(sent < sizeof bytes, "the gateway stops reading");
    exchange(&rig, bytes + sent, sizeof bytes - sent, sizeof bytes / RIG_REQUEST);
    /* and it serves as before */
    rig_send(&rig, setting_hex(UPDATE, FAN, 1, 3, 80));
    rig_reply(&rig, setting_hex(UPDATED, FAN, 1, 3, 80));
    rig_quiet(&rig);
    rig_end(&rig);
}

/* What was read of the log last; its last bytes are kept, since a read may end inside the words looked for. */
struct passage {
    size_t length;
    char text[65537];
};

static void keep_last(struct passage *passage, size_t most)
{
    size_t kept = passage->length < most ? passage->length : most;

    memmove(passage->text, passage->text + passage->length - kept, kept);
    passage->length = kept;
}

/* Reads what the log's reader has; says whether the words were there. */
static bool drain(const struct rig *rig, struct passage *passage, const char *words)
{
    bool found = false;
    ssize_t length;

    while ((length = read(rig->reader[0], passage->text + passage->length, sizeof passage->text - 1 - passage->length)) > 0) {
        passage->length += (size_t)length;
        passage->text[passage->length] = '\0';
        found = found || strstr(passage->text, words) != NULL;
        keep_last(passage, strlen(words) - 1);
    }
    return found;
}

/* Eight Updates in one go, each of which is queued, confirmed and answered: sixteen log lines. */
static void set_eight(struct rig *rig)
{
    uint8_t updates[8 * 32];
    uint8_t replies[8 * 32];
    size_t sent = 0;
    size_t length = 0;

    for (uint8_t i = 0; i < 8; i++) {
        const uint8_t fields[] = {1, 0, i % 7, 60};

        sent += record_frame(updates + sent, UPDATE, i < 7 ? COOL : FAN, fields, sizeof fields);
        length += record_frame(replies + length, UPDATED, i < 7 ? COOL : FAN, fields, sizeof fields);
    }
    rig_send_bytes(rig, updates, sent);
    rig_reply_bytes(rig, replies, length);
}

/* More lines than the reader and the log's buffer hold: the line is served on, and later the log says how many lines it left out. */
static void nobody_reads(enum rig_error error)
{
    static struct passage passage;
    struct rig rig;
    bool said = false;

    rig_make(&rig, RIG_ROW_1);
    rig.error = error;
    rig_launch(&rig, "--delay 0");
    for (int i = 0; i < 200; i++) {
        set_eight(&rig);
    }
    for (int i = 0; i < 100 && !said; i++) {
        said = drain(&rig, &passage, "log lines left out");
        rig_send(&rig, "ca 35");
        rig_quiet(&rig);
    }
    CHECK_SAYS(said, "the log says that lines were left out");
    CHECK_SAYS((fcntl(rig.reader[1], F_GETFL) & O_NONBLOCK) == 0, "who shares standard error still waits on it");
    rig_end(&rig);
}

void log_that_nobody_reads(void)
{
    nobody_reads(TO_PIPE);
}

void terminal_that_nobody_reads(void)
{
    nobody_reads(TO_TERMINAL);
}
