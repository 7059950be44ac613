/* test_parts.c: the host's parts that need no line: words and numbers, outbox, clock, log, thermostats, names, signals. */
#include "../clock.h"
#include "../log.h"
#include "../names.h"
#include "../outbox.h"
#include "../stop.h"
#include "../thermostats.h"
#include "../words.h"
#include "check.h"
#include "parts.h"

#include <fcntl.h>
#include <limits.h>
#include <signal.h>
#include <stdio.h>
#include <string.h>
#include <unistd.h>

static bool reads(const char *text, uint32_t most, uint32_t number)
{
    struct word word = {text, strlen(text)};
    uint32_t found = ~number;

    return word_number(word, most, &found) && found == number;
}

static bool is_bad(const char *text, uint32_t most)
{
    struct word word = {text, strlen(text)};
    uint32_t found;

    return !word_number(word, most, &found);
}

static void numbers(void)
{
    CHECK(reads("0", 0, 0) && reads("010", 255, 10) && reads("0xFf", 255, 255) && reads("0x0000000000000000000010", 16, 16));
    CHECK(reads("4294967295", UINT32_MAX, UINT32_MAX) && reads("0xffffffff", UINT32_MAX, UINT32_MAX));
    CHECK(is_bad("4294967296", UINT32_MAX) && is_bad("0x100000000", UINT32_MAX) && is_bad("18446744073709551616", UINT32_MAX));
    CHECK(is_bad("256", 255) && is_bad("", 255) && is_bad("0x", 255) && is_bad("0X1", 255) && is_bad("-1", 255) && is_bad("+1", 255));
    CHECK(is_bad("1a", 255) && is_bad("0xg", 255) && is_bad("1\t", 255) && is_bad("1\r", 255) && is_bad(" 1", 255));
    CHECK(is_bad("1/", 255) && is_bad("1:", 255) && is_bad("0x@", 255) && is_bad("0x`", 255) && is_bad("0xG", 255));
}

static void words(void)
{
    static const char line[] = "  row\t 1   x ";
    size_t place = 0;

    CHECK(word_is(next_word(line, sizeof line - 1, &place), "row\t"));
    CHECK(word_is(next_word(line, sizeof line - 1, &place), "1"));
    CHECK(word_is(next_word(line, sizeof line - 1, &place), "x"));
    CHECK(next_word(line, sizeof line - 1, &place).length == 0 && place == sizeof line - 1);
    CHECK(!word_is((struct word){"rows", 4}, "row") && !word_is((struct word){"ro", 2}, "row"));
}

static void bytes_in_hex(void)
{
    const char *text = "ca  0935 xy";
    uint8_t byte = 0;

    CHECK(next_hex(&text, &byte) && byte == 0xCA && next_hex(&text, &byte) && byte == 0x09 && next_hex(&text, &byte) && byte == 0x35);
    CHECK(!next_hex(&text, &byte) && strcmp(text, " xy") == 0);
}

/* Whether the first of the replies 0, 1, 2 .. below has gone, and all others are there. */
static bool outbox_moved_up(const struct outbox *outbox)
{
    bool good = true;

    for (size_t i = 0; i < outbox->length; i++) {
        good = good && outbox->bytes[i] == (uint8_t)(1 + i / THA_REPLY_ROOM);
    }
    return good;
}

static void full_and_empty_outbox(void)
{
    static struct outbox outbox;
    uint8_t reply[THA_REPLY_ROOM];
    unsigned added = 0;

    outbox_empty(&outbox);
    while (outbox_has_room(&outbox)) {
        memset(reply, (int)added, sizeof reply);
        outbox_add(&outbox, reply, sizeof reply);
        added += 1;
    }
    CHECK(added == OUTBOX_ROOM / THA_REPLY_ROOM && outbox.length == OUTBOX_ROOM);
    outbox_sent(&outbox, 31);
    CHECK(!outbox_has_room(&outbox) && outbox.bytes[0] == 0 && outbox.bytes[1] == 1);
    outbox_sent(&outbox, 1);
    CHECK(outbox_has_room(&outbox) && outbox.length == OUTBOX_ROOM - THA_REPLY_ROOM);
    CHECK(outbox_moved_up(&outbox));
    outbox_add(&outbox, reply, 1);
    CHECK(outbox.bytes[OUTBOX_ROOM - THA_REPLY_ROOM] == reply[0]);
    outbox_sent(&outbox, outbox.length);
    CHECK(outbox.length == 0 && outbox_has_room(&outbox) && outbox_room(&outbox) == OUTBOX_ROOM);
    memset(outbox_end(&outbox), 7, 100);
    outbox_written(&outbox, 100);
    outbox_add(&outbox, reply, 1);
    CHECK(outbox.length == 101 && outbox_room(&outbox) == OUTBOX_ROOM - 101 && outbox.bytes[99] == 7 && outbox.bytes[100] == reply[0]);
    CHECK(outbox_end(&outbox) == outbox.bytes + 101);
}

/* A clock that was started so many milliseconds ago. */
static struct tick_clock clock_of(uint64_t ago, unsigned speed, uint64_t ticks)
{
    struct tick_clock clock;

    clock_start(&clock, speed);
    clock.start -= ago;
    clock.ticks = ticks;
    return clock;
}

static void ticks_due(void)
{
    struct tick_clock young = clock_of(0, 1, 0);
    struct tick_clock late = clock_of(5000, 1, 4);
    struct tick_clock done = clock_of(5000, 1, 5);
    struct tick_clock fast = clock_of(50, 100, 5);

    CHECK(!clock_due(&young) && clock_sleep(&young) > 500 && clock_sleep(&young) <= 1000);
    CHECK(clock_due(&late) && clock_sleep(&late) == 0);
    CHECK(!clock_due(&done) && clock_sleep(&done) > 500 && clock_sleep(&done) <= 1000);
    CHECK(clock_now(&fast) >= 5000 && clock_now(&fast) < 55000 && clock_now(&fast) % 100 == 0);
    CHECK(clock_due(&fast) || clock_sleep(&fast) <= 10);
}

/* A log on a pipe; the reader's end does not wait. */
static void log_on_pipe(struct event_log *log, const struct tick_clock *clock, int ends[2])
{
    NEED(pipe(ends) == 0 && fcntl(ends[0], F_SETFL, O_NONBLOCK) == 0);
    log_start(log, ends[1], clock);
}

static void log_lines(void)
{
    static struct event_log log;
    struct tick_clock clock = clock_of(12034, 1, 12);
    char text[1024];
    char longest[400];
    int ends[2];
    ssize_t length;

    log_on_pipe(&log, &clock, ends);
    log_line(&log, "drop %d", 4);
    CHECK(read(ends[0], text, sizeof text) < 0);
    log_flush(&log);
    length = read(ends[0], text, sizeof text);
    CHECK(length == 22 && memcmp(text, "12.", 3) == 0 && memcmp(text + 6, " tick 12 drop 4\n", 16) == 0);
    memset(longest, 'x', sizeof longest);
    longest[sizeof longest - 1] = '\0';
    log_line(&log, "%s", longest);
    log_end(&log);
    length = read(ends[0], text, sizeof text);
    CHECK(length == LOG_LINE && text[length - 1] == '\n' && text[length - 2] == 'x');
    close(ends[0]);
    close(ends[1]);
}

static unsigned long count_lines(const char *text, size_t length)
{
    unsigned long lines = 0;

    for (size_t i = 0; i < length; i++) {
        lines += text[i] == '\n';
    }
    return lines;
}

/* Nobody reads: the lines that do not fit are counted. The reader gets its time, but not again for each line. */
static void log_left_out(void)
{
    static struct event_log log;
    static char text[LOG_ROOM + 65536];
    struct tick_clock clock = clock_of(0, 1, 0);
    int ends[2];
    unsigned long kept = 0;
    unsigned long left_out;
    char wanted[64];
    ssize_t length;

    log_on_pipe(&log, &clock, ends);
    for (unsigned i = 0; i < 8000; i++) {
        log_line(&log, "drop 4");
    }
    left_out = (unsigned long)log.left_out;
    CHECK(left_out > 1000 && log.behind);
    CHECK(clock_now(&clock) >= LOG_PATIENCE && clock_now(&clock) < left_out * LOG_PATIENCE / 10);
    while ((length = read(ends[0], text, sizeof text)) > 0) {
        kept += count_lines(text, (size_t)length);
        log_flush(&log);
    }
    CHECK_SAYS(kept + left_out == 8000, "each line is kept or counted: %lu, %lu", kept, left_out);
    log_line(&log, "drop 5");
    log_end(&log);
    length = read(ends[0], text, sizeof text - 1);
    CHECK(length > 0 && log.left_out == 0 && !log.behind);
    text[length] = '\0';
    snprintf(wanted, sizeof wanted, " %lu log lines left out\n", left_out);
    CHECK(strstr(text, wanted) != NULL && strstr(text, "drop 5\n") != NULL);
    close(ends[0]);
    close(ends[1]);
}

/* Lines until there is no room for more, which are not waited for. */
static void fill(struct event_log *log)
{
    while (LOG_ROOM - log->length >= 2 * LOG_LINE) {
        log_line(log, "drop 4");
    }
}

/* The reader has taken a little, which is room enough: it gets no time for the rest. */
static void log_with_some_room(void)
{
    static struct event_log log;
    static char text[PIPE_BUF];
    struct tick_clock clock = clock_of(0, 1, 0);
    int ends[2];

    log_on_pipe(&log, &clock, ends);
    fill(&log);
    log_flush(&log);
    fill(&log);
    CHECK(log.left_out == 0 && !log.behind);
    NEED(read(ends[0], text, sizeof text) == PIPE_BUF);
    log_line(&log, "drop 5");
    CHECK(log.left_out == 0 && !log.behind && log.length > 0);
    /* it takes nothing, and then a little: it has had its time, and gets no more before it has taken all */
    fill(&log);
    log_line(&log, "drop 6");
    CHECK(log.left_out == 1 && log.behind);
    NEED(read(ends[0], text, sizeof text) == PIPE_BUF);
    log_line(&log, "drop 7");
    CHECK(log.left_out == 0 && log.behind);
    close(ends[0]);
    close(ends[1]);
}

/* A log that has lost its reader keeps the host going; SIGPIPE is ignored by the program. */
static void log_without_reader(void)
{
    static struct event_log log;
    struct tick_clock clock = clock_of(0, 1, 0);
    int fd = open("/dev/full", O_WRONLY);

    NEED(fd >= 0);
    log_start(&log, fd, &clock);
    log_line(&log, "drop 4");
    log_line(&log, "drop 4");
    log_flush(&log);
    CHECK(log.length == 0 && log.left_out == 2);
    close(fd);
}

static void built_in_thermostats(void)
{
    struct simple_site site = {.delay = 3, .silent_count = 2, .silent = {5, 0x105}};
    struct simple_site other = {.delay = 3, .silent_count = 1, .silent = {5, 0x105}};
    struct thermostats thermostats = simple_thermostats(&site);
    tha_update update = {.field = {6, THA_COOL, 1}, .value = 70, .age = 2};

    CHECK(!thermostats.ask(thermostats.site, &update).answered);
    update.age = 3;
    CHECK(thermostats.ask(thermostats.site, &update).answered && thermostats.ask(thermostats.site, &update).value == 70);
    update.field.address = 0x105;
    CHECK(!thermostats.ask(thermostats.site, &update).answered);
    update.field.address = 5;
    CHECK(!thermostats.ask(thermostats.site, &update).answered);
    thermostats = simple_thermostats(&other);
    update.field.address = 0x105;
    CHECK(thermostats.ask(thermostats.site, &update).answered);
}

static void names_of_fields(void)
{
    char text[FIELD_WORDS_ROOM];

    CHECK(strcmp(field_words(text, THA_CONTROLLER, (tha_field){65535, THA_MODE, 3}), "controller mode 65535") == 0);
    CHECK(strcmp(field_words(text, THA_PANEL, (tha_field){1, THA_COOL, 2}), "panel cool 1 state 2") == 0);
    CHECK(strcmp(field_words(text, 255, (tha_field){1, THA_SLAB, 2}), "panel slab 1 state 2") == 0);
    CHECK(strcmp(field_words(text, THA_CONTROLLER, (tha_field){65535, 255, 255}), "controller fan 65535 state 255") == 0);
    CHECK(strcmp(refusal_words(THA_QUEUE_FULL), "eight updates of the line wait") == 0);
    CHECK(strcmp(refusal_words(THA_ADDRESS_TAKEN), "a device has this address already") == 0);
    CHECK(strcmp(refusal_words(THA_TABLE_FULL), "32 devices are there already") == 0);
    CHECK(strcmp(refusal_words(THA_TABLE_FULL + 1), "not used") == 0);
    CHECK(strcmp(refusal_words(THA_UPDATES_WAIT), "updates wait") == 0);
    CHECK(strcmp(refusal_words(THA_WRONG_LENGTH), "it ends too early or runs on") == 0);
    CHECK(strcmp(refusal_words(THA_WRONG_LENGTH + 1), "no number of the documents") == 0);
}

/* Whether the words are these, of a block in which numbers came up. */
static bool says(const tha_counts *counts, bool drops, const char *numbers, const char *meaning)
{
    struct count_words found;

    return count_words(&found, counts, drops) && strcmp(found.numbers, numbers) == 0 && strcmp(found.meaning, meaning) == 0;
}

static void words_of_counts(void)
{
    struct count_words found;
    tha_counts counts = {.queued = 8, .body = 17};

    CHECK(!count_words(&found, &counts, true) && !count_words(&found, &counts, false));
    counts.numbers[THA_EARLY_END - 3] = 1;
    CHECK(says(&counts, true, "4", " (EOF too early)") && !count_words(&found, &counts, false));
    counts.numbers[THA_EARLY_END - 3] = 4294967295;
    counts.numbers[THA_QUEUE_FULL - 3] = 1;
    CHECK(says(&counts, true, "4 x4294967295", " (EOF too early)") && says(&counts, false, "16", " (eight updates of the line wait)"));
    counts.numbers[THA_RESTARTED - 3] = 1;
    counts.numbers[THA_WRONG_TYPE - 3] = 2;
    CHECK(says(&counts, true, "3 x1 4 x4294967295", "") && says(&counts, false, "7 x2 16 x1", ""));
    for (unsigned number = 3; number <= 16; number++) {
        counts.numbers[number - 3] = 300 + number;
    }
    CHECK(says(&counts, true, "3 x303 4 x304 5 x305 6 x306", ""));
    CHECK(says(&counts, false, "7 x307 8 x308 9 x309 10 x310 11 x311 12 x312 13 x313 14 x314 15 x315 16 x316", ""));
}

/* Each signal is taken once. */
static void signals_taken(void)
{
    int fd = stop_open();

    CHECK(fd >= 0 && !stop_take(fd));
    kill(getpid(), SIGTERM);
    kill(getpid(), SIGINT);
    CHECK(stop_take(fd) && stop_take(fd) && !stop_take(fd));
}

int main(int count, char **arguments)
{
    static const struct test_case cases[] = {
        {"numbers", numbers},
        {"words", words},
        {"bytes in hex", bytes_in_hex},
        {"full and empty outbox", full_and_empty_outbox},
        {"ticks due", ticks_due},
        {"log lines", log_lines},
        {"log lines left out", log_left_out},
        {"a log with some room", log_with_some_room},
        {"a log that can't be written", log_without_reader},
        {"built-in thermostats", built_in_thermostats},
        {"names of fields", names_of_fields},
        {"words of counts", words_of_counts},
        {"plugged-in thermostats", plugged_in_thermostats},
        {"what timed out is forgotten", timed_out_is_forgotten},
        {"a full outbox stops all", full_outbox_stops_all},
        {"answers by line", answers_by_line},
        {"several in a block", several_in_a_block},
        {"a block without room", block_without_room},
        {"a line that takes no reply is passed by", unable_line_is_passed_by},
        {"drained at once", drained_at_once},
        {"the last packet", last_packet},
        {"the last bytes", last_bytes},
        {"held up at the end", held_up},
        {"left on both lines", left_on_both_lines},
        {"replaced whole", replaced_whole},
        {"a state file there and back", state_there_and_back},
        {"a state file cut anywhere", state_cut_anywhere},
        {"a hand-over there and back", hand_over_there_and_back},
        {"the longest hand-over", longest_hand_over},
        {"no hand-over while one waits", no_hand_over_while_one_waits},
        {"signals taken", signals_taken},
        {NULL, NULL},
    };

    return run_cases(cases, count > 1 ? arguments[1] : NULL);
}
