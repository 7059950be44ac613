/* cases_handover.c: a gateway ends with a hand-over, and the next one starts with it; files that are not a hand-over. */
#include "cases.h"
#include "check.h"
#include "frames.h"
#include "rig.h"
#include "sheet.h"

#include <signal.h>
#include <stdio.h>
#include <string.h>
#include <sys/stat.h>
#include <unistd.h>

#define DATE_UPDATE "ca 0c 06 00 a7 01 00 00 dc 07 06 1a 02 0a 1b e4 35"
#define DATE_REPLY "ca 0c 06 03 a7 01 00 00 dc 07 06 1a 02 0a 1b e7 35"
#define FIRMWARE_REQUEST "ca 07 06 01 87 01 00 00 00 00 96 35"
#define REPORTING_REQUEST "ca 06 06 01 0f 01 00 00 00 1d 35"

/* What the gateway of these cases is handed over as: RIG_ROW_1 with cool 70 in state 2, and the date above. */
static size_t wanted_file(uint8_t *file)
{
    static struct sheet sheet;
    static struct sheet_bytes bytes;
    static tha_gateway gateway;
    tha_row *row = &gateway.table.rows[0];

    gateway.properties = (tha_properties){.reporting = true, .firmware = 258, .protocol = 772};
    gateway.properties.date = (tha_date){.year = 2012, .month = 6, .day = 26, .weekday = 2, .hour = 10, .minute = 27};
    *row = (tha_row){.address = 1, .version = 112810, .mask = 11, .state = 4};
    memset(row->cool, 44, sizeof row->cool);
    memset(row->slab, THA_NONE, sizeof row->slab);
    row->cool[2] = 70;
    gateway.table.count = 1;
    sheet_of(&sheet, &gateway);
    sheet_write(&sheet, false, &bytes);
    file[0] = 1;
    memcpy(file + 1, bytes.bytes, bytes.length);
    return bytes.length + 1;
}

/* Ends the gateway with a signal, and it hands over. */
static void end_with_hand_over(struct rig *rig)
{
    rig_signal(rig, SIGTERM);
    CHECK(rig_wait(rig) == 0);
    rig_log_until(rig, "drained after");
    rig_log(rig, "handed over to ");
    rig_log(rig, "ended by a signal, 0 waiting");
    CHECK(rig_has(rig->handover, "") && !rig_has(rig->handover, ".new"));
}

/* All that document 02 names is there afterwards, also the firmware's number; the file is gone; the table is not looked at. */
void hand_over_and_take_over(void)
{
    static uint8_t wanted[SHEET_FRAME * 32];
    static uint8_t found[SHEET_FRAME * 32];
    size_t length = wanted_file(wanted);
    struct rig rig;

    rig_make(&rig, RIG_ROW_1);
    rig_start(&rig, rig_options(&rig, "--firmware 258 --protocol 772 --delay 0 --handover @h"));
    rig_log(&rig, "records from the table ");
    rig_set(&rig, COOL, 2, 70);
    rig_send(&rig, DATE_UPDATE);
    rig_reply(&rig, DATE_REPLY);
    rig_send(&rig, "ca 06 06 00 0f 01 00 00 01 1d 35");
    rig_reply(&rig, "ca 06 06 03 0f 01 00 00 01 20 35");
    end_with_hand_over(&rig);
    CHECK(rig_read_file(rig.handover, "", found, sizeof found) == length && memcmp(found, wanted, length) == 0);
    unlink(rig.table);
    rig_start(&rig, rig_options(&rig, "--firmware 9 --protocol 9 --delay 0 --handover @h"));
    rig_log(&rig, "records from the hand-over ");
    CHECK(rig_get(&rig, COOL, 2) == 70 && rig_get(&rig, COOL, 3) == 44);
    CHECK(!rig_has(rig.handover, "") && !rig_has(rig.handover, ".refused"));
    rig_send(&rig, FIRMWARE_REQUEST);
    rig_reply(&rig, "ca 07 06 04 87 01 00 00 02 01 9c 35");
    rig_send(&rig, REPORTING_REQUEST);
    rig_reply(&rig, "ca 06 06 04 0f 01 00 00 01 21 35");
    end_with_hand_over(&rig);
    CHECK(rig_read_file(rig.handover, "", found, sizeof found) == length && memcmp(found, wanted, length) == 0);
    rig_end(&rig);
}

/* What waits at the signal is confirmed and answered before the end; what comes on the line meanwhile is the next one's. */
void drains_what_waits(void)
{
    struct rig rig;

    rig_make(&rig, RIG_ROW_1);
    rig_start(&rig, rig_options(&rig, "--speed 10 --delay 5 --handover @h"));
    rig_log(&rig, "records from the table ");
    rig_send(&rig, setting_hex(UPDATE, FAN, 1, 3, 80));
    rig_log(&rig, "queued controller fan 1 state 3 value 80, 1 waiting");
    rig_signal(&rig, SIGTERM);
    rig_log(&rig, "stops reading, 1 waiting");
    rig_send(&rig, setting_hex(REQUEST, FAN, 1, 3, 0));
    rig_send_bytes(&rig, rig_request, sizeof rig_request);
    rig_reply(&rig, setting_hex(UPDATED, FAN, 1, 3, 80));
    rig_log(&rig, "confirmed controller fan 1 state 3 value 80");
    CHECK(rig_wait(&rig) == 0);
    rig_log(&rig, "drained after");
    CHECK(strstr(rig.line, "0 bytes not sent, 0 not answered") != NULL);
    rig_log(&rig, "handed over to ");
    rig_log(&rig, "ended by a signal, 0 waiting");
    rig_start(&rig, rig_options(&rig, "--handover @h"));
    rig_reply(&rig, setting_hex(REQUESTED, FAN, 1, 3, 80));
    rig_reply_bytes(&rig, rig_answer, sizeof rig_answer);
    rig_quiet(&rig);
    rig_end(&rig);
}

/* An update of a silent device times out on its 120th tick as ever, and the hand-over follows at once. */
void drains_the_silent(void)
{
    struct rig rig;
    unsigned long queued;
    unsigned long stopped;

    rig_make(&rig, RIG_ROW_1);
    rig_start(&rig, rig_options(&rig, "--speed 100 --silent 1 --handover @h"));
    rig_log(&rig, "records from the table ");
    rig_send(&rig, setting_hex(UPDATE, FAN, 1, 3, 80));
    queued = rig_log(&rig, "queued controller fan 1 state 3 value 80, 1 waiting");
    rig_signal(&rig, SIGTERM);
    stopped = rig_log(&rig, "stops reading, 1 waiting");
    CHECK(rig_log(&rig, "timed out controller fan 1 state 3") == queued + 120);
    CHECK(rig_log(&rig, "drained after") == queued + 120 && queued + 120 <= stopped + 120);
    CHECK(rig_wait(&rig) == 0);
    rig_start(&rig, rig_options(&rig, "--handover @h"));
    CHECK(rig_get(&rig, FAN, 3) == 0);
    rig_end(&rig);
}

/* A packet that is open at the signal is read to its end, and not a byte more. */
void open_packet_at_the_end(void)
{
    uint8_t rest[2 * RIG_REQUEST];
    struct rig rig;

    for (size_t split = 1; split < RIG_REQUEST; split += 2) {
        rig_make(&rig, RIG_ROW_1);
        rig_start(&rig, rig_options(&rig, "--handover @h"));
        rig_quiet(&rig);
        rig_send_bytes(&rig, rig_request, split);
        rig_taken(&rig);
        rig_signal(&rig, SIGTERM);
        rig_log_until(&rig, "stops reading, 0 waiting");
        memcpy(rest, rig_request + split, RIG_REQUEST - split);
        memcpy(rest + RIG_REQUEST - split, rig_request, RIG_REQUEST);
        rig_send_bytes(&rig, rest, 2 * RIG_REQUEST - split);
        rig_reply_bytes(&rig, rig_answer, sizeof rig_answer);
        CHECK(rig_wait(&rig) == 0);
        CHECK_SAYS(rig_pull(&rig, rest, 1) == 0, "the next packet is not answered");
        rig_log(&rig, "drained after");
        rig_start(&rig, rig_options(&rig, "--handover @h"));
        rig_reply_bytes(&rig, rig_answer, sizeof rig_answer);
        rig_quiet(&rig);
        rig_end(&rig);
    }
}

/* A frame that is there together with the signal is answered once, by the old gateway where it saw the frame first, else by the new. */
void bytes_with_the_signal(void)
{
    struct rig rig;

    rig_make(&rig, RIG_ROW_1);
    rig_start(&rig, rig_options(&rig, "--handover @h"));
    rig_quiet(&rig);
    rig_signal(&rig, SIGSTOP);
    rig_send(&rig, setting_hex(REQUEST, COOL, 1, 2, 0));
    rig_signal(&rig, SIGTERM);
    rig_signal(&rig, SIGCONT);
    CHECK(rig_wait(&rig) == 0);
    rig_start(&rig, rig_options(&rig, "--handover @h"));
    rig_reply(&rig, setting_hex(REQUESTED, COOL, 1, 2, 44));
    rig_quiet(&rig);
    rig_end(&rig);
}

/* A packet that never ends does not keep the gateway; its bytes are counted. */
void packet_that_never_ends(void)
{
    struct rig rig;
    unsigned long stopped;

    rig_make(&rig, RIG_ROW_1);
    rig_start(&rig, rig_options(&rig, "--speed 20 --handover @h"));
    rig_quiet(&rig);
    rig_send_bytes(&rig, rig_request, 5);
    rig_taken(&rig);
    rig_signal(&rig, SIGTERM);
    stopped = rig_log_until(&rig, "stops reading, 0 waiting");
    CHECK(rig_log(&rig, "drained after 3 ticks, 0 bytes not sent, 5 not answered") == stopped + 3);
    CHECK(rig_wait(&rig) == 0);
    rig_start(&rig, rig_options(&rig, "--handover @h"));
    rig_quiet(&rig);
    rig_end(&rig);
}

/* A second signal, of either kind, ends it at once and writes nothing. Without --handover the first one does. */
static void second_of(int first, int second)
{
    struct rig rig;

    rig_make(&rig, RIG_ROW_1);
    rig_start(&rig, rig_options(&rig, "--silent 1 --handover @h"));
    rig_log(&rig, "records from the table ");
    rig_send(&rig, setting_hex(UPDATE, FAN, 1, 3, 80));
    rig_log(&rig, "queued controller fan 1 state 3 value 80, 1 waiting");
    rig_signal(&rig, first);
    rig_log(&rig, "stops reading, 1 waiting");
    rig_signal(&rig, second);
    CHECK(rig_wait(&rig) == 3);
    rig_log(&rig, "a second signal, not handed over");
    rig_log(&rig, "ended by a signal, 1 waiting");
    CHECK(!rig_has(rig.handover, "") && !rig_has(rig.handover, ".new"));
    rig_end(&rig);
}

void second_signal(void)
{
    second_of(SIGTERM, SIGTERM);
    second_of(SIGINT, SIGTERM);
    second_of(SIGTERM, SIGINT);
}

/* While the old gateway drains, a new one can't start: it would find the old records. */
void new_one_too_early(void)
{
    struct rig rig;
    struct rig early;

    rig_make(&rig, RIG_ROW_1);
    rig_start(&rig, rig_options(&rig, "--speed 10 --silent 1 --handover @h"));
    rig_send(&rig, setting_hex(UPDATE, FAN, 1, 3, 80));
    rig_log_until(&rig, "queued controller fan 1 state 3 value 80, 1 waiting");
    rig_signal(&rig, SIGTERM);
    rig_log(&rig, "stops reading, 1 waiting");
    early = rig;
    snprintf(early.log, RIG_PATH, "%s/early", rig.directory);
    rig_launch(&early, rig_options(&rig, "--handover @h"));
    CHECK(rig_wait(&early) == 1);
    CHECK(rig_has(early.log, ""));
    unlink(early.log);
    rig_signal(&rig, SIGTERM);
    CHECK(rig_wait(&rig) == 3);
    rig_end(&rig);
}

/* The next line of the log, which is no event but what was said before serving, has the words. */
static void check_said(struct rig *rig, const char *words)
{
    CHECK(rig_next_line(rig));
    CHECK_SAYS(strncmp(rig->line, "tha-gateway: ", 13) == 0 && strstr(rig->line, words) != NULL, "says '%s': %s", words, rig->line);
}

/* The bytes are kept beside, as they were. */
static void check_kept(const struct rig *rig, const uint8_t *bytes, size_t length)
{
    static uint8_t found[SHEET_FRAME * 32];

    CHECK(!rig_has(rig->handover, ""));
    CHECK(rig_read_file(rig->handover, ".refused", found, sizeof found) == length && memcmp(found, bytes, length) == 0);
}

/* A file that is no hand-over: nothing is served, one line says why; the next start, or --or-table, serves the table. */
static void refused_file(const uint8_t *bytes, size_t length, const char *words)
{
    struct rig rig;
    uint8_t byte;

    rig_make(&rig, RIG_ROW_1);
    rig_send_bytes(&rig, rig_request, sizeof rig_request);
    rig_write_file(rig.handover, bytes, length);
    rig_launch(&rig, rig_options(&rig, "--handover @h"));
    CHECK(rig_wait(&rig) == 1);
    check_said(&rig, words);
    CHECK(!rig_next_line(&rig) && rig_pull(&rig, &byte, 1) == 0);
    check_kept(&rig, bytes, length);
    rig_write_file(rig.handover, bytes, length);
    rig_launch(&rig, rig_options(&rig, "--handover @h --or-table"));
    rig_reply_bytes(&rig, rig_answer, sizeof rig_answer);
    check_said(&rig, words);
    rig_log(&rig, "serving ");
    rig_log(&rig, "records from the table ");
    CHECK(rig_get(&rig, COOL, 2) == 44);
    check_kept(&rig, bytes, length);
    rig_end(&rig);
}

void refused_hand_overs(void)
{
    static uint8_t file[SHEET_FRAME * 32];
    size_t length = wanted_file(file);
    char words[64];

    refused_file(file, 0, "hand-over refused 25 at byte 0 (it ends too early or runs on); kept as ");
    for (size_t cut = 1; cut < length; cut += length / 5) {
        snprintf(words, sizeof words, "hand-over refused 25 at byte %u ", (unsigned)cut);
        refused_file(file, cut, words);
    }
    file[length] = 0xCA;
    snprintf(words, sizeof words, "hand-over refused 25 at byte %u ", (unsigned)length);
    refused_file(file, length + 1, words);
    file[0] = 33;
    refused_file(file, length, "hand-over refused 21 at byte 0 ");
    file[0] = 1;
    file[1] = 0x35;
    refused_file(file, length, "hand-over refused 24 at byte 1 (not the frame that is due there)");
}

/* A flipped bit here and there. All of them are tried on the reader itself, in test_capi. */
void flipped_files(void)
{
    static uint8_t file[SHEET_FRAME * 32];
    size_t length = wanted_file(file);

    for (size_t bit = 3; bit < 8 * length; bit += 8 * length / 6) {
        file[bit / 8] ^= (uint8_t)(1u << bit % 8);
        refused_file(file, length, "hand-over refused 2");
        file[bit / 8] ^= (uint8_t)(1u << bit % 8);
    }
}

/* What can't be a file at all, or could never be written, is said at the start, and nothing is served. */
static void unfit_file(const char *options, const char *words)
{
    struct rig rig;

    rig_make(&rig, RIG_ROW_1);
    NEED(mkdir(rig.handover, 0700) == 0);
    rig_launch(&rig, rig_options(&rig, options));
    CHECK(rig_wait(&rig) == 1);
    check_said(&rig, words);
    CHECK(!rig_next_line(&rig));
    rmdir(rig.handover);
    rig_end(&rig);
}

void unfit_files(void)
{
    unfit_file("--handover @h", "/handover: not a plain file");
    unfit_file("--state @h", "/handover: not a plain file");
    unfit_file("--handover @h/none/file", "/handover/none/file: No such file or directory");
    unfit_file("--state @h/none/file", "/handover/none/file: No such file or directory");
}
