/*
 * cases_breaks.c: a gateway that is killed, or meets a full disk, at every step of writing and taking away its files: the next one
 * serves the old records or the new ones, never others, and never the old ones where the controller has seen the new.
 *
 * The old record is cool 44 in state 2, the new one 70. A file is replaced in five calls: the new file is made, written and synced,
 * renamed, and the directory is synced; it is taken away in two.
 */
#include "cases.h"
#include "check.h"
#include "frames.h"
#include "rig.h"

#include <signal.h>
#include <stdio.h>
#include <string.h>

enum { OLD = 44, NEW = 70, RENAMED = 4, REPLACED = 5, TAKEN = 2, NOT_WRITTEN = 4 };

static const char *const kills[] = {"before", "after", "half"};

enum { BEFORE, AFTER, HALF, KILLS };

/* Has the next gateway break at a call. */
static void break_at(struct rig *rig, unsigned call, const char *how)
{
    static char text[32];

    snprintf(text, sizeof text, "%u %s", call, how);
    rig->breaks = text;
}

/* A gateway with the new record, in a rig of its own. */
static void start_with_new(struct rig *rig, unsigned call, const char *how, const char *options)
{
    rig_make(rig, RIG_ROW_1);
    break_at(rig, call, how);
    rig_start(rig, rig_options(rig, options));
    rig_set(rig, COOL, 2, NEW);
}

/* The next gateway, which does not break, serves this record, from there. */
static void check_next(struct rig *rig, const char *options, uint8_t value, const char *source)
{
    rig->breaks = NULL;
    rig_start(rig, rig_options(rig, options));
    rig_log(rig, source);
    CHECK_SAYS(rig_get(rig, COOL, 2) == value, "the next one serves %u", value);
    CHECK(!rig_has(rig->handover, ""));
    rig_end(rig);
}

/* Kills at a call while the hand-over is written. Says whether the gateway was killed. */
static bool kill_handing(unsigned call, unsigned how)
{
    bool there = call > RENAMED || (call == RENAMED && how == AFTER);
    struct rig rig;
    int status;

    start_with_new(&rig, call, kills[how], "--delay 0 --handover @h");
    rig_signal(&rig, SIGTERM);
    status = rig_wait(&rig);
    CHECK(status == 0 || status == -SIGKILL);
    CHECK(rig_has(rig.handover, "") == (there || status == 0));
    check_next(&rig, "--handover @h", there || status == 0 ? NEW : OLD,
               there || status == 0 ? "records from the hand-over " : "records from the table ");
    return status != 0;
}

void killed_while_handing_over(void)
{
    for (unsigned call = 1; call <= REPLACED; call++) {
        CHECK(kill_handing(call, BEFORE) && kill_handing(call, AFTER));
    }
    CHECK(kill_handing(2, HALF));
    CHECK(!kill_handing(REPLACED + 1, BEFORE));
}

/* As long as the hand-over is not there, the line is held: who starts too early finds neither the old records nor no file. */
void held_while_handing_over(void)
{
    struct rig rig;
    struct rig early;

    for (unsigned call = 1; call <= REPLACED; call++) {
        start_with_new(&rig, call, "stop", "--delay 0 --handover @h");
        rig_signal(&rig, SIGTERM);
        rig_wait_stopped(&rig);
        early = rig;
        early.breaks = NULL;
        rig_launch(&early, rig_options(&rig, "--handover @h"));
        CHECK(rig_wait(&early) == 1);
        CHECK(!rig_has(rig.handover, ".refused"));
        rig_log_until(&rig, "drained after");
        CHECK(rig_next_line(&rig) && strstr(rig.line, "/line: another process holds this line") != NULL);
        rig_signal(&rig, SIGCONT);
        CHECK(rig_wait(&rig) == 0);
        check_next(&rig, "--handover @h", NEW, "records from the hand-over ");
    }
}

/* A hand-over with the new record. */
static size_t make_file(uint8_t *bytes, size_t room)
{
    struct rig rig;
    size_t length;

    start_with_new(&rig, 0, "not", "--delay 0 --handover @h");
    rig_signal(&rig, SIGTERM);
    CHECK(rig_wait(&rig) == 0);
    length = rig_read_file(rig.handover, "", bytes, room);
    rig_end(&rig);
    return length;
}

/* A gateway that finds a hand-over with the new record, and breaks at a call, before it has served a byte. */
static void start_with_file(struct rig *rig, unsigned call, const char *how, const char *options)
{
    static uint8_t bytes[2048];
    static size_t length;

    if (length == 0) {
        length = make_file(bytes, sizeof bytes);
    }
    rig_make(rig, RIG_ROW_1);
    rig_write_file(rig->handover, bytes, length);
    break_at(rig, call, how);
    rig_launch(rig, rig_options(rig, options));
}

/* Kills at a call while the hand-over is taken over; its record is then served, from there. */
static void kill_taking(unsigned call, unsigned how, const char *options, uint8_t value, const char *source)
{
    struct rig rig;

    start_with_file(&rig, call, kills[how], options);
    CHECK(rig_wait(&rig) == -SIGKILL);
    check_next(&rig, options, value, source);
}

/* After so many calls the gateway serves. */
static void check_calls(unsigned calls, const char *options)
{
    struct rig rig;

    start_with_file(&rig, calls + 1, "before", options);
    CHECK(rig_get(&rig, COOL, 2) == NEW);
    rig_signal(&rig, SIGKILL);
    CHECK(rig_wait(&rig) == -SIGKILL);
    rig_end(&rig);
}

/* With a state file the hand-over's record is never lost. */
void killed_while_taking_over(void)
{
    const char *options = "--handover @h --state @s";

    for (unsigned call = 1; call <= REPLACED; call++) {
        kill_taking(call, BEFORE, options, NEW, "records from the hand-over ");
        kill_taking(call, AFTER, options, NEW, "records from the hand-over ");
    }
    kill_taking(2, HALF, options, NEW, "records from the hand-over ");
    kill_taking(REPLACED + 1, BEFORE, options, NEW, "records from the hand-over ");
    kill_taking(REPLACED + 1, AFTER, options, NEW, "records from the state file ");
    kill_taking(REPLACED + TAKEN, BEFORE, options, NEW, "records from the state file ");
    kill_taking(REPLACED + TAKEN, AFTER, options, NEW, "records from the state file ");
    check_calls(REPLACED + TAKEN, options);
}

/* Without one, a gateway that is killed after it took the file away leaves the table's, as any that is killed. */
void killed_without_state(void)
{
    const char *options = "--handover @h";

    kill_taking(1, BEFORE, options, NEW, "records from the hand-over ");
    kill_taking(1, AFTER, options, OLD, "records from the table ");
    kill_taking(TAKEN, BEFORE, options, OLD, "records from the table ");
    kill_taking(TAKEN, AFTER, options, OLD, "records from the table ");
    check_calls(TAKEN, options);
}

/* A gateway that breaks while the record of a confirmed update is written: no reply has been sent then. */
static int confirm_broken(struct rig *rig, unsigned call, const char *how)
{
    uint8_t byte;
    int status;

    rig_make(rig, RIG_ROW_1);
    break_at(rig, call, how);
    rig_start(rig, rig_options(rig, "--delay 0 --state @s"));
    rig_send(rig, setting_hex(UPDATE, COOL, 1, 2, NEW));
    status = rig_wait(rig);
    CHECK_SAYS(rig_pull(rig, &byte, 1) == 0, "no reply, %s at call %u", how, call);
    return status;
}

static void kill_keeping(unsigned call, unsigned how)
{
    bool there = call > RENAMED || (call == RENAMED && how == AFTER);
    struct rig rig;

    CHECK(confirm_broken(&rig, call, kills[how]) == -SIGKILL);
    CHECK(rig_has(rig.state, "") == there);
    check_next(&rig, "--state @s", there ? NEW : OLD, there ? "records from the state file " : "records from the table ");
}

void killed_while_keeping(void)
{
    struct rig rig;

    for (unsigned call = 1; call <= REPLACED; call++) {
        kill_keeping(call, BEFORE);
        kill_keeping(call, AFTER);
    }
    kill_keeping(2, HALF);
    start_with_new(&rig, REPLACED + 1, "before", "--delay 0 --state @s"); /* the reply is there */
    rig_end(&rig);
}

/* A full disk, or one that fails: the gateway ends with an error and a line, and no part of a file is left. */
static void fail_handing(unsigned call, const char *how)
{
    bool there = call > RENAMED;
    struct rig rig;

    start_with_new(&rig, call, how, "--delay 0 --handover @h");
    rig_signal(&rig, SIGTERM);
    CHECK(rig_wait(&rig) == NOT_WRITTEN);
    rig_log_until(&rig, "not handed over to ");
    rig_log(&rig, "ended by an error, 0 waiting");
    CHECK(rig_has(rig.handover, "") == there && !rig_has(rig.handover, ".new"));
    check_next(&rig, "--handover @h", there ? NEW : OLD, there ? "records from the hand-over " : "records from the table ");
}

static void fail_keeping(unsigned call, const char *how)
{
    bool there = call > RENAMED;
    struct rig rig;

    CHECK(confirm_broken(&rig, call, how) == NOT_WRITTEN);
    rig_log_until(&rig, "rows not kept in ");
    rig_log(&rig, "ended by an error, 0 waiting");
    CHECK(rig_has(rig.state, "") == there && !rig_has(rig.state, ".new"));
    check_next(&rig, "--state @s", there ? NEW : OLD, there ? "records from the state file " : "records from the table ");
}

/* Nothing is served, and the record is there for the next start. */
static void fail_taking(unsigned call, const char *how)
{
    bool gone = call > REPLACED + 1;
    struct rig rig;

    start_with_file(&rig, call, how, "--handover @h --state @s");
    CHECK(rig_wait(&rig) == NOT_WRITTEN);
    rig_log_until(&rig, call <= REPLACED ? "rows not kept in " : "hand-over not taken away: ");
    rig_log(&rig, "ended by an error, 0 waiting");
    CHECK(rig_has(rig.handover, "") == !gone && !rig_has(rig.state, ".new"));
    check_next(&rig, "--handover @h --state @s", NEW, gone ? "records from the state file " : "records from the hand-over ");
}

void full_disk(void)
{
    for (unsigned call = 1; call <= REPLACED; call++) {
        fail_handing(call, "full");
        fail_keeping(call, "full");
        fail_taking(call, "full");
    }
}

void disk_that_fails(void)
{
    for (unsigned call = 1; call <= REPLACED; call++) {
        fail_handing(call, "fail");
        fail_keeping(call, "fail");
    }
    for (unsigned call = 1; call <= REPLACED + TAKEN; call++) {
        fail_taking(call, "fail");
    }
}

/* The same with a limit that the system sets, on files of 2048 bytes: 32 rows do not fit, neither as frames nor as text. */
static void check_limit(const char *options, const char *next, const char *words)
{
    static char table[8192];
    struct rig rig;

    strcpy(table, RIG_ROW_1);
    for (int i = 2; i <= 32; i++) {
        snprintf(table + strlen(table), sizeof table - strlen(table),
                 "row %d 0 2 0 0 0 1 2 3 4 5 6 7 255 255 255 255 255 255 255 255 255 255 255 255 255 255\n", i);
    }
    rig_make(&rig, table);
    rig.file_most = 2048;
    rig_start(&rig, rig_options(&rig, options));
    rig_send(&rig, setting_hex(UPDATE, COOL, 1, 2, NEW));
    rig_log_until(&rig, "confirmed controller cool 1 state 2 value 70");
    if (strstr(options, "@h") != NULL) {
        rig_signal(&rig, SIGTERM);
    }
    CHECK(rig_wait(&rig) == NOT_WRITTEN);
    rig_log_until(&rig, words);
    CHECK(strstr(rig.line, "File too large") != NULL);
    CHECK(!rig_has(rig.handover, "") && !rig_has(rig.handover, ".new") && !rig_has(rig.state, "") && !rig_has(rig.state, ".new"));
    rig.file_most = 0;
    while (rig_pull(&rig, (uint8_t[256]){0}, 256) > 0) {
    }
    check_next(&rig, next, OLD, "records from the table ");
}

void files_too_large(void)
{
    check_limit("--delay 0 --handover @h", "--handover @h", "not handed over to ");
    check_limit("--delay 0 --state @s", "--state @s", "rows not kept in ");
}
