/* cases_state.c: the state file: what was confirmed is there after a kill. */
#include "cases.h"
#include "check.h"
#include "frames.h"
#include "rig.h"

#include <signal.h>
#include <stdio.h>
#include <string.h>
#include <unistd.h>

#define ROW_1_CHANGED "row 1 112810 11 0 4 0 44 44 70 44 44 44 44 255 255 255 255 255 255 255 0 0 0 80 0 0 0\n"
#define ALL_1 "# these are all rows, 1\n"

static void kill_gateway(struct rig *rig)
{
    rig_signal(rig, SIGKILL);
    CHECK(rig_wait(rig) == -SIGKILL);
}

static void check_state(const struct rig *rig, const char *text)
{
    uint8_t found[1024];
    size_t length = rig_read_file(rig->state, "", found, sizeof found);

    CHECK_SAYS(length == strlen(text) && memcmp(found, text, length) == 0, "the state file: %.*s", (int)length, (const char *)found);
    CHECK(!rig_has(rig->state, ".new"));
}

/* The file is there when the reply is, and not before the first update is confirmed; the next start reads it and not the table. */
void confirmed_is_kept(void)
{
    struct rig rig;

    rig_make(&rig, RIG_ROW_1);
    rig_start(&rig, rig_options(&rig, "--delay 0 --state @s"));
    rig_log(&rig, "records from the table ");
    rig_quiet(&rig);
    CHECK(!rig_has(rig.state, ""));
    rig_set(&rig, COOL, 2, 70);
    rig_set(&rig, FAN, 3, 80);
    check_state(&rig, ROW_1_CHANGED ALL_1);
    kill_gateway(&rig);
    unlink(rig.table);
    rig_start(&rig, rig_options(&rig, "--delay 0 --state @s"));
    rig_log_until(&rig, "records from the state file ");
    CHECK(rig_get(&rig, COOL, 2) == 70 && rig_get(&rig, FAN, 3) == 80 && rig_get(&rig, COOL, 1) == 44);
    rig_set(&rig, COOL, 2, 44);
    kill_gateway(&rig);
    rig_start(&rig, rig_options(&rig, "--delay 0 --state @s"));
    CHECK(rig_get(&rig, COOL, 2) == 44 && rig_get(&rig, FAN, 3) == 80);
    rig_end(&rig);
}

/* Many at once: each reply's value is there, whenever the gateway is killed. */
void killed_among_replies(void)
{
    struct rig rig;

    for (uint8_t seen = 1; seen <= 7; seen += 3) {
        rig_make(&rig, RIG_ROW_1);
        rig_start(&rig, rig_options(&rig, "--speed 10 --delay 1 --state @s"));
        for (uint8_t state = 0; state < 7; state++) {
            rig_send(&rig, setting_hex(UPDATE, COOL, 1, state, (uint8_t)(60 + state)));
        }
        for (uint8_t state = 0; state < seen; state++) {
            rig_reply(&rig, setting_hex(UPDATED, COOL, 1, state, (uint8_t)(60 + state)));
        }
        kill_gateway(&rig);
        while (rig_pull(&rig, (uint8_t[256]){0}, 256) > 0) {
        }
        rig_start(&rig, rig_options(&rig, "--state @s"));
        for (uint8_t state = 0; state < seen; state++) {
            CHECK(rig_get(&rig, COOL, state) == 60 + state);
        }
        rig_end(&rig);
    }
}

static void refused_state(const char *text, const char *words)
{
    struct rig rig;

    rig_make(&rig, RIG_ROW_1);
    rig_write_file(rig.state, text, strlen(text));
    rig_launch(&rig, rig_options(&rig, "--state @s"));
    CHECK(rig_wait(&rig) == 1);
    CHECK(rig_next_line(&rig));
    CHECK_SAYS(strstr(rig.line, words) != NULL, "says '%s': %s", words, rig.line);
    CHECK(!rig_next_line(&rig) && rig_has(rig.state, ""));
    rig_end(&rig);
}

/* A state file that is not whole is no table to be served, and it stays where it is. All lengths are tried in test_parts. */
void refused_states(void)
{
    refused_state("", "/state: not a whole state file, its last line is not '# these are all rows, 0'");
    refused_state(ROW_1_CHANGED, "/state: not a whole state file, its last line is not '# these are all rows, 1'");
    refused_state(ROW_1_CHANGED "# these are all rows, 2\n", "/state: not a whole state file");
    refused_state(ROW_1_CHANGED "row 2 ", "/state:2: 1 numbers, a row has 27");
    refused_state("\x01\xCA\x07", "/state:1: not a row line");
    refused_state(ROW_1_CHANGED ROW_1_CHANGED ALL_1, "/state:2: row refused 20 (a device has this address already)");
}

/* The hand-over goes before the state file, whose rows then are the hand-over's. */
void hand_over_before_state(void)
{
    struct rig rig;

    rig_make(&rig, RIG_ROW_1);
    rig_start(&rig, rig_options(&rig, "--delay 0 --handover @h"));
    rig_set(&rig, COOL, 2, 70);
    rig_set(&rig, FAN, 3, 80);
    rig_signal(&rig, SIGTERM);
    CHECK(rig_wait(&rig) == 0);
    rig_write_file(rig.state, RIG_ROW_1 ALL_1, strlen(RIG_ROW_1 ALL_1));
    rig_start(&rig, rig_options(&rig, "--handover @h --state @s"));
    rig_log_until(&rig, "records from the hand-over ");
    CHECK(rig_get(&rig, COOL, 2) == 70 && !rig_has(rig.handover, ""));
    check_state(&rig, ROW_1_CHANGED ALL_1);
    kill_gateway(&rig);
    rig_start(&rig, rig_options(&rig, "--handover @h --state @s"));
    rig_log_until(&rig, "records from the state file ");
    CHECK(rig_get(&rig, COOL, 2) == 70);
    rig_end(&rig);
}

/* A refused hand-over with --or-table: the state file stands for the table. */
void state_for_the_table(void)
{
    struct rig rig;

    rig_make(&rig, RIG_ROW_1);
    rig_write_file(rig.state, ROW_1_CHANGED ALL_1, strlen(ROW_1_CHANGED ALL_1));
    rig_write_file(rig.handover, "", 0);
    rig_launch(&rig, rig_options(&rig, "--handover @h --or-table --state @s"));
    CHECK(rig_get(&rig, COOL, 2) == 70 && rig_has(rig.handover, ".refused"));
    rig_end(&rig);
}
