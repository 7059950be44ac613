/* cases_line.c: a line that goes away, and a gateway that is killed. */
#include "cases.h"
#include "check.h"
#include "frames.h"
#include "rig.h"

#include <dirent.h>
#include <signal.h>
#include <stdio.h>

/* How many files the gateway has open. */
static unsigned open_files(const struct rig *rig)
{
    char path[64];
    unsigned count = 0;
    DIR *files;

    snprintf(path, sizeof path, "/proc/%d/fd", (int)rig->pid);
    files = opendir(path);
    NEED(files != NULL);
    while (readdir(files) != NULL) {
        count += 1;
    }
    closedir(files);
    return count;
}

/* What was confirmed before is there afterwards, and what waits is served on the new line. */
void lost_line(void)
{
    struct rig rig;

    rig_make(&rig, RIG_ROW_1);
    rig_start(&rig, "--speed 10 --delay 40"); /* four seconds to hang up, eight more for a new line */
    rig_send(&rig, setting_hex(UPDATE, COOL, 1, 2, 70));
    rig_log(&rig, "queued controller cool 1 state 2 value 70, 1 waiting");
    rig_reply(&rig, setting_hex(UPDATED, COOL, 1, 2, 70));
    rig_log(&rig, "confirmed controller cool 1 state 2 value 70");
    rig_send(&rig, setting_hex(UPDATE, FAN, 1, 3, 80));
    rig_log(&rig, "queued controller fan 1 state 3 value 80, 1 waiting");
    rig_hang_up(&rig);
    rig_log(&rig, "controller line lost: ");
    rig_new_line(&rig);
    rig_log_until(&rig, "controller line back: ");
    rig_log(&rig, "confirmed controller fan 1 state 3 value 80");
    rig_reply(&rig, setting_hex(UPDATED, FAN, 1, 3, 80));
    rig_send(&rig, setting_hex(REQUEST, COOL, 1, 2, 0));
    rig_reply(&rig, setting_hex(REQUESTED, COOL, 1, 2, 70));
    rig_quiet(&rig);
    rig_end(&rig);
}

/* The ticks go on: an update times out on its 120th tick while there is no line; a line is lost and found again and again. */
void ticks_without_a_line(void)
{
    struct rig rig;
    unsigned long queued;
    unsigned long lost;
    unsigned files;

    rig_make(&rig, RIG_ROW_1);
    rig_start(&rig, "--speed 20 --delay 119"); /* almost six seconds to hang up */
    files = open_files(&rig);
    rig_send(&rig, setting_hex(UPDATE, FAN, 1, 3, 80));
    queued = rig_log(&rig, "queued controller fan 1 state 3 value 80, 1 waiting");
    rig_hang_up(&rig);
    lost = rig_log(&rig, "controller line lost: ");
    CHECK(lost < queued + 119);
    rig_log(&rig, "controller line not back: No such file or directory");
    CHECK(rig_log(&rig, "timed out controller fan 1 state 3") == queued + 120);
    for (int i = 0; i < 3; i++) {
        rig_new_line(&rig);
        rig_log_until(&rig, "controller line back: ");
        rig_quiet(&rig);
        CHECK_SAYS(open_files(&rig) == files, "as many files are open as before: %u, %u", files, open_files(&rig));
        rig_hang_up(&rig);
        rig_log(&rig, "controller line lost: ");
    }
    rig_end(&rig);
}

/* Killed at once, in the middle of a frame too, and started again while the controller keeps its end open. */
void kill_and_restart(void)
{
    struct rig rig;

    rig_make(&rig, RIG_ROW_1);
    for (int i = 0; i < 3; i++) {
        rig_start(&rig, "--delay 0");
        rig_send(&rig, setting_hex(REQUEST, COOL, 1, 2, 0));
        rig_reply(&rig, setting_hex(REQUESTED, COOL, 1, 2, 44));
        rig_send(&rig, setting_hex(UPDATE, COOL, 1, 2, 70));
        rig_log_until(&rig, "queued controller cool 1 state 2 value 70, 1 waiting");
        rig_log(&rig, "confirmed controller cool 1 state 2 value 70");
        rig_reply(&rig, setting_hex(UPDATED, COOL, 1, 2, 70));
        rig_send(&rig, "ca 09 06 01");
        rig_signal(&rig, SIGKILL);
        CHECK(rig_wait(&rig) == -SIGKILL);
    }
    /* what the controller sends while nobody listens is answered by the next one, or lost; the line works */
    rig_start(&rig, "");
    rig_send(&rig, "35");
    rig_quiet(&rig);
    rig_end(&rig);
}
