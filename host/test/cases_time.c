/* cases_time.c: ticks and time-outs. What counts is the number of ticks in the log, not the time that the test took. */
#include "cases.h"
#include "check.h"
#include "frames.h"
#include "rig.h"

#include <stdio.h>
#include <string.h>
#include <time.h>

#define ROW_5 "row 5 7 11 0 3 0 44 44 44 44 44 44 44 255 255 255 255 255 255 255 0 0 0 0 0 0 0\n"

void silent_until_the_120th_tick(void)
{
    struct rig rig;
    unsigned long queued;
    unsigned long ended;

    rig_make(&rig, ROW_5);
    rig_start(&rig, "--speed 500 --silent 5");
    rig_pause(20);
    rig_send(&rig, setting_hex(UPDATE, FAN, 5, 7, 60));
    queued = rig_log(&rig, "queued controller fan 5 state 3 value 60, 1 waiting");
    ended = rig_log(&rig, "timed out controller fan 5 state 3");
    CHECK_SAYS(ended == queued + 120, "120 ticks: queued at %lu, timed out at %lu", queued, ended);
    /* no reply came, and the record is as before */
    rig_send(&rig, setting_hex(REQUEST, FAN, 5, 3, 0));
    rig_reply(&rig, setting_hex(REQUESTED, FAN, 5, 3, 0));
    rig_quiet(&rig);
    rig_end(&rig);
}

void a_place_is_free_again(void)
{
    struct rig rig;
    unsigned long first;
    unsigned long second;

    rig_make(&rig, ROW_5);
    rig_start(&rig, "--speed 500 --silent 5");
    rig_send(&rig, setting_hex(UPDATE, FAN, 5, 3, 60));
    rig_log(&rig, "queued controller fan 5 state 3 value 60, 1 waiting");
    first = rig_log(&rig, "timed out controller fan 5 state 3");
    rig_send(&rig, setting_hex(UPDATE, FAN, 5, 3, 61));
    second = rig_log(&rig, "queued controller fan 5 state 3 value 61, 1 waiting");
    CHECK(second >= first);
    CHECK(rig_log(&rig, "timed out controller fan 5 state 3") == second + 120);
    rig_quiet(&rig);
    rig_end(&rig);
}

void a_delay(void)
{
    struct rig rig;
    char frames[256];
    unsigned long queued;
    unsigned long confirmed;

    rig_make(&rig, RIG_ROW_1);
    rig_start(&rig, "--speed 200 --delay 17");
    /* in one write: until the value is confirmed a Request shows the old one */
    snprintf(frames, sizeof frames, "%s %s", setting_hex(UPDATE, COOL, 1, 2, 70), setting_hex(REQUEST, COOL, 1, 2, 0));
    rig_send(&rig, frames);
    queued = rig_log(&rig, "queued controller cool 1 state 2 value 70, 1 waiting");
    rig_reply(&rig, setting_hex(REQUESTED, COOL, 1, 2, 44));
    confirmed = rig_log(&rig, "confirmed controller cool 1 state 2 value 70");
    CHECK_SAYS(confirmed == queued + 17, "17 ticks: %lu, %lu", queued, confirmed);
    rig_reply(&rig, setting_hex(UPDATED, COOL, 1, 2, 70));
    rig_end(&rig);
    rig_make(&rig, RIG_ROW_1);
    rig_start(&rig, "--delay 0");
    rig_send(&rig, setting_hex(UPDATE, COOL, 1, 2, 70));
    queued = rig_log(&rig, "queued controller cool 1 state 2 value 70, 1 waiting");
    CHECK(rig_log(&rig, "confirmed controller cool 1 state 2 value 70") == queued);
    rig_reply(&rig, setting_hex(UPDATED, COOL, 1, 2, 70));
    rig_end(&rig);
}

/* Seven updates of a silent device wait before that of its neighbour, which is confirmed all the same. All come in one write. */
void neighbours_of_the_silent(void)
{
    struct rig rig;
    char frames[RIG_FRAME] = "";
    unsigned long first = 0;
    unsigned long last;

    rig_make(&rig, RIG_ROW_1 ROW_5);
    rig_start(&rig, "--speed 200 --silent 5");
    for (uint8_t i = 0; i < 7; i++) {
        strcat(frames, setting_hex(UPDATE, COOL, 5, i, 60));
    }
    rig_send(&rig, strcat(frames, setting_hex(UPDATE, FAN, 1, 0, 30)));
    for (uint8_t i = 0; i < 7; i++) {
        unsigned long queued = rig_log(&rig, "queued controller cool 5 state");

        first = i == 0 ? queued : first;
    }
    last = rig_log(&rig, "queued controller fan 1 state 0 value 30, 8 waiting");
    CHECK_SAYS(rig_log(&rig, "confirmed controller fan 1 state 0 value 30") == last + 1, "all are tried at the tick after %lu", last);
    rig_reply(&rig, setting_hex(UPDATED, FAN, 1, 0, 30));
    for (uint8_t i = 0; i < 7; i++) {
        CHECK(rig_log(&rig, "timed out controller cool 5 state") >= first + 120);
    }
    rig_quiet(&rig);
    rig_end(&rig);
}

static unsigned long real_time(void)
{
    struct timespec now;

    clock_gettime(CLOCK_MONOTONIC, &now);
    return (unsigned long)now.tv_sec * 1000 + (unsigned long)now.tv_nsec / 1000000;
}

/* Ticks are the whole seconds of the log's time; a line may come just before the tick of a second that has just begun. */
static bool ticks_are_seconds(const struct rig *rig)
{
    unsigned long time = rig_log_time(rig);
    unsigned long ticks = rig_log_ticks(rig);

    return ticks == time / 1000 || (ticks + 1 == time / 1000 && time % 1000 < 300);
}

/* Without a faster clock a second of the log is a real one. */
void a_second_is_a_second(void)
{
    struct rig rig;
    unsigned long logged = 0;
    unsigned long real = 0;
    long apart;

    rig_make(&rig, "");
    rig_start(&rig, "");
    for (unsigned i = 0; i < 6; i++) {
        rig_pause(i == 0 ? 0 : 620);
        rig_send(&rig, "ca 35");
        rig_log(&rig, "controller drop 4");
        CHECK_SAYS(ticks_are_seconds(&rig), "ticks are seconds: %s", rig.line);
        logged = i == 0 ? rig_log_time(&rig) : logged;
        real = i == 0 ? real_time() : real;
    }
    apart = (long)(rig_log_time(&rig) - logged) - (long)(real_time() - real);
    CHECK_SAYS(apart > -500 && apart < 500, "the log's time is real time: %ld ms apart", apart);
    CHECK(rig_log_ticks(&rig) >= 3);
    rig_end(&rig);
}
