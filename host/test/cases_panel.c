/* cases_panel.c: a second line, the panel's: each answer goes to the line that asked, and no line holds up the other. */
#include "cases.h"
#include "check.h"
#include "frames.h"
#include "rig.h"

#include <signal.h>
#include <stdio.h>
#include <stdlib.h>
#include <string.h>

#define ROW_5 "row 5 7 11 0 3 0 44 44 44 44 44 44 44 255 255 255 255 255 255 255 0 0 0 0 0 0 0\n"

static void make_both(struct rig *rig, struct rig *panel)
{
    rig_make_both(rig, panel, RIG_ROW_1 ROW_5);
}

static void end_both(struct rig *rig, struct rig *panel)
{
    rig_end(rig);
    rig_end(panel);
}

/* Nothing is on its way on either line. */
static void both_quiet(struct rig *rig, struct rig *panel)
{
    rig_quiet(rig);
    rig_quiet(panel);
}

/* The lines share table, queue and numbers; replies and log lines know whose they are. */
void answers_to_who_asked(void)
{
    struct rig rig;
    struct rig panel;
    unsigned long queued;

    make_both(&rig, &panel);
    rig_start(&rig, "--speed 50 --delay 40 --silent 5");
    CHECK(strstr(rig.line, "/line and panel ") != NULL && strstr(rig.line, ", 2 devices, since ") != NULL);
    both_quiet(&rig, &panel);
    rig_send(&panel, setting_hex(UPDATE, FAN, 1, 3, 80));
    rig_log(&rig, "queued panel fan 1 state 3 value 80, 1 waiting");
    rig_send(&rig, setting_hex(UPDATE, COOL, 1, 2, 70));
    rig_log(&rig, "queued controller cool 1 state 2 value 70, 2 waiting");
    rig_reply(&panel, setting_hex(UPDATED, FAN, 1, 3, 80));
    rig_log(&rig, "confirmed panel fan 1 state 3 value 80");
    rig_reply(&rig, setting_hex(UPDATED, COOL, 1, 2, 70));
    rig_log(&rig, "confirmed controller cool 1 state 2 value 70");
    CHECK(rig_get(&rig, FAN, 3) == 80 && rig_get(&panel, FAN, 3) == 80 && rig_get(&panel, COOL, 2) == 70);
    /* a field of one line is taken for the other */
    rig_send(&panel, setting_hex(UPDATE, FAN, 5, 0, 60));
    queued = rig_log(&rig, "queued panel fan 5 state 0 value 60, 1 waiting");
    rig_send(&rig, setting_hex(UPDATE, FAN, 5, 0, 61));
    rig_log(&rig, "controller refused 15 (an update of the field waits already)");
    rig_send(&panel, "ca 01 06 07 35");
    rig_log(&rig, "panel drop 4 body 3 (EOF too early)");
    CHECK(rig_log(&rig, "timed out panel fan 5 state 0") == queued + 120);
    both_quiet(&rig, &panel);
    end_both(&rig, &panel);
}

/* A packet that is open on one line is not touched by those of the other, whichever is cut where. */
void packets_side_by_side(void)
{
    struct rig rig;
    struct rig panel;

    make_both(&rig, &panel);
    rig_start(&rig, "");
    for (size_t split = 1; split < RIG_REQUEST; split++) {
        struct rig *one = split % 2 == 0 ? &rig : &panel;
        struct rig *other = split % 2 == 0 ? &panel : &rig;

        rig_send_bytes(one, rig_request, split);
        rig_taken(one);
        rig_quiet(other);
        rig_send_bytes(other, rig_request, RIG_REQUEST - split);
        rig_taken(other);
        rig_send_bytes(one, rig_request + split, RIG_REQUEST - split);
        rig_reply_bytes(one, rig_answer, sizeof rig_answer);
        rig_send_bytes(other, rig_request + RIG_REQUEST - split, split);
        rig_reply_bytes(other, rig_answer, sizeof rig_answer);
    }
    CHECK_SAYS(!rig_next_line(&rig), "nothing is dropped or refused: %s", rig.line);
    end_both(&rig, &panel);
}

/* A panel that sends Updates of a silent device again and again: fourteen fields, of which eight fit. */
struct flood {
    struct rig *panel;
    uint8_t bytes[14 * 32];
    size_t length;
    size_t place;
    unsigned long sent; /* bytes */
};

static void make_flood(struct flood *flood, struct rig *panel)
{
    memset(flood, 0, sizeof *flood);
    flood->panel = panel;
    for (uint8_t i = 0; i < 14; i++) {
        const uint8_t fields[] = {5, 0, i % 7, 60};

        flood->length += record_frame(flood->bytes + flood->length, UPDATE, i < 7 ? COOL : FAN, fields, sizeof fields);
    }
}

/* Sends as much as the line takes now. */
static void pour(struct flood *flood)
{
    size_t moved;

    do {
        moved = rig_push(flood->panel, flood->bytes + flood->place, flood->length - flood->place);
        flood->place = (flood->place + moved) % flood->length;
        flood->sent += moved;
    } while (moved > 0);
}

/* The controller's next reply, while the panel goes on. */
static void reply_under_flood(struct rig *rig, struct flood *flood, const char *hex)
{
    uint8_t wanted[RIG_FRAME];
    uint8_t found[RIG_FRAME] = {0};
    size_t length = rig_bytes(hex, wanted, sizeof wanted);
    size_t count = 0;

    for (int waited = 0; count < length && waited < RIG_PATIENCE; waited += RIG_STEP) {
        pour(flood);
        count += rig_pull(rig, found + count, length - count);
        rig_pause(RIG_STEP);
    }
    CHECK_SAYS(count == length && memcmp(wanted, found, length) == 0, "a reply to the controller: %s", hex);
}

/* What the log says of a flood. */
struct tally {
    unsigned panel_queued;
    unsigned panel_ended;    /* timed out */
    struct rig_counts panel; /* its drops and refusals */
    unsigned most;           /* the most of the panel that waited at a time */
    unsigned confirmed;      /* the controller's */
    unsigned long queued;    /* the ticks of the controller's last update, and the longest wait for a confirmation */
    unsigned long longest;
};

static void tally_line(struct tally *tally, const char *line)
{
    unsigned long ticks = 0;
    int past = 0;
    const char *words;

    NEED(sscanf(line, "%*u.%*u tick %lu %n", &ticks, &past) == 1);
    words = line + past;
    tally->panel_queued += strncmp(words, "queued panel ", 13) == 0;
    tally->panel_ended += strncmp(words, "timed out panel ", 16) == 0;
    rig_count(&tally->panel, line, "panel");
    if (tally->panel_queued - tally->panel_ended > tally->most) {
        tally->most = tally->panel_queued - tally->panel_ended;
    }
    if (strncmp(words, "queued controller ", 18) == 0) {
        tally->queued = ticks;
    } else if (strncmp(words, "confirmed controller ", 21) == 0) {
        tally->confirmed += 1;
        tally->longest = ticks - tally->queued > tally->longest ? ticks - tally->queued : tally->longest;
    }
}

static struct tally tally_log(const struct rig *rig)
{
    struct tally tally = {.panel_queued = 0};
    char line[RIG_LINE];
    FILE *log = fopen(rig->log, "r");

    NEED(log != NULL);
    while (fgets(line, sizeof line, log) != NULL && strchr(line, '\n') != NULL) {
        tally_line(&tally, line);
    }
    fclose(log);
    return tally;
}

/* The panel fills its eight places and goes on; each of the controller's Updates and Requests goes through meanwhile. */
void panel_that_floods(void)
{
    enum { UPDATES = 21 };
    struct rig rig;
    struct rig panel;
    struct flood flood;
    struct tally tally;

    make_both(&rig, &panel);
    make_flood(&flood, &panel);
    rig_start(&rig, "--speed 20 --delay 2 --silent 5");
    for (int waited = 0; waited < RIG_PATIENCE && tally_log(&rig).panel.numbers[16] == 0; waited += RIG_STEP) {
        pour(&flood);
        rig_pause(RIG_STEP);
    }
    for (uint8_t i = 0; i < UPDATES; i++) {
        rig_send(&rig, setting_hex(UPDATE, COOL, 1, i % 7, 60 + i));
        reply_under_flood(&rig, &flood, setting_hex(UPDATED, COOL, 1, i % 7, 60 + i));
        rig_send(&rig, setting_hex(REQUEST, COOL, 1, i % 7, 0));
        reply_under_flood(&rig, &flood, setting_hex(REQUESTED, COOL, 1, i % 7, 60 + i));
    }
    tally = tally_log(&rig);
    CHECK_SAYS(tally.most == 8 && tally.panel.numbers[16] > 100, "the panel has eight places: %u, %lu refused", tally.most,
               tally.panel.numbers[16]);
    CHECK_SAYS(tally.confirmed == UPDATES && tally.longest <= 3, "the controller's wait as ever: %u, %lu ticks", tally.confirmed,
               tally.longest);
    CHECK_SAYS(flood.sent > 8192, "the panel goes on: %lu bytes", flood.sent);
    end_both(&rig, &panel);
}

/* Log words with the line's name. */
static const char *says(const char *format, const char *name)
{
    static char words[RIG_LINE];

    snprintf(words, sizeof words, format, name);
    return words;
}

/* One line goes away with an update at the head of the queue. The other's go through; it is confirmed when the line is back. */
static void lost_beside(struct rig *rig, struct rig *lost, struct rig *kept, const char *lost_name, const char *kept_name)
{
    rig_start(rig, "--speed 10 --delay 15");
    rig_send(lost, setting_hex(UPDATE, FAN, 1, 3, 80));
    rig_log(rig, says("queued %s fan 1 state 3 value 80, 1 waiting", lost_name));
    rig_hang_up(lost);
    rig_log(rig, says("%s line lost: ", lost_name));
    rig_log(rig, says("%s line not back: No such file or directory", lost_name));
    rig_send(kept, setting_hex(UPDATE, COOL, 1, 2, 70));
    rig_log(rig, says("queued %s cool 1 state 2 value 70, 2 waiting", kept_name));
    rig_reply(kept, setting_hex(UPDATED, COOL, 1, 2, 70));
    rig_log(rig, says("confirmed %s cool 1 state 2 value 70", kept_name));
    rig_quiet(kept);
    rig_new_line(lost);
    rig_log(rig, says("%s line back: ", lost_name));
    rig_log(rig, says("confirmed %s fan 1 state 3 value 80", lost_name));
    rig_reply(lost, setting_hex(UPDATED, FAN, 1, 3, 80));
    CHECK(rig_get(lost, COOL, 2) == 70 && rig_get(kept, FAN, 3) == 80);
    rig_quiet(lost);
    rig_quiet(kept);
    /* and it can be lost again, and the other with it */
    rig_hang_up(lost);
    rig_log(rig, says("%s line lost: ", lost_name));
    rig_hang_up(kept);
    rig_log_until(rig, says("%s line lost: ", kept_name));
    rig_new_line(kept);
    rig_log_until(rig, says("%s line back: ", kept_name));
    rig_quiet(kept);
    rig_new_line(lost);
    rig_log_until(rig, says("%s line back: ", lost_name));
    rig_quiet(lost);
}

void line_lost_beside_another(void)
{
    struct rig rig;
    struct rig panel;

    make_both(&rig, &panel);
    lost_beside(&rig, &panel, &rig, "panel", "controller");
    end_both(&rig, &panel);
    make_both(&rig, &panel);
    lost_beside(&rig, &rig, &panel, "controller", "panel");
    end_both(&rig, &panel);
}

/*
 * Reads the replies to so many bytes of Requests, whose last one is sent to its end meanwhile, and to an Update that was sent before.
 * Each Request and the Update are answered once.
 */
static void read_answers(struct rig *rig, size_t sent)
{
    size_t whole = (sent + RIG_REQUEST - 1) / RIG_REQUEST * RIG_REQUEST;
    struct reply_reader reader = {.inside = false};
    size_t answers = 0;
    size_t updates = 0;
    int waited = 0;
    uint8_t byte;

    while (answers + updates < whole / RIG_REQUEST + 1 && waited < RIG_PATIENCE) {
        sent += sent < whole ? rig_push(rig, rig_request + sent % RIG_REQUEST, whole - sent) : 0;
        if (rig_pull(rig, &byte, 1) == 0) {
            rig_pause(1);
            waited += 1;
        } else if (reply_byte(&reader, byte)) {
            bool is_answer = memcmp(reader.body, rig_answer + 1, RIG_REQUEST - 2) == 0;

            NEED(is_answer || reader.body[2] == UPDATED);
            answers += is_answer;
            updates += !is_answer;
        }
    }
    CHECK_SAYS(updates == 1 && answers == whole / RIG_REQUEST, "all is answered: %zu Updates, %zu of %zu Requests", updates, answers,
               whole / RIG_REQUEST);
}

/* One line sends and does not read, with an update at the head of the queue. The other's go through; then all is answered. */
static void not_read_beside(struct rig *rig, struct rig *unread, struct rig *kept, const char *unread_name, const char *kept_name)
{
    size_t sent;

    rig_start(rig, "--speed 10 --delay 30"); /* three seconds to fill the line */
    rig_send(unread, setting_hex(UPDATE, FAN, 1, 3, 80));
    rig_log(rig, says("queued %s fan 1 state 3 value 80, 1 waiting", unread_name));
    sent = rig_fill(unread);
    for (uint8_t i = 0; i < 3; i++) {
        rig_send(kept, setting_hex(UPDATE, COOL, 1, i, 70));
        rig_log(rig, says("queued %s cool 1 state", kept_name));
        rig_quiet(kept);
    }
    for (uint8_t i = 0; i < 3; i++) {
        rig_reply(kept, setting_hex(UPDATED, COOL, 1, i, 70));
        rig_log(rig, says("confirmed %s cool 1 state", kept_name));
    }
    rig_quiet(kept);
    read_answers(unread, sent);
    rig_log(rig, says("confirmed %s fan 1 state 3 value 80", unread_name));
    rig_quiet(unread);
    rig_quiet(kept);
}

void line_not_read_beside_another(void)
{
    struct rig rig;
    struct rig panel;

    make_both(&rig, &panel);
    not_read_beside(&rig, &panel, &rig, "panel", "controller");
    end_both(&rig, &panel);
    make_both(&rig, &panel);
    not_read_beside(&rig, &rig, &panel, "controller", "panel");
    end_both(&rig, &panel);
}

/* The panel's line is lost, and its name is then one of the controller's device: that one goes on, and the panel's is not back. */
void panel_at_the_controllers_device(void)
{
    struct rig rig;
    struct rig panel;

    make_both(&rig, &panel);
    rig_start(&rig, "--speed 10");
    rig_hang_up(&panel);
    rig_log(&rig, "panel line lost: ");
    rig_point(&panel, ptsname(rig.master));
    rig_log_until(&rig, "panel line not back: the other line has this device");
    rig_quiet(&rig);
    rig_new_line(&panel);
    rig_log(&rig, "panel line back: ");
    both_quiet(&rig, &panel);
    end_both(&rig, &panel);
}

/* Sends the rest of a Request, of which a part was sent, and another one. */
static void send_rest(struct rig *rig, size_t part)
{
    rig_send_bytes(rig, rig_request + part, RIG_REQUEST - part);
    rig_send_bytes(rig, rig_request, RIG_REQUEST);
}

/* What waits, and a packet that is open, is answered on either line before the end; what comes then is the next gateway's. */
void panel_at_the_end(void)
{
    struct rig rig;
    struct rig panel;

    make_both(&rig, &panel);
    rig_start(&rig, rig_options(&rig, "--speed 2 --delay 3 --handover @h"));
    rig_send(&panel, setting_hex(UPDATE, FAN, 1, 3, 80));
    rig_log_until(&rig, "queued panel fan 1 state 3 value 80, 1 waiting");
    rig_send(&rig, setting_hex(UPDATE, COOL, 1, 2, 70));
    rig_log(&rig, "queued controller cool 1 state 2 value 70, 2 waiting");
    rig_send_bytes(&rig, rig_request, 5);
    rig_send_bytes(&panel, rig_request, 7);
    rig_taken(&rig);
    rig_taken(&panel);
    rig_signal(&rig, SIGTERM);
    rig_log(&rig, "stops reading, 2 waiting");
    send_rest(&rig, 5);
    send_rest(&panel, 7);
    rig_reply_bytes(&rig, rig_answer, sizeof rig_answer);
    rig_reply_bytes(&panel, rig_answer, sizeof rig_answer);
    rig_reply(&rig, setting_hex(UPDATED, COOL, 1, 2, 70));
    rig_reply(&panel, setting_hex(UPDATED, FAN, 1, 3, 80));
    CHECK(rig_wait(&rig) == 0);
    rig_log_until(&rig, "drained after");
    CHECK_SAYS(strstr(rig.line, "0 bytes not sent, 0 not answered") != NULL, "nothing is left: %s", rig.line);
    rig_start(&rig, rig_options(&rig, "--handover @h"));
    rig_log(&rig, "records from the hand-over ");
    rig_reply_bytes(&rig, rig_answer, sizeof rig_answer);
    rig_reply_bytes(&panel, rig_answer, sizeof rig_answer);
    CHECK(rig_get(&rig, FAN, 3) == 80 && rig_get(&panel, COOL, 2) == 70);
    both_quiet(&rig, &panel);
    end_both(&rig, &panel);
}

/* A panel that does not read holds up the end for 120 ticks, and no reply to the controller; one that is lost does not hold it up. */
void panel_not_read_at_the_end(void)
{
    struct rig rig;
    struct rig panel;

    make_both(&rig, &panel);
    rig_start(&rig, rig_options(&rig, "--speed 50 --delay 40 --handover @h"));
    rig_fill(&panel);
    rig_send(&rig, setting_hex(UPDATE, COOL, 1, 2, 70));
    rig_log_until(&rig, "queued controller cool 1 state 2 value 70, 1 waiting");
    rig_signal(&rig, SIGTERM);
    rig_reply(&rig, setting_hex(UPDATED, COOL, 1, 2, 70));
    rig_log_until(&rig, "drained after 120 ticks");
    CHECK(strstr(rig.line, ", 0 bytes not sent") == NULL);
    CHECK(rig_wait(&rig) == 0 && rig_has(rig.handover, ""));
    rig_hang_up(&panel);
    rig_new_line(&panel);
    rig_start(&rig, rig_options(&rig, "--handover @h"));
    both_quiet(&rig, &panel);
    rig_hang_up(&panel);
    rig_log_until(&rig, "panel line lost: ");
    rig_signal(&rig, SIGTERM);
    rig_log_until(&rig, "drained after 0 ticks, 0 bytes not sent, 0 not answered");
    CHECK(rig_wait(&rig) == 0);
    end_both(&rig, &panel);
}
