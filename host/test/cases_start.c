/* cases_start.c: what keeps a gateway from being started: arguments, the table, the device. */
#include "cases.h"
#include "check.h"
#include "frames.h"
#include "rig.h"

#include <stdio.h>
#include <stdlib.h>
#include <string.h>
#include <unistd.h>

#define NONE_7 " 255 255 255 255 255 255 255"
#define NONE_20 NONE_7 NONE_7 " 255 255 255 255 255 255"
#define NONE_21 NONE_7 NONE_7 NONE_7

/* Reads all of the log. */
static size_t read_log(const struct rig *rig, char *text, size_t room)
{
    FILE *file = fopen(rig->log, "r");
    size_t length;

    CHECK(file != NULL);
    length = fread(text, 1, room - 1, file);
    text[length] = '\0';
    fclose(file);
    return length;
}

/* The program ends with the status, having said just one line, which has the words, and having served nothing. */
static void check_refused(struct rig *rig, const char *options, int status, const char *words)
{
    uint8_t byte;
    char text[2048];
    size_t length;
    int ended;

    rig_launch(rig, options);
    ended = rig_wait(rig);
    length = read_log(rig, text, sizeof text);
    CHECK_SAYS(ended == status, "status %d for '%s': %d", status, words, ended);
    CHECK_SAYS(strncmp(text, "tha-gateway: ", 13) == 0, "begins with the program's name: %s", text);
    CHECK_SAYS(strstr(text, words) != NULL, "says '%s': %s", words, text);
    CHECK_SAYS(strchr(text, '\n') == text + length - 1, "one line: %s", text);
    CHECK_SAYS(rig_pull(rig, &byte, 1) == 0, "nothing is served: %s", words);
    rig_end(rig);
}

static void refused_arguments(const char *options, bool bare, const char *words)
{
    struct rig rig;

    rig_make(&rig, "");
    rig.bare = bare;
    rig_send_bytes(&rig, rig_request, sizeof rig_request);
    check_refused(&rig, options, 2, words);
}

void wrong_arguments(void)
{
    refused_arguments("", true, "usage: tha-gateway ");
    refused_arguments("one", true, "usage: tha-gateway ");
    refused_arguments("--delay 3 one", true, "usage: tha-gateway ");
    refused_arguments("--delay", true, "--delay needs a number from 0 to 65535");
    refused_arguments("one-more", false, "usage: tha-gateway ");
    refused_arguments("--none 3", false, "--none is not an option");
    refused_arguments("--speed 0", false, "--speed needs a number from 1 to 1000");
    refused_arguments("--speed 1001", false, "--speed needs a number from 1 to 1000");
    refused_arguments("--firmware 65536", false, "--firmware needs a number from 0 to 65535");
    refused_arguments("--protocol -1", false, "--protocol needs a number from 0 to 65535");
    refused_arguments("--delay x", false, "--delay needs a number from 0 to 65535");
    refused_arguments("--silent 0x1g", false, "--silent needs a number from 0 to 65535");
    refused_arguments("--handover", true, "--handover needs a file");
    refused_arguments("--state", true, "--state needs a file");
    refused_arguments("--panel", true, "--panel needs a device");
    refused_arguments("--or-table", false, "--or-table needs --handover");
    refused_arguments("--handover one --state one", false, "--handover, --state and TABLE need a file each");
    refused_arguments("--handover two one two", true, "--handover, --state and TABLE need a file each");
    refused_arguments("--state two one two", true, "--handover, --state and TABLE need a file each");
    refused_arguments("--silent 1 --silent 1 --silent 1 --silent 1 --silent 1 --silent 1 --silent 1 --silent 1 --silent 1 --silent 1 "
                      "--silent 1 --silent 1 --silent 1 --silent 1 --silent 1 --silent 1 --silent 1 --silent 1 --silent 1 --silent 1 "
                      "--silent 1 --silent 1 --silent 1 --silent 1 --silent 1 --silent 1 --silent 1 --silent 1 --silent 1 --silent 1 "
                      "--silent 1 --silent 1 --silent 1",
                      false, "--silent is given more than 32 times");
}

/* The usage is no error. */
void asked_for_help(void)
{
    struct rig rig;

    rig_make(&rig, "");
    rig.bare = true;
    rig.error = CLOSED;
    rig_launch(&rig, "--help");
    CHECK(rig_wait(&rig) == 0);
    rig_end(&rig);
    refused_arguments("--help", false, "--help is not an option; usage: tha-gateway ");
}

static void refused_table(const char *table, const char *words)
{
    struct rig rig;

    rig_make(&rig, table);
    rig_send_bytes(&rig, rig_request, sizeof rig_request);
    check_refused(&rig, "", 1, words);
}

void wrong_tables(void)
{
    static char table[8192];

    refused_table(RIG_ROW_1 "\n# again\n" RIG_ROW_1, "/table:4: row refused 20 (a device has this address already)");
    refused_table("row 0 0 0 0 0 0" NONE_21 "\n", "/table:1: row refused 19 (the row breaks the rules of a row)");
    for (int i = 1; i <= 33; i++) {
        sprintf(table + strlen(table), "row %d 0 0 0 0 0" NONE_21 "\n", i);
    }
    refused_table(table, "/table:33: row refused 21 (32 devices are there already)");
    memset(table, ' ', 4097);
    table[0] = '#';
    strcpy(table + 4097, "\n");
    refused_table(table, "/table:1: a line of more than 4096 bytes");
}

void wrong_table_lines(void)
{
    refused_table("\n\ntick 3\n", "/table:3: not a row line");
    refused_table("Row 1 0 0 0 0 0" NONE_21 "\n", "/table:1: not a row line");
    refused_table("row\t1 0 0 0 0 0" NONE_21 "\n", "/table:1: not a row line");
    refused_table("row\n", "/table:1: 0 numbers, a row has 27");
    refused_table("row 1 0 0 0 0 0" NONE_20 "\n", "/table:1: 26 numbers, a row has 27");
    refused_table("row 1 0 0 0 0 0" NONE_21 " 1\n", "/table:1: more than 27 numbers");
    refused_table("row 65536 0 0 0 0 0" NONE_21 "\n", "/table:1: ADDRESS is not a number from 0 to 65535");
    refused_table("row 1 4294967296 0 0 0 0" NONE_21 "\n", "/table:1: VERSION is not a number from 0 to 4294967295");
    refused_table("row 1 0 0x10000 0 0 0" NONE_21 "\n", "/table:1: MASK is not a number from 0 to 65535");
    refused_table("row 1 0 0 256 0 0" NONE_21 "\n", "/table:1: MODE is not a number from 0 to 255");
    refused_table("row 1 0 0 0 -1 0" NONE_21 "\n", "/table:1: STATE is not a number from 0 to 255");
    refused_table("row 1 0 0 0 0 0X1" NONE_21 "\n", "/table:1: EVENTS is not a number from 0 to 255");
    refused_table("row 1 0 0 0 0 0 0x" NONE_20 "\n", "/table:1: C0 is not a number from 0 to 255");
    refused_table("row 1 0 0 0 0 0" NONE_7 " 256" NONE_20 "\n", "/table:1: S0 is not a number from 0 to 255");
    refused_table("row 1 0 0 0 0 0" NONE_21 "\r\n", "/table:1: F6 is not a number from 0 to 255");
}

void no_table(void)
{
    struct rig rig;

    rig_make(&rig, "");
    unlink(rig.table);
    check_refused(&rig, "", 1, "/table: No such file or directory");
    rig_make(&rig, "");
    unlink(rig.table);
    strcpy(rig.table, rig.directory);
    check_refused(&rig, "", 1, ": Is a directory");
}

/* Spaces, comments, hex, leading zeros, a longest line and a last line without newline; the rows answer with what stands there. */
void good_tables(void)
{
    static char table[8192];
    struct rig rig;

    memset(table, 'x', 4096);
    table[0] = '#';
    strcpy(table + 4096, "\n\n   \n  # a comment\n"
                         "  row   010 0xAbCdEf01 0x0B 3 6 2 1 2 3 4 5 6 7" NONE_7 " 11 12 13 14 15 16 100  \n"
                         "row 0xffff 4294967295 000000000000000000000015 6 0 0 0 0 0 0 0 0 254 0 0 0 0 0 0 254 0 0 0 0 0 0 0");
    rig_make(&rig, table);
    rig_start(&rig, "");
    rig_send(&rig, "ca 0b 06 01 9f 01 00 00 0a 00 00 00 00 00 bc 35");
    rig_reply(&rig, "ca 0b 06 04 9f 01 00 00 0a 00 01 ef cd ab 27 35");
    for (uint8_t state = 0; state < 7; state++) {
        rig_send(&rig, setting_hex(REQUEST, COOL, 10, state, 0));
        rig_reply(&rig, setting_hex(REQUESTED, COOL, 10, state, (uint8_t)(state + 1)));
        rig_send(&rig, setting_hex(REQUEST, FAN, 10, state, 0));
        rig_reply(&rig, setting_hex(REQUESTED, FAN, 10, state, state == 6 ? 100 : (uint8_t)(state + 11)));
        rig_send(&rig, setting_hex(REQUEST, SLAB, 0xFFFF, state, 0));
        rig_reply(&rig, setting_hex(REQUESTED, SLAB, 0xFFFF, state, state == 6 ? 254 : 0));
    }
    rig_end(&rig);
}

static void refused_device(const char *path, const char *words)
{
    struct rig rig;

    rig_make(&rig, RIG_ROW_1);
    rig_point(&rig, path);
    check_refused(&rig, "", 1, words);
}

void wrong_devices(void)
{
    refused_device("/nowhere/line", "/line: No such file or directory");
    refused_device("/dev/null", "/line: not a serial line");
    refused_device("/", "/line: Is a directory");
    refused_device("table", "/line: not a serial line");
}

/* A second process on the same line is refused; the first goes on. */
void one_process_a_line(void)
{
    struct rig rig;
    struct rig second;

    rig_make(&rig, RIG_ROW_1);
    rig_start(&rig, "");
    rig_make(&second, RIG_ROW_1);
    rig_point(&second, ptsname(rig.master));
    check_refused(&second, "", 1, "/line: another process holds this line");
    rig_quiet(&rig);
    rig_end(&rig);
}

/* The panel's device is at path, or at that of the controller's line where path is NULL. */
static void refused_panel(const char *path, const char *words)
{
    struct rig rig;
    struct rig panel;
    char kept[RIG_PATH] = "";

    if (path != NULL) {
        strcpy(kept, path); /* ptsname's text is gone with the next one */
    }
    rig_make_both(&rig, &panel, RIG_ROW_1);
    rig_send_bytes(&rig, rig_request, sizeof rig_request);
    rig_point(&panel, path != NULL ? kept : ptsname(rig.master));
    check_refused(&rig, "", 1, words);
    rig_end(&panel);
}

/* Without its panel's device, or with one device for both lines, nothing is served, on either line. */
void wrong_panels(void)
{
    struct rig rig;
    struct rig other;

    refused_panel("/nowhere/line", "/line: No such file or directory");
    refused_panel("/dev/null", "/line: not a serial line");
    refused_panel(NULL, "/line: the other line has this device");
    /* the same name for both */
    rig_make(&rig, RIG_ROW_1);
    rig.panel = &rig;
    check_refused(&rig, "", 1, "/line: the other line has this device");
    /* another process has the panel's */
    rig_make_both(&rig, &other, RIG_ROW_1);
    rig_start(&rig, "");
    refused_panel(ptsname(other.master), "/line: another process holds this line");
    refused_panel(ptsname(rig.master), "/line: another process holds this line");
    rig_quiet(&rig);
    rig_quiet(&other);
    rig_end(&rig);
    rig_end(&other);
}
