/* part_files.c: the files that outlive a gateway: replaced whole, the state file at every length, the hand-over file there and back. */
#include "../handover.h"
#include "../state.h"
#include "check.h"
#include "frames.h"
#include "parts.h"
#include "same.h"

#include <stdio.h>
#include <stdlib.h>
#include <string.h>
#include <sys/stat.h>
#include <unistd.h>

enum { TEXT_ROOM = 65536 };

/* A directory for a case, which is then where it works. */
static void enter_directory(char name[32])
{
    strcpy(name, "/tmp/tha-files-XXXXXX");
    NEED(mkdtemp(name) != NULL && chdir(name) == 0);
}

static void leave_directory(const char *name)
{
    NEED(chdir("/") == 0);
    CHECK_SAYS(rmdir(name) == 0, "nothing else is left in the directory");
}

static size_t contents(const char *path, char *text)
{
    FILE *file = fopen(path, "r");
    size_t length;

    NEED(file != NULL);
    length = fread(text, 1, TEXT_ROOM, file);
    fclose(file);
    return length;
}

static void put(const char *path, const void *bytes, size_t length)
{
    FILE *file = fopen(path, "w");

    NEED(file != NULL && fwrite(bytes, 1, length, file) == length && fclose(file) == 0);
}

void replaced_whole(void)
{
    static char text[TEXT_ROOM];
    char directory[32];
    char error[FILES_ERROR_ROOM] = "";

    enter_directory(directory);
    CHECK(file_can_be_made("one", error) && file_can_be_made("./one", error) && file_can_be_made("/one", error));
    CHECK(!file_can_be_made("none/one", error) && strcmp(error, "No such file or directory") == 0);
    CHECK(file_find("one", error) == FILE_NOT_THERE && file_find(".", error) == FILE_UNFIT);
    put("one.new", "left by one that was killed", 27);
    CHECK(file_replace("one", "first", 5, error) && contents("one", text) == 5 && memcmp(text, "first", 5) == 0);
    CHECK(file_replace("./one", "2nd", 3, error) && contents("one", text) == 3 && memcmp(text, "2nd", 3) == 0);
    CHECK(file_find("one", error) == FILE_THERE && file_find("one.new", error) == FILE_NOT_THERE);
    CHECK(!file_replace("none/one", "third", 5, error) && strcmp(error, "No such file or directory") == 0);
    NEED(mkdir("one.new", 0700) == 0);
    CHECK(!file_replace("one", "third", 5, error) && contents("one", text) == 3);
    CHECK(!file_can_be_made("one/two", error) && strcmp(error, "Not a directory") == 0);
    NEED(rmdir("one.new") == 0);
    CHECK(file_rename("one", "two", error) && file_find("one", error) == FILE_NOT_THERE && file_find("two", error) == FILE_THERE);
    CHECK(file_take_away("two", error) && file_find("two", error) == FILE_NOT_THERE);
    CHECK(!file_take_away("two", error) && !file_rename("two", "one", error));
    leave_directory(directory);
}

/* A row with the largest numbers. */
static tha_row large_row(size_t place)
{
    tha_row row = {.address = (uint16_t)(65535 - place), .version = 4294967295u, .mask = 15, .mode = 6, .state = 6, .events = 2};

    memset(row.cool, 254, THA_STATES);
    memset(row.slab, 254, THA_STATES);
    memset(row.fan, 100, THA_STATES);
    row.cool[0] = 0;
    row.slab[3] = 1;
    row.fan[6] = 2;
    return row;
}

static tha_gateway large_gateway(size_t rows)
{
    tha_gateway gateway = tha_fresh(1, 2);

    for (size_t i = 0; i < rows; i++) {
        gateway = tha_add(gateway, large_row(i)).gateway;
    }
    NEED(gateway.table.count == rows);
    return gateway;
}

static void check_state_round(size_t rows)
{
    tha_gateway gateway = large_gateway(rows);
    tha_gateway found = tha_fresh(1, 2);
    char error[TABLE_ERROR_ROOM] = "";

    CHECK(state_write("state", &gateway.table, error));
    CHECK_SAYS(state_load("state", &found, error), "read: %s", error);
    CHECK(same_table(&found.table, &gateway.table));
}

void state_there_and_back(void)
{
    char directory[32];

    enter_directory(directory);
    check_state_round(0);
    check_state_round(1);
    check_state_round(THA_ROWS);
    unlink("state");
    leave_directory(directory);
}

/* Cut at every length it is refused, also where a line ends. */
void state_cut_anywhere(void)
{
    static char text[TEXT_ROOM];
    tha_gateway gateway = large_gateway(3);
    char directory[32];
    char error[TABLE_ERROR_ROOM];
    size_t length;

    enter_directory(directory);
    CHECK(state_write("state", &gateway.table, error));
    length = contents("state", text);
    for (size_t cut = 0; cut < length; cut++) {
        tha_gateway found = tha_fresh(1, 2);

        put("state", text, cut);
        CHECK_SAYS(!state_load("state", &found, error), "cut at %zu of %zu", cut, length);
    }
    unlink("state");
    leave_directory(directory);
}

static void check_hand_over_round(size_t rows)
{
    tha_gateway gateway = large_gateway(rows);
    tha_gateway found;
    char error[HANDOVER_ERROR_ROOM] = "";

    CHECK(handover_write("handover", &gateway, error));
    CHECK_SAYS(handover_read("handover", 8, 9, &found, error) == HANDOVER_READ, "read: %s", error);
    CHECK(same_gateway(&found, &gateway));
}

void hand_over_there_and_back(void)
{
    char directory[32];
    char error[HANDOVER_ERROR_ROOM] = "";
    tha_gateway found;

    enter_directory(directory);
    check_hand_over_round(0);
    check_hand_over_round(1);
    check_hand_over_round(THA_ROWS);
    unlink("handover");
    CHECK(handover_read("handover", 8, 9, &found, error) == HANDOVER_UNREAD && strcmp(error, "No such file or directory") == 0);
    leave_directory(directory);
}

/* The longest hand-over, every byte of it escaped, and files that run on behind it, for long. */
void longest_hand_over(void)
{
    static char text[TEXT_ROOM];
    static uint8_t bytes[1 << 20];
    tha_gateway gateway = large_gateway(THA_ROWS);
    tha_gateway found;
    char directory[32];
    char error[HANDOVER_ERROR_ROOM];
    size_t length;
    size_t count = 1;

    enter_directory(directory);
    CHECK(handover_write("handover", &gateway, error));
    length = contents("handover", text);
    bytes[0] = (uint8_t)text[0];
    for (size_t i = 1; i < length; i++) {
        uint8_t byte = (uint8_t)text[i];
        bool escaped = byte == 0x2F;

        byte = escaped ? (uint8_t)text[++i] : byte;
        if (escaped || (byte != 0xCA && byte != 0x35)) {
            bytes[count++] = 0x2F;
        }
        bytes[count++] = byte;
    }
    CHECK(count <= HANDOVER_MOST);
    put("handover", bytes, count);
    CHECK(handover_read("handover", 8, 9, &found, error) == HANDOVER_READ && same_gateway(&found, &gateway));
    for (size_t more = 1; count + more <= sizeof bytes; more *= 4) {
        put("handover", bytes, count + more);
        CHECK(handover_read("handover", 8, 9, &found, error) == HANDOVER_REFUSED && strncmp(error, "hand-over refused 25 ", 21) == 0);
    }
    unlink("handover");
    leave_directory(directory);
}

/* Nothing is written while an update waits, whatever stood there. */
void no_hand_over_while_one_waits(void)
{
    static char text[TEXT_ROOM];
    tha_result result = {.gateway = large_gateway(1)};
    uint8_t frame[64];
    uint8_t reply[THA_REPLY_ROOM];
    size_t length = record_frame(frame, UPDATE, FAN, (const uint8_t[]){0xFF, 0xFF, 3, 50}, 4);
    char directory[32];
    char error[HANDOVER_ERROR_ROOM];

    for (size_t i = 0; i < length; i++) {
        result = tha_byte(result.gateway, THA_PANEL, frame[i], reply, sizeof reply);
    }
    NEED(result.answer.outcome == THA_QUEUED);
    enter_directory(directory);
    put("handover", "before", 6);
    CHECK(!handover_write("handover", &result.gateway, error) && strcmp(error, "hand-over refused 23 (updates wait)") == 0);
    CHECK(contents("handover", text) == 6 && file_find("handover.new", error) == FILE_NOT_THERE);
    unlink("handover");
    leave_directory(directory);
}
