/* play.c: plays a file of exchanges (see exchanges.txt), each on a gateway of its own. */
#include "play.h"

#include "check.h"
#include "rig.h"

#include <stdbool.h>
#include <stdio.h>
#include <string.h>

struct player {
    bool waiting; /* a case is named and not started yet */
    bool running;
    unsigned cases;
    char table[4096];
    char options[256];
    struct rig rig;
};

static void end_case(struct player *player)
{
    if (player->running) {
        rig_end(&player->rig);
    }
    player->running = false;
}

static void begin_case(struct player *player)
{
    end_case(player);
    player->waiting = true;
    player->cases += 1;
    player->table[0] = '\0';
    player->options[0] = '\0';
}

/* The rest of the line where it begins with the word, else NULL. */
static const char *after(const char *line, const char *word)
{
    size_t length = strlen(word);

    if (strncmp(line, word, length) != 0) {
        return NULL;
    }
    return line[length] == ' ' ? line + length + 1 : line + length;
}

/* A line that says what a case starts with. */
static bool take_setup(struct player *player, const char *line)
{
    const char *rest;

    if (after(line, "case ") != NULL) {
        begin_case(player);
    } else if (after(line, "row ") != NULL) {
        strcat(strcat(player->table, line), "\n");
    } else if ((rest = after(line, "options")) != NULL) {
        strcpy(player->options, rest);
    } else {
        return false;
    }
    return true;
}

static void take_step(struct player *player, const char *line)
{
    const char *rest;

    if (player->waiting) {
        rig_make(&player->rig, player->table);
        rig_start(&player->rig, player->options);
        player->waiting = false;
        player->running = true;
    }
    if ((rest = after(line, "send")) != NULL) {
        rig_send(&player->rig, rest);
    } else if ((rest = after(line, "reply")) != NULL) {
        rig_reply(&player->rig, rest);
    } else if ((rest = after(line, "log")) != NULL) {
        rig_log(&player->rig, rest);
    } else {
        CHECK_SAYS(strcmp(line, "quiet") == 0, "a step: %s", line);
        rig_quiet(&player->rig);
    }
}

void play(const char *path)
{
    static struct player player;
    char line[1024];
    FILE *file = fopen(path, "r");

    CHECK_SAYS(file != NULL, "%s can be read", path);
    while (fgets(line, sizeof line, file) != NULL) {
        line[strcspn(line, "\n")] = '\0';
        if (line[0] != '#' && line[0] != '\0' && !take_setup(&player, line)) {
            take_step(&player, line);
        }
    }
    fclose(file);
    end_case(&player);
    CHECK_SAYS(player.cases == 18, "all exchanges are there: %u", player.cases);
}
