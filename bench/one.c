/*
 * one.c: one pass of one timed line over one gateway, so that a counter of instructions sees nothing else (instructions.sh).
 *
 *     one                       prints the lines: key, unit, how many of it a pass has, name; parted by tabs
 *     one KEY proved|plain      makes a pass
 *     one listing FILE BYTES    writes so many bytes for the listing programs
 */
#include "lines.h"
#include "listings.h"
#include <stdio.h>
#include <stdlib.h>
#include <string.h>

static void print_unit(const line *l, const char *unit, size_t count)
{
    printf("%s\t%s\t%zu\t%s\n", l->key, unit, count, l->name);
}

static void print_lines(const lines *all)
{
    for (size_t i = 0; i < all->count; i++) {
        const line *l = &all->list[i];
        print_unit(l, l->unit, l->count);
        if (l->other_unit != NULL) {
            print_unit(l, l->other_unit, l->other_count);
        }
    }
}

static const line *find_line(const lines *all, const char *key)
{
    for (size_t i = 0; i < all->count; i++) {
        if (strcmp(all->list[i].key, key) == 0) {
            return &all->list[i];
        }
    }
    return NULL;
}

/* A pass over the gateway that the word names; false where it names none. */
static bool make_pass(const line *l, const char *word, const traffic *t)
{
    bool is_proved = strcmp(word, "proved") == 0;
    if (!is_proved && strcmp(word, "plain") != 0) {
        return false;
    }
    proved_prepare(t);
    plain_prepare(t);
    uint64_t sum = is_proved ? l->proved(t) : l->plain(t);
    printf("%s %s: %llx\n", word, l->key, (unsigned long long)sum);
    return true;
}

int main(int argc, char **argv)
{
    const traffic *t = traffic_make();
    lines all = lines_of(t);
    if (argc == 1) {
        print_lines(&all);
        return 0;
    }
    if (argc == 4 && strcmp(argv[1], "listing") == 0) {
        listings_input(argv[2], strtoul(argv[3], NULL, 10));
        return 0;
    }
    const line *l = argc == 3 ? find_line(&all, argv[1]) : NULL;
    if (l == NULL || !make_pass(l, argv[2], t)) {
        fprintf(stderr, "usage: one [KEY proved|plain] | one listing FILE BYTES\n");
        return 2;
    }
    return 0;
}
