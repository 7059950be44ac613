/*
 * bench.c: the benchmark: the two gateways must agree on all traffic, then each line is timed, proved and plain by turns, and the
 * medians are printed in one table.
 *
 *     bench LISTING PLAIN_LISTING TUNED_LISTING FOLDER
 */
#include "agree.h"
#include "clock.h"
#include "lines.h"
#include "listings.h"
#include <stdio.h>
#include <stdlib.h>

static const double least_ns = 1e8; /* a time is taken over at least this long */

/* ns per pass, over as many passes as it takes; each has to reach the expected sum. */
static double time_of(const line *l, pass *run, const traffic *t, uint64_t expected)
{
    double start = clock_ns();
    double passed = 0;
    size_t n = 0;
    while (passed < least_ns) {
        if (run(t) != expected) {
            fprintf(stderr, "bench: a pass of '%s' came to another sum\n", l->name);
            exit(1);
        }
        n++;
        passed = clock_ns() - start;
    }
    return passed / (double)n;
}

static void print_times(const times *t, double per)
{
    printf(" %10.2f %9.2f %9.2f", times_median(t) / per, times_least(t) / per, times_most(t) / per);
}

static void print_row(const char *name, const char *unit, double per, const times *proved, const times *plain)
{
    printf("%-29s %-8s", name, unit);
    print_times(proved, per);
    print_times(plain, per);
    printf(" %7.2f\n", times_median(proved) / times_median(plain));
}

static void print_head(void)
{
    printf("%-29s %-8s %10s %9s %9s %10s %9s %9s %7s\n", "line", "unit", "proved ns", "least", "most", "plain ns", "least", "most",
           "ratio");
}

static void time_line(const line *l, const traffic *t)
{
    times proved = {.count = 0};
    times plain = {.count = 0};
    uint64_t expected = l->plain(t);
    for (size_t i = 0; i < TIMES_MOST; i++) {
        times_add(&proved, time_of(l, l->proved, t, expected));
        times_add(&plain, time_of(l, l->plain, t, expected));
    }
    print_row(l->name, l->unit, (double)l->count, &proved, &plain);
    if (l->other_unit != NULL) {
        print_row(l->name, l->other_unit, (double)l->other_count, &proved, &plain);
    }
}

static void time_lines(const traffic *t)
{
    lines all = lines_of(t);
    for (size_t i = 0; i < all.count; i++) {
        time_line(&all.list[i], t);
    }
}

static void time_listing(const char *name, const char *program, const char *other, const char *folder)
{
    times proved = {.count = 0};
    times plain = {.count = 0};
    listings_run(program, other, folder, &proved, &plain);
    print_row(name, "byte", 1, &proved, &plain);
}

static void time_listings(char **argv)
{
    time_listing("listing program, 64 MB", argv[1], argv[2], argv[4]);
    time_listing("listing program, C tuned", argv[1], argv[3], argv[4]);
    printf("\nthe listing programs print the same\n");
}

int main(int argc, char **argv)
{
    if (argc != 5) {
        fprintf(stderr, "usage: bench LISTING PLAIN_LISTING TUNED_LISTING FOLDER\n");
        return 2;
    }
    setvbuf(stdout, NULL, _IOLBF, 0);
    double start = clock_ns();
    const traffic *t = traffic_make();
    printf("timed traffic: %llu calls, both gateways agree\n", (unsigned long long)agree_timed(t));
    printf("every date: %llu calls, both gateways agree\n", (unsigned long long)agree_dates());
    agreed random = agree_random();
    printf("random traffic: %llu calls, both gateways agree\n", (unsigned long long)random.calls);
    printf("hand-overs in it: %llu frames written, %llu hand-overs read, %llu refused\n", (unsigned long long)random.handed,
           (unsigned long long)random.read, (unsigned long long)random.not_read);
    printf("lines in it: %llu refused with 16, the other line not full, %llu both full; %llu frames inside the other's packets\n",
           (unsigned long long)random.full_alone, (unsigned long long)random.full_both, (unsigned long long)random.between);
    printf("blocks in it: %llu, %llu stopped with the area full, %llu after 4096 bytes; %llu runs of them again byte by byte\n\n",
           (unsigned long long)random.blocks, (unsigned long long)random.area_full, (unsigned long long)random.limited,
           (unsigned long long)random.runs);
    proved_prepare(t);
    plain_prepare(t);
    print_head();
    time_lines(t);
    time_listings(argv);
    printf("all of it took %.0f s\n", (clock_ns() - start) / 1e9);
    return 0;
}
