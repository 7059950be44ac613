/* check.h: a check that counts, and ends the test case with a line that says where it failed. */
#ifndef CHECK_H
#define CHECK_H

#include <stdbool.h>

/* Counts a check; where it does not hold, says so and ends the process with status 1. */
void check_at(const char *file, int line, bool holds, const char *format, ...) __attribute__((format(printf, 4, 5)));

/* The same for what a test itself needs, which is not counted. */
void need_at(const char *file, int line, bool holds, const char *format, ...) __attribute__((format(printf, 4, 5)));

#define NEED(holds) need_at(__FILE__, __LINE__, (holds), "%s", #holds)
#define NEED_SAYS(holds, ...) need_at(__FILE__, __LINE__, (holds), __VA_ARGS__)
#define CHECK(holds) check_at(__FILE__, __LINE__, (holds), "%s", #holds)
#define CHECK_SAYS(holds, ...) check_at(__FILE__, __LINE__, (holds), __VA_ARGS__)

struct test_case {
    const char *name;
    void (*run)(void);
};

/*
 * Runs each case in a process and process group of its own and kills what is left of the group afterwards. Returns the exit status:
 * 0 where all passed. With a pattern only the cases whose names have it are run.
 */
int run_cases(const struct test_case *cases, const char *pattern);

#endif
