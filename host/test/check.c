/* check.c: a check that counts, and the runner of test cases. */
#include "check.h"

#include <signal.h>
#include <stdarg.h>
#include <stdio.h>
#include <stdlib.h>
#include <string.h>
#include <sys/mman.h>
#include <sys/wait.h>
#include <unistd.h>

enum { CASE_SECONDS = 600 };

static unsigned alone;
static unsigned *checks = &alone; /* shared with the cases' processes once they run */

static void fail(const char *file, int line, const char *format, va_list arguments)
{
    printf("%s:%d: does not hold: ", file, line);
    vprintf(format, arguments);
    printf("\n");
    fflush(stdout);
    exit(1);
}

void check_at(const char *file, int line, bool holds, const char *format, ...)
{
    va_list arguments;

    *checks += 1;
    va_start(arguments, format);
    if (!holds) {
        fail(file, line, format, arguments);
    }
    va_end(arguments);
}

void need_at(const char *file, int line, bool holds, const char *format, ...)
{
    va_list arguments;

    va_start(arguments, format);
    if (!holds) {
        fail(file, line, format, arguments);
    }
    va_end(arguments);
}

static bool run_case(const struct test_case *one)
{
    int status = 1;
    pid_t pid;

    fflush(stdout);
    pid = fork();
    if (pid == 0) {
        setpgid(0, 0);
        alarm(CASE_SECONDS);
        one->run();
        exit(0);
    }
    setpgid(pid, pid);
    waitpid(pid, &status, 0);
    kill(-pid, SIGKILL); /* what the case has left running */
    printf("%s %s\n", status == 0 ? "pass" : "FAIL", one->name);
    return status == 0;
}

int run_cases(const struct test_case *cases, const char *pattern)
{
    unsigned passed = 0;
    unsigned failed = 0;

    checks = mmap(NULL, sizeof *checks, PROT_READ | PROT_WRITE, MAP_SHARED | MAP_ANONYMOUS, -1, 0);
    if (checks == MAP_FAILED) {
        perror("mmap");
        return 1;
    }
    for (; cases->name != NULL; cases++) {
        if (pattern != NULL && strstr(cases->name, pattern) == NULL) {
            continue;
        }
        if (run_case(cases)) {
            passed += 1;
        } else {
            failed += 1;
        }
    }
    printf("%u cases passed, %u failed, %u checks\n", passed, failed, *checks);
    return failed == 0 && passed > 0 ? 0 : 1;
}
