/* A small test harness: counted checks that name their place. */

#ifndef CHECK_H
#define CHECK_H

#include <stdio.h>

static unsigned long checks;
static unsigned long failures;

static int check_that(int holds, const char *text, const char *file, int line)
{
    checks++;
    if (!holds) {
        failures++;
        printf("%s:%d: %s\n", file, line, text);
    }
    return holds;
}

#define CHECK(condition) \
    ((void)check_that((condition) ? 1 : 0, #condition, __FILE__, __LINE__))

/* Prints the count; returns the exit status. */
static int check_summary(const char *name)
{
    printf("%s: %s, %lu checks, %lu failed\n", name,
           failures == 0 ? "passed" : "FAILED", checks, failures);
    return failures != 0;
}

#endif
