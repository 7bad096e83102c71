#include "check.h"

#include <stdarg.h>
#include <stdio.h>

static char current[80];
static unsigned long passed, failed, passed_before, failed_before;

static void close_group(void)
{
    if (current[0])
        printf("%s: %lu passed, %lu failed\n", current, passed - passed_before, failed - failed_before);
    passed_before = passed;
    failed_before = failed;
}

void group(const char *text, ...)
{
    va_list args;
    close_group();
    va_start(args, text);
    vsnprintf(current, sizeof current, text, args);
    va_end(args);
}

void check(int holds, const char *text, ...)
{
    if (holds) {
        passed++;
        return;
    }
    /* a fault that repeats is told a few times */
    if (failed - failed_before < 20) {
        va_list args;
        va_start(args, text);
        printf("FAILED %s: ", current);
        vprintf(text, args);
        printf("\n");
        va_end(args);
    }
    failed++;
}

int report(void)
{
    close_group();
    printf("%lu passed, %lu failed\n", passed, failed);
    return failed != 0;
}
