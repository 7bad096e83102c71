#define _GNU_SOURCE
#include "clock.h"

#include <stdlib.h>
#include <time.h>

/* Of this program's own time, so that others' is not counted. */
static double now(void)
{
    struct timespec t;
    clock_gettime(CLOCK_PROCESS_CPUTIME_ID, &t);
    return (double)t.tv_sec * 1e6 + (double)t.tv_nsec / 1e3;
}

static int by_value(const void *a, const void *b)
{
    double x = *(const double *)a, y = *(const double *)b;
    return (x > y) - (x < y);
}

double microseconds(void (*run)(void))
{
    enum { BATCHES = 21 };
    double times[BATCHES];
    long calls = 1;
    for (double t = 0; t < 2000; calls *= 2) {
        t = now();
        for (long i = 0; i < calls; i++)
            run();
        t = now() - t;
    }
    for (int k = 0; k < BATCHES; k++) {
        double t = now();
        for (long i = 0; i < calls; i++)
            run();
        times[k] = (now() - t) / (double)calls;
    }
    qsort(times, BATCHES, sizeof *times, by_value);
    return times[BATCHES / 2];
}
