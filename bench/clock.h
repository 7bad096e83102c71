/* How long a call takes. */
#ifndef BENCH_CLOCK_H
#define BENCH_CLOCK_H

/* Microseconds a call: the median of several batches, each long enough for the clock. */
double microseconds(void (*run)(void));

#endif
