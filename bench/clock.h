// Seconds of a run, and the median of several batches of runs: shared by all parts of the benchmark that time something.
#ifndef CLOCK_H
#define CLOCK_H
#include <stdlib.h>
#include <time.h>

enum { BATCHES = 7 };

static inline double now(void) {
    struct timespec t;
    clock_gettime(CLOCK_MONOTONIC, &t);
    return (double)t.tv_sec + 1e-9 * (double)t.tv_nsec;
}

// Seconds of one call, over 200 calls or 20 ms.
static inline double seconds_of(void (*call)(void *), void *work) {
    double start = now(), spent = 0;
    int n = 0;
    do {
        call(work);
        n++;
        spent = now() - start;
    } while (n < 200 && spent < 20e-3);
    return spent / n;
}

static inline int by_time(const void *a, const void *b) {
    double x = *(const double *)a, y = *(const double *)b;
    return (x > y) - (x < y);
}

static inline double median(double *times) {
    qsort(times, BATCHES, sizeof times[0], by_time);
    return times[BATCHES / 2];
}
#endif
