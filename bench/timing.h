// The time of a call beside another's, for the parts of the benchmark that have no database beside them.
#ifndef TIMING_H
#define TIMING_H
#include "clock.h"
#include <stdint.h>

typedef uint32_t Run(void *);

static volatile uint32_t kept;  // so that no run is left out

// Seconds of one run, over 5 ms.
static double batch(Run *run, void *work) {
    double start = now(), spent = 0;
    int n = 0;
    do {
        for (int i = 0; i < 20; i++) kept = run(work);
        n += 20;
        spent = now() - start;
    } while (spent < 5e-3);
    return spent / n;
}

// Seconds of one run of each: the median of several batches, taken in turn, so that a busy machine slows both down alike.
static void timed(void *work, Run *one, Run *other, double *of_one, double *of_other) {
    double ones[BATCHES], others[BATCHES];
    for (int b = 0; b < BATCHES; b++) {
        ones[b] = batch(one, work);
        others[b] = batch(other, work);
    }
    *of_one = median(ones);
    *of_other = median(others);
}
#endif
