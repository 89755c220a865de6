/* How the proved side and plain C are timed, and the line that says it. */
#ifndef TIMING_H
#define TIMING_H

#include <stdio.h>
#include <time.h>

#include "gauge.h"

static inline double now(void) {
    struct timespec t;
    clock_gettime(CLOCK_MONOTONIC, &t);
    return t.tv_sec * 1e9 + t.tv_nsec;
}

/* A timed call; the best counts. */
#define UNTIMED {1e30, 1e30}
#define TIMED(best, ...)              \
    do {                              \
        double t = now();             \
        __VA_ARGS__;                  \
        t = now() - t;                \
        if (t < best) best = t;       \
    } while (0)

/* What was done, on which data (a gauge's, or DATALESS where no operand of a product is data), the nanoseconds of a unit on both sides, and
   whether what they gave is equal. */
enum { DATALESS = GAUGES };

static inline void report(const char *what, int data, const double ns[2], double units, int same) {
    static const char *const names[] = {"zero", "half", "full", "none"};
    printf("%s %s %.3f %.3f %s\n", what, names[data], ns[0] / units, ns[1] / units, same ? "equal" : "DIFFERENT");
}

#endif
