/* The bytes of gauges that are at rest, at rest half of the time, or in motion: all of them zero, half of them, none. */
#ifndef GAUGE_H
#define GAUGE_H

#include <stddef.h>
#include <stdint.h>

enum gauge { AT_REST, HALF_AT_REST, IN_MOTION, GAUGES };

static inline void measure(enum gauge gauge, uint8_t *out, size_t n, unsigned state) {
    for (size_t i = 0; i < n; i++) {
        state = state * 1664525 + 1013904223;
        int zero = gauge == AT_REST || (gauge == HALF_AT_REST && state >> 31);
        out[i] = (uint8_t)(zero ? 0 : 1 + (state >> 8) % 255);
    }
}

#endif
