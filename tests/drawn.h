/* Numbers that look random, the same in every run. */
#ifndef DRAWN_H
#define DRAWN_H

#include <stddef.h>
#include <stdint.h>

static inline unsigned drawn(unsigned below) {
    static unsigned state = 1;
    return ((state = state * 1664525 + 1013904223) >> 16) % below;
}

static inline void draw_bytes(uint8_t *out, size_t len) {
    for (size_t i = 0; i < len; i++) out[i] = (uint8_t)drawn(256);
}

#endif
