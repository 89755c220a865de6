/* What a test of the library expects: answers, bytes, and guards around each buffer that it lends. */
#ifndef EXPECT_H
#define EXPECT_H

#include <stdint.h>
#include <stdio.h>
#include <stdlib.h>
#include <string.h>

enum { GUARD = 16 };

static int failures;

static inline void expect(const char *what, int same) {
    if (same) return;
    failures++;
    printf("DIFFERENT: %s\n", what);
}

static inline void answer(const char *what, unsigned expected, unsigned got) {
    if (expected != got) printf("%s: expected %u, got %u\n", what, expected, got);
    expect(what, expected == got);
}

/* A buffer of its own, of just `len` bytes between two guards. */
static inline uint8_t *lend(const uint8_t *from, size_t len) {
    uint8_t *p = malloc(len + 2 * GUARD);
    if (!p) abort();
    memset(p, 0xa5, len + 2 * GUARD);
    if (from) memcpy(p + GUARD, from, len);
    return p + GUARD;
}

static inline void give_back(const char *what, uint8_t *p, size_t len) {
    uint8_t guard[GUARD];
    memset(guard, 0xa5, GUARD);
    expect(what, !memcmp(p - GUARD, guard, GUARD) && !memcmp(p + len, guard, GUARD));
    free(p - GUARD);
}

#endif
