/* The largest sizes of an archive, and inputs for every operation at them. The number of tags is free, up to TAGS. */
#ifndef LARGEST_H
#define LARGEST_H

#include <stddef.h>
#include <stdint.h>

enum { N = 1024, M = 16, PLACES = 8, NODES = 6, TAGS = 10, BLOCK = N + M };
enum { FILE_LENGTH = M * (N - 2), HELPERS = 5, Q = 8, COEFFICIENTS = HELPERS * Q * PLACES, MESSAGE = 13, SETS = 20 };

/* Lengths by the number of tags. */
#define RECORD(tags) (BLOCK + (tags))
#define ARCHIVE(tags) (18 + NODES * PLACES * RECORD(tags))
#define SCRATCH(tags) (HELPERS * Q * RECORD(tags))
#define AUXILIARY(tags) ((tags) * (N - 1))
#define RESPONSE(tags) (N + 12 + 2 * (tags))

static const uint8_t id[8] = {1, 2, 3, 4, 5, 6, 7, 8}, seed[11] = {0, 20, 40, 60, 80, 100, 120, 140, 160, 180, 200};
static const uint8_t helpers[HELPERS] = {0, 1, 2, 3, 4}, items[PLACES] = {0, 1, 2, 3, 4, 5, 6, 7};

/* The table has a row for each place; gammas and thetas are Repair's, coefficients a challenge's. Auxiliary elements are Setup's to make. */
struct inputs {
    uint8_t file[FILE_LENGTH], padding[2 * M], table[NODES * PLACES * M], gammas[COEFFICIENTS], thetas[COEFFICIENTS];
    uint8_t auxiliary[AUXILIARY(TAGS)], coefficients[PLACES];
};

static inline void fill(uint8_t *out, size_t n, unsigned state) {
    for (size_t i = 0; i < n; i++) out[i] = (uint8_t)((state = state * 1664525 + 1013904223) >> 24);
}

static inline void make_inputs(struct inputs *to) {
    fill(to->file, sizeof to->file, 1), fill(to->padding, sizeof to->padding, 2);
    fill(to->gammas, sizeof to->gammas, 3), fill(to->thetas, sizeof to->thetas, 4);
    fill(to->table, sizeof to->table, 5), fill(to->coefficients, sizeof to->coefficients, 6);
}

#endif
