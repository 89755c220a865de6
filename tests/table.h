/* The row table in plain C (docs/SCHEME.md, Row table): for each place nothing, or a row. A call's answer is the first refusal that the table,
   the sizes and the call's numbers and lengths give, else 0; a refused call changes nothing. */
#ifndef TABLE_H
#define TABLE_H

#include <stddef.h>
#include <stdint.h>
#include <string.h>

enum { MOST_PLACES = 48, MOST_M = 16, MOST_SENT = 6 * 9, MOST_COEFFICIENTS = MOST_SENT * 8 + 1 };

struct table {
    size_t n, m, places, nodes, tags;
    uint8_t filled[MOST_PLACES], row[MOST_PLACES][MOST_M];
};

/* What Repair is handed, beside the archive; of the scratch buffer only the length counts here. */
struct repair {
    size_t target, count, q, gammas_len, thetas_len, scratch_len;
    uint8_t helpers[6], gammas[MOST_COEFFICIENTS], thetas[MOST_COEFFICIENTS];
};

/* A product in GF(2^8), by shifts, modulo 11b. */
static inline uint8_t times(uint8_t a, uint8_t b) {
    unsigned product = 0;
    for (unsigned power = a; b; b >>= 1, power = power << 1 ^ (power >> 7) * 0x11b)
        if (b & 1) product ^= power;
    return (uint8_t)product;
}

static inline size_t filled_in(const struct table *t, size_t node) {
    size_t count = 0;
    for (size_t k = 0; k < t->places; k++) count += t->filled[node * t->places + k];
    return count;
}

static inline unsigned table_encode(struct table *t, size_t node, size_t place, size_t file_len, size_t padding_len, size_t key_len,
                                    const uint8_t *row, size_t row_len) {
    size_t k = node * t->places + place;
    if (file_len != t->m * (t->n - 2) || padding_len != 2 * t->m || key_len != 32 || row_len != t->m) return 2;
    if (node >= t->nodes || place >= t->places) return 4;
    if (t->filled[k]) return 6;
    t->filled[k] = 1;
    memcpy(t->row[k], row, t->m);
    return 0;
}

static inline unsigned table_lose(struct table *t, size_t node) {
    if (node >= t->nodes) return 4;
    memset(t->filled + node * t->places, 0, t->places);
    return 0;
}

/* A node's rows from another table of the same owner. */
static inline unsigned table_gather(struct table *t, const struct table *from, size_t node) {
    size_t k = node * t->places;
    if (node >= t->nodes) return 4;
    if (filled_in(t, node)) return 6;
    memcpy(t->filled + k, from->filled + k, t->places);
    memcpy(t->row[k], from->row[k], t->places * MOST_M);
    return 0;
}

static inline unsigned repair_answer(const struct table *t, const struct repair *r) {
    size_t sent = r->count * r->q, missing = r->target >= t->nodes, empty = 0;
    if (r->count < 1 || r->count > 5 || r->q < 1 || r->q > 8) return 1;
    if (r->gammas_len != sent * t->places || r->thetas_len != sent * t->places) return 2;
    if (r->scratch_len != sent * (t->n + t->m + t->tags)) return 2;
    for (size_t i = 0; i < r->count; i++) missing |= r->helpers[i] >= t->nodes;
    if (missing) return 4;
    if (filled_in(t, r->target)) return 6;
    for (size_t i = 0; i < r->count; i++) empty |= filled_in(t, r->helpers[i]) < t->places;
    return empty ? 5 : 0;
}

/* To a row, a helper's row l times gamma (i,j,l) and theta (i,j,k). */
static inline void add_helper(const struct table *t, const struct repair *r, size_t sent, size_t l, size_t k, uint8_t *row) {
    const uint8_t *from = t->row[r->helpers[sent / r->q] * t->places + l];
    uint8_t by = times(r->thetas[sent * t->places + k], r->gammas[sent * t->places + l]);
    for (size_t e = 0; e < t->m; e++) row[e] ^= times(by, from[e]);
}

static inline unsigned table_repair(struct table *t, const struct repair *r) {
    unsigned refusal = repair_answer(t, r);
    for (size_t k = 0; !refusal && k < t->places; k++) {
        uint8_t *row = t->row[r->target * t->places + k];
        memset(row, 0, MOST_M);
        for (size_t sent = 0; sent < r->count * r->q; sent++)
            for (size_t l = 0; l < t->places; l++) add_helper(t, r, sent, l, k, row);
        t->filled[r->target * t->places + k] = 1;
    }
    return refusal;
}

#endif
