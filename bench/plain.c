/* Plain scalar C: ChaCha20, GF(2^8) with log and exp tables, and the operations over them. */
#include "plain.h"

#include <string.h>

/* A function that is timed is compiled as if nothing were known of its callers. */
#ifdef __clang__
#define TIMED_ALONE __attribute__((noinline))
#else
#define TIMED_ALONE __attribute__((noipa))
#endif

#define ROTL(x, k) (((x) << (k)) | ((x) >> (32 - (k))))
#define QUARTER(a, b, c, d) \
    a += b, d = ROTL(d ^ a, 16), c += d, b = ROTL(b ^ c, 12), a += b, d = ROTL(d ^ a, 8), c += d, b = ROTL(b ^ c, 7)

struct inputs inputs;

static inline void block(const uint32_t in[16], uint8_t out[64]) {
    uint32_t x[16];
    memcpy(x, in, sizeof x);
    for (int i = 0; i < 10; i++) {
        QUARTER(x[0], x[4], x[8], x[12]);
        QUARTER(x[1], x[5], x[9], x[13]);
        QUARTER(x[2], x[6], x[10], x[14]);
        QUARTER(x[3], x[7], x[11], x[15]);
        QUARTER(x[0], x[5], x[10], x[15]);
        QUARTER(x[1], x[6], x[11], x[12]);
        QUARTER(x[2], x[7], x[8], x[13]);
        QUARTER(x[3], x[4], x[9], x[14]);
    }
    for (int i = 0; i < 16; i++) {
        uint32_t w = x[i] + in[i];
        memcpy(out + 4 * i, &w, 4);
    }
}

static uint8_t powers[510], logs[256];

void c_start(void) {
    unsigned x = 1;
    for (int i = 0; i < 255; i++) {
        powers[i] = powers[i + 255] = (uint8_t)x;
        logs[x] = (uint8_t)i;
        x ^= x << 1;
        if (x & 0x100) x ^= 0x11b;
    }
    make_inputs(&inputs);
}

static inline uint8_t c_multiply(uint8_t a, uint8_t b) {
    if (a == 0 || b == 0) return 0;
    return powers[logs[a] + logs[b]];
}

static uint8_t c_inverse(uint8_t a) { return powers[255 - logs[a]]; }

TIMED_ALONE uint8_t c_product(const uint8_t *a, const uint8_t *b, size_t n) {
    uint8_t total = 0;
    for (size_t i = 0; i < n; i++) total ^= c_multiply(a[i], b[i]);
    return total;
}

TIMED_ALONE uint8_t c_draw(const uint8_t *key, const uint8_t *nonce, size_t n) {
    uint32_t s[16] = {0x61707865, 0x3320646e, 0x79622d32, 0x6b206574};
    uint8_t bytes[64], total = 0;
    size_t at = 64;
    memcpy(s + 4, key, 32);
    memcpy(s + 13, nonce, 12);
    for (size_t i = 0; i < n; i++) {
        if (at == 64) {
            block(s, bytes);
            s[12]++;
            at = 0;
        }
        total ^= bytes[at++];
    }
    return total;
}

/* The first 64 times count bytes of a stream. */
static inline void c_fill(const uint8_t *key, const uint8_t *nonce, uint8_t *out, size_t count) {
    uint32_t s[16] = {0x61707865, 0x3320646e, 0x79622d32, 0x6b206574};
    memcpy(s + 4, key, 32);
    memcpy(s + 13, nonce, 12);
    for (size_t j = 0; j < count; j++, s[12]++) block(s, out + 64 * j);
}

/* Mask row i, from 0. */
static inline void c_row(const uint8_t *key, const uint8_t *id, size_t i, uint8_t *row) {
    uint8_t nonce[12] = {2, 0, (uint8_t)((i + 1) >> 8), (uint8_t)(i + 1)};
    memcpy(nonce + 4, id, 8);
    c_fill(key, nonce, row, N / 64);
}

/* The first 64 times count elements of the key vector of tag s. */
static inline void key_vector(const uint8_t *key, const uint8_t *id, size_t s, uint8_t *vector, size_t count) {
    uint8_t nonce[12] = {1, (uint8_t)s};
    memcpy(nonce + 4, id, 8);
    c_fill(key, nonce, vector, count);
}

TIMED_ALONE void c_setup(const uint8_t *tag_key, const uint8_t *mask_key, const uint8_t *id, size_t tags, uint8_t *auxiliary) {
    uint8_t vectors[TAGS][N], row[N];
    for (size_t s = 0; s < tags; s++) key_vector(tag_key, id, s, vectors[s], N / 64);
    for (size_t i = 0; i < N - 1; i++) {
        c_row(mask_key, id, i, row);
        for (size_t s = 0; s < tags; s++) {
            uint8_t total = 0;
            for (size_t e = 0; e < N - 2; e++) total ^= c_multiply(row[e], vectors[s][e]);
            auxiliary[s * (N - 1) + i] = total;
        }
    }
}

TIMED_ALONE void c_unmask(const uint8_t *id, const uint8_t *mask_key, const uint8_t *response, uint8_t *out) {
    uint8_t nonce[12] = {3}, coefficients[N], row[N];
    memcpy(nonce + 1, response + N - 1, 11);
    c_fill(mask_key, nonce, coefficients, N / 64);
    memcpy(out, response + 1, N - 2);
    for (size_t i = 0; i < N - 1; i++) {
        c_row(mask_key, id, i, row);
        for (size_t e = 0; e < N - 2; e++) out[e] ^= c_multiply(coefficients[i], row[e]);
    }
}

/* The number of tags that a header says: one under layout 1. */
static size_t tags_in(const uint8_t *archive) { return archive[0] >> 4 == 1 ? 1 : archive[3] >> 1 & 15; }

static uint8_t *record(uint8_t *archive, size_t k) { return archive + 18 + k * RECORD(tags_in(archive)); }

static void mark(uint8_t *archive, size_t k) { archive[12 + k / 8] |= (uint8_t)(128 >> k % 8); }

static int marked(const uint8_t *archive, size_t k) { return archive[12 + k / 8] & 128 >> k % 8; }

/* The next `width` bits of zeros become a number. */
static void put(uint8_t *out, size_t *at, unsigned width, size_t number) {
    for (; width--; ++*at) out[*at / 8] |= (uint8_t)((number >> width & 1) << (7 - *at % 8));
}

static void add(uint8_t c, const uint8_t *u, uint8_t *out, size_t n) {
    for (size_t e = 0; e < n; e++) out[e] ^= c_multiply(c, u[e]);
}

void c_open(size_t layout, size_t tags, uint8_t *archive) {
    size_t at = 0;
    memset(archive, 0, ARCHIVE(tags));
    put(archive, &at, 4, layout), put(archive, &at, 11, N), put(archive, &at, 5, M), put(archive, &at, 4, PLACES);
    put(archive, &at, 3, NODES), put(archive, &at, 4, layout == 1 ? 0 : tags);
    memcpy(archive + 4, id, 8);
}

TIMED_ALONE void c_encode(uint8_t *archive, size_t k, const uint8_t *key, const uint8_t *row) {
    uint8_t vector[BLOCK + 64], *to = record(archive, k);
    size_t tags = tags_in(archive);
    memset(to, 0, RECORD(tags));
    for (size_t i = 0; i < M; i++) {
        add(row[i], inputs.file + i * (N - 2), to, N - 2);
        add(row[i], inputs.padding + 2 * i, to + N - 2, 2);
    }
    memcpy(to + N, row, M);
    for (size_t s = 0; s < tags; s++) {
        uint8_t tag = 0;
        key_vector(key, id, s, vector, (BLOCK + 63) / 64);
        for (size_t e = 0; e < BLOCK; e++) tag ^= c_multiply(to[e], vector[e]);
        to[BLOCK + s] = tag;
    }
    mark(archive, k);
}

TIMED_ALONE void c_repair(uint8_t *archive, size_t target, const uint8_t *helpers, uint8_t *scratch) {
    size_t len = RECORD(tags_in(archive));
    memset(scratch, 0, HELPERS * Q * len);
    for (size_t t = 0; t < HELPERS * Q; t++)
        for (size_t l = 0; l < PLACES; l++)
            add(inputs.gammas[t * PLACES + l], record(archive, helpers[t / Q] * PLACES + l), scratch + t * len, len);
    for (size_t k = 0; k < PLACES; k++) {
        uint8_t *to = record(archive, target * PLACES + k);
        memset(to, 0, len);
        for (size_t t = 0; t < HELPERS * Q; t++) add(inputs.thetas[t * PLACES + k], scratch + t * len, to, len);
        mark(archive, target * PLACES + k);
    }
}

void c_lose(uint8_t *archive, size_t node) {
    for (size_t k = node * PLACES; k < (node + 1) * PLACES; k++) archive[12 + k / 8] &= (uint8_t)~(128 >> k % 8);
    memset(record(archive, node * PLACES), 0, PLACES * RECORD(tags_in(archive)));
}

void c_challenge(size_t node, const uint8_t *coefficients, uint8_t *message) {
    size_t at = 0;
    memset(message, 0, MESSAGE);
    put(message, &at, 4, 1), put(message, &at, 3, node), put(message, &at, 4, PLACES);
    for (size_t j = 0; j < PLACES; j++) put(message, &at, 3, j), put(message, &at, 8, coefficients[j]);
}

TIMED_ALONE void c_prove(uint8_t *archive, size_t node, const uint8_t *coefficients, const uint8_t *mask_key, const uint8_t *seed,
                         uint8_t *response) {
    uint8_t combined[RECORD(TAGS)] = {0}, nonce[12] = {3}, drawn[N], row[N], sums[TAGS] = {0};
    size_t tags = tags_in(archive);
    for (size_t j = 0; j < PLACES; j++) add(coefficients[j], record(archive, node * PLACES + j), combined, RECORD(tags));
    memcpy(nonce + 1, seed, 11);
    c_fill(mask_key, nonce, drawn, N / 64);
    for (size_t i = 0; i < N - 1; i++) {
        c_row(mask_key, id, i, row);
        add(drawn[i], row, combined, N - 2);
        for (size_t s = 0; s < tags; s++) sums[s] ^= c_multiply(drawn[i], inputs.auxiliary[s * (N - 1) + i]);
    }
    response[0] = (uint8_t)(0x20 | node << 1);
    memcpy(response + 1, combined, N - 2);
    memcpy(response + N - 1, seed, 11);
    memcpy(response + N + 10, sums, tags);
    memcpy(response + N + 10 + tags, combined + N - 2, 2);
    memcpy(response + N + 12 + tags, combined + BLOCK, tags);
}

TIMED_ALONE uint8_t c_verdict(const uint8_t *key, size_t tags, const uint8_t *rows, const uint8_t *coefficients, const uint8_t *response) {
    static const uint8_t zeros[M];
    uint8_t vector[BLOCK + 64], data[BLOCK] = {0};
    memcpy(data, response + 1, N - 2);
    memcpy(data + N - 2, response + N + 10 + tags, 2);
    for (size_t j = 0; j < PLACES; j++) add(coefficients[j], rows + j * M, data + N, M);
    if (!memcmp(data + N, zeros, M)) return 11;
    for (size_t s = 0; s < tags; s++) {
        uint8_t total = response[N + 12 + tags + s] ^ response[N + 10 + s];
        key_vector(key, id, s, vector, (BLOCK + 63) / 64);
        for (size_t e = 0; e < BLOCK; e++) total ^= c_multiply(data[e], vector[e]);
        if (total) return 255;
    }
    return 0;
}

size_t c_inventory(const uint8_t *archive, uint8_t *list) {
    size_t count = 0;
    memset(list, 0, NODES * PLACES);
    for (size_t k = 0; k < NODES * PLACES; k++)
        if (marked(archive, k)) list[count++] = (uint8_t)(k / PLACES * 8 + k % PLACES);
    return count;
}

/* Independent rows, reduced: each has its pivot, a one where the others have zeros, and beside it the combination of the rows taken that it
   is. */
struct basis {
    uint8_t rows[M][2 * M], pivots[M];
    size_t count;
};

/* A row becomes zero at the pivots; beside it, what was added of the rows taken. */
static inline void reduce(const struct basis *b, uint8_t *row) {
    for (size_t r = 0; r < b->count; r++) add(row[b->pivots[r]], b->rows[r], row, 2 * M);
}

/* Takes a row, unless it is a combination of those taken before, which are fewer than M. */
static inline int take(struct basis *b, const uint8_t *from) {
    uint8_t row[2 * M] = {0}, c;
    size_t p = 0;
    memcpy(row, from, M);
    row[M + b->count] = 1;
    reduce(b, row);
    while (p < M && row[p] == 0) p++;
    if (p == M) return 0;
    c = c_inverse(row[p]);
    for (size_t e = 0; e < 2 * M; e++) row[e] = c_multiply(c, row[e]);
    for (size_t r = 0; r < b->count; r++) add(b->rows[r][p], row, b->rows[r], 2 * M);
    memcpy(b->rows[b->count], row, 2 * M);
    b->pivots[b->count++] = (uint8_t)p;
    return 1;
}

TIMED_ALONE size_t c_read(const uint8_t *archive, size_t n, uint8_t *out) {
    const uint8_t *records = archive + 18;
    struct basis b = {.count = 0};
    size_t consulted = 0, places[M], len = n + M + tags_in(archive);
    for (size_t k = 0; k < NODES * PLACES && b.count < M; k++) {
        if (!marked(archive, k)) continue;
        consulted++;
        if (take(&b, records + k * len + n)) places[b.count - 1] = k;
    }
    if (b.count < M) return 0;
    memset(out, 0, M * (n - 2));
    for (size_t r = 0; r < M; r++)
        for (size_t t = 0; t < M; t++) add(b.rows[r][M + t], records + places[t] * len, out + b.pivots[r] * (n - 2), n - 2);
    return consulted;
}

/* Whether the file cannot be read without the nodes of a set. */
static inline int hurts(const uint8_t *archive, unsigned set) {
    struct basis b = {.count = 0};
    size_t len = RECORD(tags_in(archive));
    for (size_t k = 0; k < NODES * PLACES && b.count < M; k++)
        if (marked(archive, k) && !(set >> k / PLACES & 1)) take(&b, archive + 18 + k * len + N);
    return b.count < M;
}

/* Behind `count` sets, those that hurt among the ones with these nodes and k more from `from` on. */
static size_t losses_from(const uint8_t *archive, size_t from, size_t k, unsigned set, uint8_t *sets, size_t count) {
    if (!k && hurts(archive, set)) sets[count++] = (uint8_t)set;
    for (size_t node = from; k && node + k <= NODES; node++) count = losses_from(archive, node + 1, k - 1, set | 1u << node, sets, count);
    return count;
}

TIMED_ALONE size_t c_losses(const uint8_t *archive, size_t k, uint8_t *sets) {
    memset(sets, 0, SETS);
    return losses_from(archive, 0, k, 0, sets, 0);
}

/* The row of repair block t, of q a helper. */
static inline void repair_row(const uint8_t *archive, const uint8_t *helpers, size_t q, size_t t, uint8_t *row) {
    const uint8_t *rows = archive + 18 + N;
    size_t len = RECORD(tags_in(archive));
    memset(row, 0, M);
    for (size_t l = 0; l < PLACES; l++) add(inputs.gammas[t * PLACES + l], rows + (helpers[t / q] * PLACES + l) * len, row, M);
}

TIMED_ALONE uint8_t c_plan(const uint8_t *archive, const uint8_t *helpers, size_t count, size_t q, const uint8_t *wanted, uint8_t *thetas) {
    static const uint8_t zeros[M];
    uint8_t row[M], solved[PLACES][2 * M] = {{0}};
    struct basis b = {.count = 0};
    size_t blocks[M];
    for (size_t t = 0; t < count * q && b.count < M; t++) {
        repair_row(archive, helpers, q, t, row);
        if (take(&b, row)) blocks[b.count - 1] = t;
    }
    for (size_t k = 0; k < PLACES; k++) {
        memcpy(solved[k], wanted + k * M, M);
        reduce(&b, solved[k]);
        if (memcmp(solved[k], zeros, M)) return 12;
    }
    memset(thetas, 0, count * q * PLACES);
    for (size_t r = 0; r < b.count; r++)
        for (size_t k = 0; k < PLACES; k++) thetas[blocks[r] * PLACES + k] = solved[k][M + r];
    return 0;
}
