/* The two inner loops, Setup and Unmask beside plain scalar C in one process: nanoseconds a keystream byte, a product and a call at
   n = 1,024, Setup's with one tag and with ten, and whether the results agree; then the archive's operations (archive.c). What has data
   among its operands is timed on each gauge's in turn. There are ROUNDS of all that; bench/run takes the best. PAD bytes shift the code:
   short loops run up to three times as long where they lie badly, on either side, so bench/run tries several places. */
#include <string.h>

#include "../include/span_archive.h"
#include "plain.h"
#include "timing.h"

uint8_t loops_product(const uint8_t *a, size_t a_len, const uint8_t *b, size_t b_len);
uint8_t loops_draw(const uint8_t *key, const uint8_t *nonce, size_t n);

#define TEXT(x) #x
#define SKIP(n) __asm__(".text\n.skip " TEXT(n) "\n")
SKIP(PAD);

enum { ROUNDS = 16, VECTOR = 4096, REPEATS = 256, BYTES = 1 << 20 };

void archive(const uint8_t *key, enum gauge gauge);
void plan(const uint8_t *key);
void read_rows(const uint8_t *key);
void losses(const char *what, size_t width);

static void draw(const uint8_t *key) {
    static const uint8_t nonce[12] = {0, 0, 0, 9, 0, 0, 0, 0x4a};
    uint8_t x = 0, y = 1;
    double ns[2] = UNTIMED;
    TIMED(ns[0], x = loops_draw(key, nonce, BYTES));
    TIMED(ns[1], y = c_draw(key, nonce, BYTES));
    report("keystream-byte", DATALESS, ns, BYTES, x == y);
}

/* Setup with so many tags. */
static void setup(const char *what, const uint8_t *key, size_t tags) {
    static uint8_t x[AUXILIARY(TAGS)];
    uint8_t refused = 1;
    double ns[2] = UNTIMED;
    TIMED(ns[0], refused = span_setup(key, 32, key, 32, id, 8, N, tags, x, AUXILIARY(tags)));
    TIMED(ns[1], c_setup(key, key, id, tags, inputs.auxiliary));
    report(what, DATALESS, ns, 1, !refused && memcmp(x, inputs.auxiliary, AUXILIARY(tags)) == 0);
}

/* A gauge's data times a vector without zeros, in which a byte changes from product to product. */
static void product(enum gauge gauge) {
    static uint8_t a[VECTOR], b[VECTOR];
    uint8_t x = 0, y = 0;
    double ns[2] = UNTIMED;
    measure(gauge, a, VECTOR, 4);
    measure(IN_MOTION, b, VECTOR, 5);
    for (int i = 0; i < VECTOR; i++) b[i] |= 2;
    TIMED(ns[0], for (int k = 0; k < REPEATS; k++) b[k] ^= 1, x ^= loops_product(a, VECTOR, b, VECTOR));
    for (int k = 0; k < REPEATS; k++) b[k] ^= 1;
    TIMED(ns[1], for (int k = 0; k < REPEATS; k++) b[k] ^= 1, y ^= c_product(a, b, VECTOR));
    report("product", gauge, ns, (double)VECTOR * REPEATS, x == y);
}

static void unmask(const uint8_t *key, enum gauge gauge) {
    static uint8_t response[RESPONSE(1)] = {0x24}, x[N - 2], y[N - 2];
    uint8_t refused = 1;
    double ns[2] = UNTIMED;
    measure(gauge, response + 1, RESPONSE(1) - 1, 6);
    TIMED(ns[0], refused = span_unmask(N, 1, id, 8, key, 32, response, RESPONSE(1), x, N - 2));
    TIMED(ns[1], c_unmask(id, key, response, y));
    report("unmask", gauge, ns, 1, !refused && memcmp(x, y, N - 2) == 0);
}

int main(void) {
    uint8_t key[32];
    c_start();
    for (int i = 0; i < 32; i++) key[i] = (uint8_t)i;
    for (int r = 0; r < ROUNDS; r++) {
        draw(key);
        setup("setup-ten-tags", key, TAGS);
        setup("setup", key, 1);
        plan(key);
        read_rows(key);
        losses("losses", M);
        losses("losses-all-hurt", M - 1);
        for (enum gauge gauge = AT_REST; gauge < GAUGES; gauge++) {
            product(gauge);
            unmask(key, gauge);
            archive(key, gauge);
        }
    }
    return 0;
}
