/* Encode, Repair, Prove, Verdict and Read beside plain C at the largest sizes, with one tag, on a gauge's data, and Plan, Losses and a Read
   of rows alone: nanoseconds a call, and whether every byte agrees. Blocks that are half zero combine to bytes that hardly ever are, and a
   mask hides what it masks; so the records that Repair, Prove and Read take, and the response that Verdict judges, are given the gauge's
   data outright. Encode is timed by rows with such zeros too: they are the coefficients of its combination. */
#include <string.h>

#include "../include/span_archive.h"
#include "plain.h"
#include "timing.h"

/* The places of nodes 0 to 4, which are encoded and then help. A verdict is short, so many are timed together. Verdict, Read and Plan are
   tried a few times in a row: the first fills the caches. */
enum { ENCODED = HELPERS * PLACES, VERDICTS = 64, TRIES = 4 };

/* An archive whose records are hardly more than their rows. */
enum { ROWS_N = 3, ROWS_ARCHIVE = 18 + NODES * PLACES * (ROWS_N + M + 1) };

static uint8_t ours[ARCHIVE(1)], theirs[ARCHIVE(1)], message[MESSAGE], response[RESPONSE(1)];

/* All those places of a new archive, by the rows of a table, with a file of a gauge's; the time is told of the zeros that vary. */
static void encode(const char *what, const uint8_t *key, const uint8_t *table, enum gauge file, enum gauge varied) {
    uint8_t refused = span_open(1, N, M, PLACES, NODES, 1, id, 8, ours, ARCHIVE(1));
    double ns[2] = UNTIMED;
    memcpy(theirs, ours, ARCHIVE(1));
    measure(file, inputs.file, FILE_LENGTH, 1);
    measure(file, inputs.padding, 2 * M, 2);
    for (size_t k = 0; k < ENCODED; k++) {
        const uint8_t *row = table + k * M;
        TIMED(ns[0], refused |= span_encode(ours, ARCHIVE(1), k / PLACES, k % PLACES, inputs.file, FILE_LENGTH, inputs.padding, 2 * M, key,
                                            32, row, M));
        TIMED(ns[1], c_encode(theirs, k, key, row));
    }
    report(what, varied, ns, 1, !refused && memcmp(ours, theirs, ARCHIVE(1)) == 0);
}

static void repair(enum gauge gauge) {
    static uint8_t scratch[SCRATCH(1)], other[SCRATCH(1)];
    uint8_t refused = 0;
    double ns[2] = UNTIMED;
    TIMED(ns[0], refused = span_repair(ours, ARCHIVE(1), 5, helpers, HELPERS, Q, inputs.gammas, COEFFICIENTS, inputs.thetas, COEFFICIENTS,
                                       scratch, SCRATCH(1)));
    TIMED(ns[1], c_repair(theirs, 5, helpers, other));
    report("repair", gauge, ns, 1, !refused && memcmp(ours, theirs, ARCHIVE(1)) == 0 && memcmp(scratch, other, SCRATCH(1)) == 0);
}

static void prove(const uint8_t *key, enum gauge gauge) {
    static uint8_t plain[RESPONSE(1)];
    uint8_t refused = span_challenge(0, items, PLACES, inputs.coefficients, PLACES, message, MESSAGE);
    double ns[2] = UNTIMED;
    TIMED(ns[0], refused |= span_prove(ours, ARCHIVE(1), key, 32, inputs.auxiliary, AUXILIARY(1), seed, 11, message, MESSAGE, response,
                                       RESPONSE(1)));
    TIMED(ns[1], c_prove(theirs, 0, inputs.coefficients, key, seed, plain));
    report("prove", gauge, ns, 1, !refused && memcmp(response, plain, RESPONSE(1)) == 0);
}

static void verdict(const uint8_t *key, enum gauge gauge) {
    uint8_t judged = 1, plain = 1;
    double ns[2] = UNTIMED;
    measure(gauge, response + 1, N - 2, 3);
    for (int r = 0; r < TRIES; r++) {
        TIMED(ns[0], for (int i = 0; i < VERDICTS; i++)
                         judged = span_verdict(key, 32, id, 8, N, M, PLACES, NODES, 1, inputs.table, PLACES * M, message, MESSAGE, response,
                                               RESPONSE(1)));
        TIMED(ns[1], for (int i = 0; i < VERDICTS; i++) plain = c_verdict(key, 1, inputs.table, inputs.coefficients, response));
    }
    report("verdict", gauge, ns, VERDICTS, judged == plain);
}

static void read_file(enum gauge gauge) {
    static uint8_t x[FILE_LENGTH], y[FILE_LENGTH];
    uint8_t refused = 0, consulted = 0;
    size_t count = 0;
    double ns[2] = UNTIMED;
    for (int i = 0; i < TRIES; i++) TIMED(ns[0], refused |= span_read(ours, ARCHIVE(1), x, FILE_LENGTH, &consulted));
    for (int i = 0; i < TRIES; i++) TIMED(ns[1], count = c_read(theirs, N, y));
    report("read", gauge, ns, 1, !refused && count == consulted && memcmp(x, y, FILE_LENGTH) == 0);
}

/* Those places of a new archive at some n, untimed, by the table's rows; zero where nothing is refused. */
static uint8_t encoded(const uint8_t *key, size_t n, uint8_t *to, size_t len) {
    uint8_t refused = span_open(1, n, M, PLACES, NODES, 1, id, 8, to, len);
    for (size_t k = 0; k < ENCODED; k++)
        refused |= span_encode(to, len, k / PLACES, k % PLACES, inputs.file, M * (n - 2), inputs.padding, 2 * M, key, 32,
                               inputs.table + k * M, M);
    return refused;
}

/* Plan of the rows for node 5 from all others. */
void plan(const uint8_t *key) {
    uint8_t x[COEFFICIENTS], y[COEFFICIENTS], refused = encoded(key, N, ours, ARCHIVE(1));
    const uint8_t *wanted = inputs.table + ENCODED * M;
    double ns[2] = UNTIMED;
    for (int i = 0; i < TRIES; i++)
        TIMED(ns[0], refused |= span_plan(ours, ARCHIVE(1), helpers, HELPERS, Q, inputs.gammas, COEFFICIENTS, wanted, PLACES * M, x,
                                          COEFFICIENTS));
    for (int i = 0; i < TRIES; i++) TIMED(ns[1], refused |= c_plan(ours, helpers, HELPERS, Q, wanted, y));
    report("plan", DATALESS, ns, 1, !refused && memcmp(x, y, COEFFICIENTS) == 0);
}

/* Read at n = 3: the choice among the rows, and the elimination of those taken. */
void read_rows(const uint8_t *key) {
    static uint8_t table[ROWS_ARCHIVE];
    uint8_t x[M], y[M], consulted = 0, refused = encoded(key, ROWS_N, table, ROWS_ARCHIVE);
    size_t count = 0;
    double ns[2] = UNTIMED;
    for (int i = 0; i < TRIES; i++) TIMED(ns[0], refused |= span_read(table, ROWS_ARCHIVE, x, M, &consulted));
    for (int i = 0; i < TRIES; i++) TIMED(ns[1], count = c_read(table, ROWS_N, y));
    report("read-rows", DATALESS, ns, 1, !refused && count == consulted && memcmp(x, y, M) == 0);
}

/* Losses of every size, with all places filled by the table's rows, zero from element `width` on. With M elements any two nodes are enough for
   the file; with fewer every set hurts, and no row is spared. */
void losses(const char *what, size_t width) {
    uint8_t x[NODES + 1][SETS], y[NODES + 1][SETS], refused = span_open(1, N, M, PLACES, NODES, 1, id, 8, ours, ARCHIVE(1)), count;
    double ns[2] = UNTIMED;
    memset(ours + 12, 0xff, NODES * PLACES / 8);
    for (size_t k = 0; k < NODES * PLACES; k++) memcpy(ours + 18 + k * RECORD(1) + N, inputs.table + k * M, width);
    for (int i = 0; i < TRIES; i++)
        TIMED(ns[0], for (size_t k = 0; k <= NODES; k++) refused |= span_losses(ours, ARCHIVE(1), k, x[k], SETS, &count));
    for (int i = 0; i < TRIES; i++) TIMED(ns[1], for (size_t k = 0; k <= NODES; k++) c_losses(ours, k, y[k]));
    report(what, DATALESS, ns, 1, !refused && memcmp(x, y, sizeof x) == 0);
}

/* One round; the auxiliary elements of the inputs are there. */
void archive(const uint8_t *key, enum gauge gauge) {
    static uint8_t rows[ENCODED * M];
    measure(gauge, rows, ENCODED * M, 7);
    encode("encode-by-rows", key, rows, IN_MOTION, gauge);
    encode("encode", key, inputs.table, gauge, gauge);
    for (size_t k = 0; k < ENCODED; k++) measure(gauge, ours + 18 + k * RECORD(1), N, (unsigned)k);
    memcpy(theirs, ours, ARCHIVE(1));
    repair(gauge);
    prove(key, gauge);
    verdict(key, gauge);
    read_file(gauge);
}
