/* How deep each operation goes on the stack at the largest sizes, with ten tags: it runs on a stack of its own that was painted before.
   Ends with status 0 where every operation is done and stays within LIMIT bytes. */
#define _XOPEN_SOURCE 700
#include <stdio.h>
#include <string.h>
#include <ucontext.h>

#include "../bench/largest.h"
#include "../include/span_archive.h"

enum { LIMIT = 17 * 1024, PAINT = 0xa5 };

static const uint8_t tag_key[32] = {3}, mask_key[32] = {4}, nonce[12] = {2};
static struct inputs inputs;
static uint8_t archive[ARCHIVE(TAGS)], share[ARCHIVE(TAGS)], scratch[SCRATCH(TAGS)], message[MESSAGE], response[RESPONSE(TAGS)], out[FILE_LENGTH], count;
static size_t six[6];

static uint8_t multiply(void) { return span_multiply(2, 3) != 6; }
static uint8_t inverse(void) { return span_inverse(2) != 0x8d; }
static uint8_t block(void) { return span_block(tag_key, 32, 1, nonce, 12, out, 64); }
static uint8_t vector(void) { return span_vector(tag_key, 32, id, 8, N, M, TAGS - 1, out, N + M); }
static uint8_t open_(void) { return span_open(2, N, M, PLACES, NODES, TAGS, id, 8, archive, ARCHIVE(TAGS)); }
static uint8_t setup(void) { return span_setup(tag_key, 32, mask_key, 32, id, 8, N, TAGS, inputs.auxiliary, AUXILIARY(TAGS)); }
static uint8_t encode(void) {
    uint8_t refused = 0;
    for (size_t k = 0; k < HELPERS * PLACES; k++)
        refused |= span_encode(archive, ARCHIVE(TAGS), k / PLACES, k % PLACES, inputs.file, FILE_LENGTH, inputs.padding, 2 * M, tag_key, 32,
                               inputs.table + k * M, M);
    return refused;
}
static uint8_t repair(void) {
    return span_repair(archive, ARCHIVE(TAGS), HELPERS, helpers, HELPERS, Q, inputs.gammas, COEFFICIENTS, inputs.thetas, COEFFICIENTS,
                       scratch, SCRATCH(TAGS));
}
static uint8_t plan(void) {
    return span_plan(archive, ARCHIVE(TAGS), helpers, HELPERS, Q, inputs.gammas, COEFFICIENTS, inputs.table + HELPERS * PLACES * M,
                     PLACES * M, out, COEFFICIENTS);
}
static uint8_t challenge(void) { return span_challenge(0, items, PLACES, inputs.coefficients, PLACES, message, MESSAGE); }
static uint8_t prove(void) {
    return span_prove(archive, ARCHIVE(TAGS), mask_key, 32, inputs.auxiliary, AUXILIARY(TAGS), seed, 11, message, MESSAGE, response,
                      RESPONSE(TAGS));
}
static uint8_t verdict(void) {
    return span_verdict(tag_key, 32, id, 8, N, M, PLACES, NODES, TAGS, inputs.table, PLACES * M, message, MESSAGE, response,
                        RESPONSE(TAGS));
}
static uint8_t unmask(void) { return span_unmask(N, TAGS, id, 8, mask_key, 32, response, RESPONSE(TAGS), out, N - 2); }
static uint8_t inventory(void) { return span_inventory(archive, ARCHIVE(TAGS), out, NODES * PLACES, &count); }
static uint8_t read_(void) { return span_read(archive, ARCHIVE(TAGS), out, FILE_LENGTH, &count); }
static uint8_t losses(void) { return span_losses(archive, ARCHIVE(TAGS), NODES / 2, out, SETS, &count); }
static uint8_t sizes(void) { return span_sizes(archive, ARCHIVE(TAGS), six, six + 1, six + 2, six + 3, six + 4, six + 5); }
static uint8_t rows(void) { return span_rows(archive, ARCHIVE(TAGS), 1, out, PLACES * M); }
static uint8_t lose(void) {
    memcpy(share, archive, sizeof share);
    return span_lose(archive, ARCHIVE(TAGS), 0);
}
static uint8_t gather(void) { return span_gather(archive, ARCHIVE(TAGS), share, ARCHIVE(TAGS), 0); }

static const struct {
    const char *name;
    uint8_t (*call)(void);
} operations[] = {{"multiply", multiply}, {"inverse", inverse},     {"block", block},   {"vector", vector},
                  {"open", open_},        {"setup", setup},         {"encode", encode}, {"plan", plan},
                  {"repair", repair},     {"challenge", challenge}, {"prove", prove},   {"verdict", verdict},
                  {"unmask", unmask},     {"inventory", inventory}, {"read", read_},    {"losses", losses},
                  {"sizes", sizes},       {"rows", rows},           {"lose", lose},     {"gather", gather}};

/* Aligned, so that no depth hangs on where the linker puts it. */
static _Alignas(64) uint8_t stack[1 << 18];
static uint8_t refused;
static size_t at;

static void run(void) { refused = operations[at].call(); }

/* The bytes of the painted stack that operation `at` used. */
static size_t depth(void) {
    static ucontext_t back, there;
    size_t clean;
    memset(stack, PAINT, sizeof stack);
    if (getcontext(&there)) return sizeof stack;
    there.uc_stack.ss_sp = stack, there.uc_stack.ss_size = sizeof stack, there.uc_link = &back;
    makecontext(&there, run, 0);
    if (swapcontext(&back, &there)) return sizeof stack;
    for (clean = 0; clean < sizeof stack && stack[clean] == PAINT;) clean++;
    return sizeof stack - clean;
}

int main(void) {
    int failures = 0;
    make_inputs(&inputs);
    for (at = 0; at < sizeof operations / sizeof *operations; at++) {
        size_t used = depth();
        printf("%-9s %5zu bytes of stack\n", operations[at].name, used);
        failures += refused != 0 || used > LIMIT;
    }
    return failures != 0;
}
