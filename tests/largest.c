/* Lives at the largest sizes through the exported functions, with one tag under layout 1 and with ten under layout 2: every answer and
   every byte beside plain C (bench/plain.c), with guards around each buffer. Ends with status 0 where all agree. */
#include "../bench/plain.h"
#include "../include/span_archive.h"
#include "expect.h"

static uint8_t tag_key[32], mask_key[32], theirs[ARCHIVE(TAGS)], *ours;
static size_t tags;

static void same_archive(const char *what) { expect(what, !memcmp(ours, theirs, ARCHIVE(tags))); }

/* Open; Encode of each place of nodes 0 to 4. */
static void fill_five(size_t layout) {
    answer("open", 0, span_open(layout, N, M, PLACES, NODES, tags, id, 8, ours, ARCHIVE(tags)));
    c_open(layout, tags, theirs);
    same_archive("the new archive");
    for (size_t k = 0; k < HELPERS * PLACES; k++) {
        const uint8_t *row = inputs.table + k * M;
        answer("encode", 0, span_encode(ours, ARCHIVE(tags), k / PLACES, k % PLACES, inputs.file, FILE_LENGTH, inputs.padding, 2 * M,
                                        tag_key, 32, row, M));
        c_encode(theirs, k, tag_key, row);
        same_archive("the archive after encode");
    }
}

/* Repair of node 5 by the others. */
static void repair(void) {
    static uint8_t blocks[SCRATCH(TAGS)];
    uint8_t *scratch = lend(NULL, SCRATCH(tags));
    answer("repair", 0, span_repair(ours, ARCHIVE(tags), 5, helpers, HELPERS, Q, inputs.gammas, COEFFICIENTS, inputs.thetas, COEFFICIENTS,
                                    scratch, SCRATCH(tags)));
    c_repair(theirs, 5, helpers, blocks);
    expect("the repair blocks", !memcmp(scratch, blocks, SCRATCH(tags)));
    same_archive("the archive after repair");
    give_back("repair's scratch", scratch, SCRATCH(tags));
}

/* The thetas of a plan by some helpers, beside plain C; where it is refused, as they were lent. */
static uint8_t *plan(unsigned expected, const uint8_t *by, size_t count, size_t q, const uint8_t *wanted) {
    size_t len = count * q * PLACES;
    uint8_t *thetas = lend(NULL, len), plain[COEFFICIENTS];
    memcpy(plain, thetas, len);
    answer("plain plan", expected, c_plan(theirs, by, count, q, wanted, plain));
    answer("plan", expected, span_plan(ours, ARCHIVE(tags), by, count, q, inputs.gammas, len, wanted, PLACES * M, thetas, len));
    expect("the thetas", !memcmp(thetas, plain, len));
    same_archive("the archive after plan");
    return thetas;
}

/* Repair of node 5 by such thetas, in a copy: its places hold the wanted rows, and are as Encode would have filled them. */
static void repair_by(const uint8_t *by, size_t count, size_t q, const uint8_t *wanted, const uint8_t *thetas) {
    static uint8_t encoded[ARCHIVE(TAGS)];
    size_t len = count * q * PLACES;
    uint8_t *copy = lend(ours, ARCHIVE(tags)), *scratch = lend(NULL, count * q * RECORD(tags));
    memcpy(encoded, theirs, ARCHIVE(tags));
    answer("repair by a plan", 0, span_repair(copy, ARCHIVE(tags), 5, by, count, q, inputs.gammas, len, thetas, len, scratch,
                                              count * q * RECORD(tags)));
    for (size_t k = 0; k < PLACES; k++) {
        c_encode(encoded, 5 * PLACES + k, tag_key, wanted + k * M);
        expect("a wanted row", !memcmp(copy + 18 + (5 * PLACES + k) * RECORD(tags) + N, wanted + k * M, M));
    }
    expect("the archive after a repair by a plan", !memcmp(copy, encoded, ARCHIVE(tags)));
    give_back("the scratch of a repair by a plan", scratch, count * q * RECORD(tags));
    give_back("the archive repaired by a plan", copy, ARCHIVE(tags));
}

/* A plan by five helpers, and the repair by it. The first Q blocks, and Q from `second` on, have independent rows; all others get zeros. */
static void plan_and_repair(const uint8_t *by, size_t second, const uint8_t *wanted) {
    static const uint8_t zeros[PLACES];
    uint8_t *thetas = plan(0, by, HELPERS, Q, wanted);
    for (size_t t = Q; t < HELPERS * Q; t++)
        expect("the thetas of a block that depends", t - second < Q || !memcmp(thetas + t * PLACES, zeros, PLACES));
    repair_by(by, HELPERS, Q, wanted, thetas);
    give_back("plan's thetas", thetas, COEFFICIENTS);
}

/* One repair block, of node 0: for the multiples of its row by 1 to 8 the thetas are these numbers. With one byte changed there is no plan. */
static void plan_by_one_block(void) {
    uint8_t wanted[PLACES * M] = {0}, *thetas;
    for (size_t l = 0; l < PLACES; l++)
        for (size_t e = 0; e < PLACES * M; e++)
            wanted[e] ^= span_multiply((uint8_t)(e / M + 1), span_multiply(inputs.gammas[l], inputs.table[l * M + e % M]));
    thetas = plan(0, helpers, 1, 1, wanted);
    for (size_t k = 0; k < PLACES; k++) expect("a multiple", thetas[k] == k + 1);
    repair_by(helpers, 1, 1, wanted, thetas);
    give_back("the thetas of one block", thetas, PLACES);
    wanted[PLACES * M - 1] ^= 1;
    give_back("the thetas of no plan", plan(12, helpers, 1, 1, wanted), PLACES);
}

/* An owner's row table, an archive at n = 3 with rows and marks alone, has the same plan. */
static void plan_on_a_row_table(const uint8_t *wanted) {
    enum { LENGTH = SPAN_ARCHIVE_BYTES(3, M, PLACES, NODES, 1) };
    uint8_t *table = lend(NULL, LENGTH), *thetas = lend(NULL, COEFFICIENTS), *same = plan(0, helpers, HELPERS, Q, wanted);
    answer("open of a row table", 0, span_open(1, 3, M, PLACES, NODES, 1, id, 8, table, LENGTH));
    memcpy(table + 12, ours + 12, 6);
    for (size_t k = 0; k < HELPERS * PLACES; k++) memcpy(table + 18 + k * (3 + M + 1) + 3, inputs.table + k * M, M);
    answer("plan on a row table", 0, span_plan(table, LENGTH, helpers, HELPERS, Q, inputs.gammas, COEFFICIENTS, wanted, PLACES * M, thetas,
                                               COEFFICIENTS));
    expect("the thetas of a row table", !memcmp(thetas, same, COEFFICIENTS));
    give_back("the row table", table, LENGTH);
    give_back("the row table's thetas", thetas, COEFFICIENTS);
    give_back("the archive's thetas", same, COEFFICIENTS);
}

/* Plans for node 5, while it is empty: by all nodes, by nodes named twice, by one block and by one node, which does not reach the rows. */
static void plan_all(void) {
    static const uint8_t twice[HELPERS] = {0, 0, 1, 1, 2};
    const uint8_t *wanted = inputs.table + 5 * PLACES * M;
    plan_and_repair(helpers, Q, wanted);
    plan_and_repair(twice, 2 * Q, wanted);
    plan_by_one_block();
    give_back("the thetas of no plan by a node", plan(12, helpers, 1, Q, wanted), Q * PLACES);
    plan_on_a_row_table(wanted);
}

static void setup(void) {
    uint8_t *auxiliary = lend(NULL, AUXILIARY(tags));
    answer("setup", 0, span_setup(tag_key, 32, mask_key, 32, id, 8, N, tags, auxiliary, AUXILIARY(tags)));
    c_setup(tag_key, mask_key, id, tags, inputs.auxiliary);
    expect("the auxiliary elements", !memcmp(auxiliary, inputs.auxiliary, AUXILIARY(tags)));
    give_back("setup's elements", auxiliary, AUXILIARY(tags));
}

/* Verdict on a response, with the rows that the node's records have. */
static void judge(unsigned expected, size_t node, const uint8_t *coefficients, const uint8_t *message, const uint8_t *response) {
    uint8_t rows[PLACES * M];
    for (size_t k = 0; k < PLACES; k++) memcpy(rows + k * M, theirs + 18 + (node * PLACES + k) * RECORD(tags) + N, M);
    answer("plain verdict", expected, c_verdict(tag_key, tags, rows, coefficients, response));
    answer("verdict", expected,
           span_verdict(tag_key, 32, id, 8, N, M, PLACES, NODES, tags, rows, PLACES * M, message, MESSAGE, response, RESPONSE(tags)));
}

/* Verdict on a response with one byte changed. */
static void judge_changed(size_t node, const uint8_t *message, uint8_t *response, size_t at) {
    response[at] ^= 1;
    judge(255, node, inputs.coefficients, message, response);
    response[at] ^= 1;
}

/* Verdict on the same response, to a challenge whose coefficients are zero. */
static void judge_nothing(size_t node, const uint8_t *response) {
    static const uint8_t zeros[PLACES];
    uint8_t *message = lend(NULL, MESSAGE);
    answer("challenge with zeros", 0, span_challenge(node, items, PLACES, zeros, PLACES, message, MESSAGE));
    judge(11, node, zeros, message, response);
    give_back("the message of zeros", message, MESSAGE);
}

/* Challenge of all places of a node, Prove, Verdict and Unmask; and Verdict on a masked byte, a mask sum and a tag that were changed. */
static void audit(size_t node) {
    uint8_t *message = lend(NULL, MESSAGE), *response = lend(NULL, RESPONSE(tags)), *block = lend(NULL, N - 2);
    uint8_t asked[MESSAGE], plain[RESPONSE(TAGS)], bare[N - 2];
    answer("challenge", 0, span_challenge(node, items, PLACES, inputs.coefficients, PLACES, message, MESSAGE));
    c_challenge(node, inputs.coefficients, asked);
    expect("the challenge", !memcmp(message, asked, MESSAGE));
    answer("prove", 0, span_prove(ours, ARCHIVE(tags), mask_key, 32, inputs.auxiliary, AUXILIARY(tags), seed, 11, message, MESSAGE,
                                  response, RESPONSE(tags)));
    c_prove(theirs, node, inputs.coefficients, mask_key, seed, plain);
    expect("the response", !memcmp(response, plain, RESPONSE(tags)));
    judge(0, node, inputs.coefficients, message, response);
    answer("unmask", 0, span_unmask(N, tags, id, 8, mask_key, 32, response, RESPONSE(tags), block, N - 2));
    c_unmask(id, mask_key, plain, bare);
    expect("the unmasked bytes", !memcmp(block, bare, N - 2));
    judge_changed(node, message, response, 1);
    for (size_t s = 0; s < tags; s++) {
        judge_changed(node, message, response, N + 10 + s);
        judge_changed(node, message, response, N + 12 + tags + s);
    }
    judge_nothing(node, response);
    give_back("challenge's message", message, MESSAGE);
    give_back("prove's response", response, RESPONSE(tags));
    give_back("unmask's block", block, N - 2);
}

/* Inventory and Read; a Read that is refused leaves the file as it was lent. */
static void list_and_read(void) {
    static uint8_t plain[FILE_LENGTH];
    uint8_t *list = lend(NULL, NODES * PLACES), *file = lend(NULL, FILE_LENGTH), listed[NODES * PLACES], count = 0, consulted = 0;
    size_t filled = c_inventory(theirs, listed), taken;
    memcpy(plain, file, FILE_LENGTH);
    taken = c_read(theirs, N, plain);
    answer("inventory", 0, span_inventory(ours, ARCHIVE(tags), list, NODES * PLACES, &count));
    expect("the list", count == filled && !memcmp(list, listed, NODES * PLACES));
    answer("read", filled < M ? 8 : 0, span_read(ours, ARCHIVE(tags), file, FILE_LENGTH, &consulted));
    expect("the file", consulted == taken && !memcmp(file, plain, FILE_LENGTH));
    expect("the file as it was encoded", filled < M || !memcmp(file, inputs.file, FILE_LENGTH));
    give_back("inventory's list", list, NODES * PLACES);
    give_back("read's file", file, FILE_LENGTH);
}

/* The sets of every size whose loss would leave the file unreadable. */
static void list_losses(void) {
    uint8_t plain[SETS];
    for (size_t k = 0; k <= NODES; k++) {
        uint8_t *sets = lend(NULL, SETS), count = 0;
        answer("losses", 0, span_losses(ours, ARCHIVE(tags), k, sets, SETS, &count));
        expect("the sets", count == c_losses(theirs, k, plain) && !memcmp(sets, plain, SETS));
        give_back("losses' sets", sets, SETS);
    }
    same_archive("the archive after losses");
}

/* Node by node is lost at its end: at last the file comes from node 4 and the rebuilt node 5, and then no more. */
static void live(size_t layout, size_t with) {
    tags = with;
    ours = lend(NULL, ARCHIVE(tags));
    setup();
    fill_five(layout);
    plan_all();
    repair();
    audit(0);
    audit(5);
    for (size_t node = 0; node < NODES; node++) {
        list_and_read();
        list_losses();
        answer("lose", 0, span_lose(ours, ARCHIVE(tags), node));
        c_lose(theirs, node);
        same_archive("the archive after lose");
    }
    list_and_read();
    list_losses();
    give_back("the archive", ours, ARCHIVE(tags));
}

int main(void) {
    c_start();
    for (int i = 0; i < 32; i++) tag_key[i] = (uint8_t)i, mask_key[i] = (uint8_t)(100 + i);
    live(1, 1);
    live(2, TAGS);
    if (!failures) puts("lives at the largest sizes through the C library: every answer and every byte as in plain C");
    return failures != 0;
}
