/* The lives in numbers through the exported functions: every answer and every byte, with guards around each buffer. Ends with status 0
   where all are as expected. */
#include "../include/span_archive.h"
#include "expect.h"

/* n=3, m=2, two places a node, three nodes; a repair by two helpers with two repair blocks each. */
#define ARCHIVE(tags) SPAN_ARCHIVE_BYTES(3, 2, 2, 3, tags)
#define SCRATCH(tags) SPAN_SCRATCH_BYTES(2, 2, 3, 2, tags)
#define AUXILIARY(tags) SPAN_AUXILIARY_BYTES(3, tags)
#define RESPONSE(tags) SPAN_RESPONSE_BYTES(3, tags)

static const uint8_t id[8] = {1, 2, 3, 4, 5, 6, 7, 8}, file[2] = {0x57, 0x01}, padding[4] = {0x01, 0x00, 0x00, 0x04};
static const uint8_t gammas[8] = {0x01, 0x08, 0x0f, 0x16, 0x1d, 0x24, 0x2b, 0x32}, thetas[8] = {0x03, 0x20, 0x3d, 0x5a, 0x77, 0x94, 0xb1, 0xce};
static const uint8_t seed[11] = {0, 20, 40, 60, 80, 100, 120, 140, 160, 180, 200}, untouched[SCRATCH(3)];
static uint8_t tag_key[32], mask_key[32];

/* What a life makes, with one tag under layout 1 and with three under layout 2. With one tag under layout 2 the header alone differs. */
static const uint8_t lived[ARCHIVE(1)] = {
    0x10, 0x06, 0x22, 0x60, 0x01, 0x02, 0x03, 0x04, 0x05, 0x06, 0x07, 0x08, 0x3c, 0x00, 0x00, 0x00, 0x00, 0x00,
    0x00, 0x00, 0x00, 0x00, 0x00, 0x00, 0x00, 0x00, 0x00, 0x00, 0x00, 0x00, 0x28, 0x53, 0x05, 0x53, 0xca, 0xa5,
    0x00, 0x00, 0x00, 0x00, 0x00, 0x00, 0x2a, 0xf3, 0xd5, 0xf3, 0xfe, 0xbd, 0x40, 0x72, 0xc1, 0x72, 0xfb, 0xca};
static const uint8_t repair_blocks[SCRATCH(1)] = {0x48, 0x11, 0x60, 0x11, 0x18, 0x33, 0xcd, 0x23, 0xe8, 0x23, 0x3a, 0x9e,
                                                  0x65, 0xed, 0x69, 0xed, 0xd1, 0xe6, 0x54, 0xd5, 0x87, 0xd5, 0x67, 0xcc};
static const uint8_t responded[RESPONSE(1)] = {0x24, 0x2a, 0x00, 0x14, 0x28, 0x3c, 0x50, 0x64, 0x78,
                                               0x8c, 0xa0, 0xb4, 0xc8, 0x63, 0xc8, 0x55, 0x4d};
static const uint8_t lived_of_three[ARCHIVE(3)] = {
    0x20, 0x06, 0x22, 0x66, 0x01, 0x02, 0x03, 0x04, 0x05, 0x06, 0x07, 0x08, 0x3c, 0x00, 0x00, 0x00, 0x00, 0x00,
    0x00, 0x00, 0x00, 0x00, 0x00, 0x00, 0x00, 0x00, 0x00, 0x00, 0x00, 0x00, 0x00, 0x00, 0x00, 0x00,
    0x28, 0x53, 0x05, 0x53, 0xca, 0xa5, 0x96, 0x15, 0x00, 0x00, 0x00, 0x00, 0x00, 0x00, 0x00, 0x00,
    0x2a, 0xf3, 0xd5, 0xf3, 0xfe, 0xbd, 0x28, 0x64, 0x40, 0x72, 0xc1, 0x72, 0xfb, 0xca, 0x98, 0x20};
static const uint8_t repair_blocks_of_three[SCRATCH(3)] = {
    0x48, 0x11, 0x60, 0x11, 0x18, 0x33, 0xad, 0x7a, 0xcd, 0x23, 0xe8, 0x23, 0x3a, 0x9e, 0xfb, 0xd5,
    0x65, 0xed, 0x69, 0xed, 0xd1, 0xe6, 0x87, 0xa2, 0x54, 0xd5, 0x87, 0xd5, 0x67, 0xcc, 0x20, 0x01};
static const uint8_t responded_of_three[RESPONSE(3)] = {0x24, 0x2a, 0x00, 0x14, 0x28, 0x3c, 0x50, 0x64, 0x78, 0x8c, 0xa0,
                                                        0xb4, 0xc8, 0x63, 0xce, 0x2b, 0xc8, 0x55, 0x4d, 0xfd, 0x76};
static uint8_t lived_of_one[ARCHIVE(1)];

struct life {
    size_t layout, tags;
    const uint8_t *lived, *blocks, *response;
};

static const struct life lives[] = {{1, 1, lived, repair_blocks, responded},
                                    {2, 1, lived_of_one, repair_blocks, responded},
                                    {2, 3, lived_of_three, repair_blocks_of_three, responded_of_three}};

/* The auxiliary elements, tag by tag; the vectors of tags 0, 1 and 2. */
static const uint8_t auxiliary[AUXILIARY(3)] = {0xa7, 0xaa, 0xd2, 0x65, 0x74, 0xcb};
static const uint8_t vectors[3][5] = {{0x04, 0x22, 0x0a, 0x59, 0x61}, {0x2d, 0xf9, 0x53, 0x39, 0xc5}, {0x12, 0x8a, 0xcc, 0x81, 0x33}};

static void encode(uint8_t *archive, size_t len, unsigned expected, size_t node, size_t place, uint8_t first, uint8_t r0, uint8_t r1) {
    const uint8_t data[2] = {first, 0x01}, row[2] = {r0, r1};
    answer("encode", expected, span_encode(archive, len, node, place, data, 2, padding, 4, tag_key, 32, row, 2));
}

/* Node 2 from nodes 0 and 1, two repair blocks each; what scratch then holds. */
static void repair(uint8_t *archive, size_t tags, unsigned expected, const uint8_t *blocks) {
    static const uint8_t helpers[2] = {0, 1};
    uint8_t *scratch = lend(untouched, SCRATCH(tags));
    answer("repair", expected, span_repair(archive, ARCHIVE(tags), 2, helpers, 2, 2, gammas, 8, thetas, 8, scratch, SCRATCH(tags)));
    expect("the repair blocks", !memcmp(scratch, blocks, SCRATCH(tags)));
    give_back("repair's scratch", scratch, SCRATCH(tags));
}

/* Open, and the ten calls; the archive afterwards. */
static uint8_t *live(const struct life *of) {
    size_t len = ARCHIVE(of->tags);
    uint8_t *archive = lend(NULL, len);
    answer("open", 0, span_open(of->layout, 3, 2, 2, 3, of->tags, id, 8, archive, len));
    encode(archive, len, 0, 0, 0, 0x57, 0x01, 0x00);
    encode(archive, len, 6, 0, 0, 0x58, 0x01, 0x01);
    encode(archive, len, 0, 0, 1, 0x57, 0x02, 0x03);
    answer("encode of empty lists", 2, span_encode(archive, len, 1, 0, file, 0, padding, 0, tag_key, 0, file, 0));
    encode(archive, len, 0, 1, 0, 0x57, 0x53, 0xca);
    repair(archive, of->tags, 5, untouched);
    encode(archive, len, 0, 1, 1, 0x57, 0x00, 0x00);
    answer("lose", 4, span_lose(archive, len, 3));
    repair(archive, of->tags, 0, of->blocks);
    answer("lose", 0, span_lose(archive, len, 0));
    expect("the archive after its life", !memcmp(archive, of->lived, len));
    return archive;
}

/* A helper may be named twice: node 0 from node 2 and node 2, a repair block each, in an archive of its own. */
static void repair_by_one_named_twice(void) {
    static const uint8_t helpers[2] = {2, 2}, blocks[12] = {0x1c, 0x4e, 0x87, 0x4e, 0x67, 0xb7, 0x6a, 0x60, 0xfb, 0x60, 0x78, 0x1f};
    static const uint8_t records[12] = {0x95, 0xea, 0x4a, 0xea, 0x9f, 0x7f, 0x3b, 0xc7, 0xb2, 0xc7, 0xa1, 0xbd};
    uint8_t *archive = lend(lived, ARCHIVE(1)), *scratch = lend(NULL, 12);
    answer("repair, a helper named twice", 0, span_repair(archive, ARCHIVE(1), 0, helpers, 2, 1, gammas, 4, thetas, 4, scratch, 12));
    expect("its repair blocks", !memcmp(scratch, blocks, 12));
    expect("its marks", archive[12] == 0xfc && !memcmp(archive, lived, 12) && !memcmp(archive + 13, lived + 13, 5));
    expect("its records", !memcmp(archive + 18, records, 12) && !memcmp(archive + 30, lived + 30, ARCHIVE(1) - 30));
    give_back("its scratch", scratch, 12);
    give_back("its archive", archive, ARCHIVE(1));
}

/* Plans at the end of a life, where node 1 holds the rows 53 ca and 00 00, node 2 the rows f3 fe and 72 fb, and node 0 none: what is asked
   for, the answer and the thetas, which are as they were lent where it is refused. */
struct plan {
    const char *what;
    unsigned answer;
    size_t helpers_len, q;
    uint8_t helpers[2];
    const uint8_t *gammas;
    uint8_t rows[4], thetas[8];
};

static const uint8_t apart[4] = {0x01, 0x00, 0x00, 0x01};
static const struct plan plans[] = {
    {"plan from node 2", 0, 1, 2, {2}, apart, {0x01, 0x00, 0x02, 0x03}, {0xea, 0x66, 0x82, 0xe8}},
    {"plan from both, two blocks depend", 0, 2, 2, {1, 2}, gammas, {0x01, 0x00, 0x02, 0x03}, {0xba, 0x95, 0x00, 0x00, 0x4d, 0xe4}},
    {"plan from node 1, rows of its own", 0, 1, 2, {1}, apart, {0x53, 0xca, 0xa6, 0x8f}, {0x01, 0x02}},
    {"plan, a helper named twice", 0, 2, 1, {2, 2}, apart, {0x00, 0x00, 0x01, 0x00}, {0x00, 0xea, 0x00, 0x82}},
    {"plan from node 1, other rows", 12, 1, 2, {1}, apart, {0x01, 0x00, 0x02, 0x03}, {0xa5, 0xa5, 0xa5, 0xa5}},
    {"plan from node 1, the last row another", 12, 1, 2, {1}, apart, {0x53, 0xca, 0x02, 0x03}, {0xa5, 0xa5, 0xa5, 0xa5}}};

static size_t theta_count(const struct plan *p) { return SPAN_COEFFICIENT_BYTES(p->helpers_len, p->q, 2); }

/* The thetas of a plan on an archive, lent. */
static uint8_t *plan_on(const uint8_t *archive, size_t len, const struct plan *p) {
    size_t count = theta_count(p);
    uint8_t *planned = lend(NULL, count);
    answer(p->what, p->answer, span_plan(archive, len, p->helpers, p->helpers_len, p->q, p->gammas, count, p->rows, 4, planned, count));
    expect("its thetas", !memcmp(planned, p->thetas, count));
    return planned;
}

/* Repair of node 0 by a plan, in a copy of the archive: its places hold the wanted rows. */
static void repair_by(const uint8_t *archive, size_t tags, const struct plan *p, const uint8_t *planned) {
    size_t count = theta_count(p), len = SPAN_SCRATCH_BYTES(p->helpers_len, p->q, 3, 2, tags);
    uint8_t *copy = lend(archive, ARCHIVE(tags)), *scratch = lend(NULL, len);
    answer("repair by a plan", 0, span_repair(copy, ARCHIVE(tags), 0, p->helpers, p->helpers_len, p->q, p->gammas, count, planned, count,
                                              scratch, len));
    expect("its marks", copy[12] == 0xfc);
    for (size_t k = 0; k < 2; k++)
        expect("its rows", !memcmp(copy + 18 + k * SPAN_RECORD_BYTES(3, 2, tags) + 3, p->rows + 2 * k, 2));
    give_back("the scratch of a repair by a plan", scratch, len);
    give_back("the archive after a repair by a plan", copy, ARCHIVE(tags));
}

/* Refused plans, in the order of refusals; each but the last has a reason for a later refusal too. The bytes that the archive lacks, the
   number of helpers, q, the lengths of gammas, rows and thetas. The wanted rows are out of node 1's reach, and of an empty one's. */
static const struct {
    const char *what;
    unsigned answer;
    size_t missing, helpers_len, q, gammas_len, rows_len, thetas_len;
    uint8_t helpers[6];
} refusals[] = {{"plan on a short archive, no helper", 3, 1, 0, 1, 0, 4, 0, {0}},
                {"plan, no helper", 1, 0, 0, 1, 1, 4, 1, {0}},
                {"plan, six helpers", 1, 0, 6, 1, 12, 4, 11, {1, 1, 1, 1, 1, 3}},
                {"plan, q of 0", 1, 0, 1, 0, 0, 3, 0, {1}},
                {"plan, q of 9", 1, 0, 1, 9, 18, 5, 18, {1}},
                {"plan, q beyond all", 1, 0, 2, SIZE_MAX, 4, 4, 4, {1, 1}},
                {"plan, a gamma short", 2, 0, 1, 2, 3, 4, 4, {3}},
                {"plan, gammas and thetas short", 2, 0, 1, 2, 3, 4, 3, {3}},
                {"plan, a row byte too many", 2, 0, 1, 2, 4, 5, 4, {3}},
                {"plan, a theta short", 2, 0, 1, 2, 4, 4, 3, {255}},
                {"plan, an empty helper and no helper", 4, 0, 2, 2, 8, 4, 8, {0, 3}},
                {"plan, an empty helper", 5, 0, 1, 2, 4, 4, 4, {0}},
                {"plan, an empty helper behind another", 5, 0, 2, 2, 8, 4, 8, {1, 0}},
                {"plan, rows out of reach", 12, 0, 2, 2, 8, 4, 8, {1, 1}}};

static void refuse_plans(const uint8_t *archive, size_t len) {
    static const uint8_t rows[5] = {0x01, 0x00, 0x02, 0x03};
    uint8_t ones[18], as_lent[18];
    memset(ones, 0x01, 18);
    memset(as_lent, 0xa5, 18);
    for (size_t i = 0; i < sizeof refusals / sizeof *refusals; i++) {
        size_t count = refusals[i].thetas_len;
        uint8_t *planned = lend(NULL, count);
        answer(refusals[i].what, refusals[i].answer,
               span_plan(archive, len - refusals[i].missing, refusals[i].helpers, refusals[i].helpers_len, refusals[i].q, ones,
                         refusals[i].gammas_len, rows, refusals[i].rows_len, planned, count));
        expect("what a refused plan left", !memcmp(planned, as_lent, count));
        give_back("a refused plan's thetas", planned, count);
    }
}

static void plan_all(const uint8_t *archive, size_t tags) {
    uint8_t *copy = lend(archive, ARCHIVE(tags));
    for (size_t i = 0; i < sizeof plans / sizeof *plans; i++) {
        uint8_t *planned = plan_on(copy, ARCHIVE(tags), &plans[i]);
        if (!plans[i].answer) repair_by(copy, tags, &plans[i], planned);
        give_back("a plan's thetas", planned, theta_count(&plans[i]));
    }
    refuse_plans(copy, ARCHIVE(tags));
    expect("the archive after its plans", !memcmp(copy, archive, ARCHIVE(tags)));
    give_back("the archive that was planned on", copy, ARCHIVE(tags));
}

/* A plan made on an owner's row table serves the boxes' archive. The table is an archive of layout 1 of which only sizes, marks and rows are
   as in that of three tags. */
static void plan_on_a_row_table(void) {
    uint8_t *table = lend(NULL, ARCHIVE(1));
    memcpy(table, lived, 4);
    memcpy(table + 12, lived + 12, 6);
    for (size_t k = 2; k < 6; k++) memcpy(table + 18 + k * 6 + 3, lived_of_three + 18 + k * 8 + 3, 2);
    for (size_t i = 0; i < sizeof plans / sizeof *plans; i++) {
        uint8_t *planned = plan_on(table, ARCHIVE(1), &plans[i]), *same = plan_on(lived_of_three, ARCHIVE(3), &plans[i]);
        expect("the thetas planned on a row table", !memcmp(planned, same, theta_count(&plans[i])));
        if (!plans[i].answer) repair_by(lived_of_three, 3, &plans[i], planned);
        give_back("the table's thetas", planned, theta_count(&plans[i]));
        give_back("the archive's thetas", same, theta_count(&plans[i]));
    }
    give_back("the row table", table, ARCHIVE(1));
}

/* Verdict on a response to a challenge for some places, with the rows that the challenged node has. */
static void judge(const char *what, unsigned expected, size_t tags, const uint8_t *message, size_t places, const uint8_t *response) {
    static const uint8_t rows[3][4] = {{0x00}, {0x53, 0xca, 0x00, 0x00}, {0xf3, 0xfe, 0x72, 0xfb}};
    const uint8_t *of_node = rows[message[0] >> 1 & 3];
    answer(what, expected,
           span_verdict(tag_key, 32, id, 8, 3, 2, 2, 3, tags, of_node, 4, message, SPAN_CHALLENGE_BYTES(places), response, RESPONSE(tags)));
}

/* A masked byte is changed, and then the mask sums by as much, one after another: only all of them together are accepted. */
static void judge_changed(size_t tags, const uint8_t *message, uint8_t *response) {
    response[1] ^= 1;
    judge("verdict on a changed response", 255, tags, message, 2, response);
    for (size_t s = 0; s < tags; s++) {
        response[13 + s] ^= vectors[s][0];
        judge("verdict on changed mask sums", s + 1 < tags ? 255 : 0, tags, message, 2, response);
    }
}

/* Node 1's place 1 holds the row 00 00: Prove answers a challenge for it, and Verdict says of any response that it proves nothing. */
static void audit_nothing(const struct life *of, const uint8_t *archive, const uint8_t *elements) {
    static const uint8_t place[1] = {1}, coefficient[1] = {0x01}, challenge[3] = {0x12, 0x24, 0x04};
    size_t tags = of->tags, len = RESPONSE(tags);
    uint8_t *message = lend(NULL, 3), *response = lend(NULL, len), expected[RESPONSE(3)] = {0x22, 0x5e};
    memcpy(expected + 2, seed, 11);
    memcpy(expected + 13, of->response + 13, tags);
    answer("challenge for a zero row", 0, span_challenge(1, place, 1, coefficient, 1, message, 3));
    expect("its message", !memcmp(message, challenge, 3));
    answer("prove of a zero row", 0,
           span_prove(archive, ARCHIVE(tags), mask_key, 32, elements, AUXILIARY(tags), seed, 11, message, 3, response, len));
    expect("its response", !memcmp(response, expected, len));
    judge("verdict on a zero row", 11, tags, message, 1, response);
    for (size_t i = 0; i < len; i++) {
        response[i] ^= 1;
        judge("verdict on a zero row and a changed response", i ? 11 : 9, tags, message, 1, response);
        response[i] ^= 1;
    }
    give_back("the message for a zero row", message, 3);
    give_back("the response of a zero row", response, len);
}

/* Setup, Challenge, Prove, Verdict and Unmask; and responses that were changed. */
static void audit(const struct life *of, const uint8_t *archive) {
    static const uint8_t places[2] = {0, 1}, coefficients[2] = {0x07, 0xb5}, challenge[5] = {0x14, 0x40, 0x1c, 0xda, 0x80};
    size_t tags = of->tags, count = AUXILIARY(tags), len = RESPONSE(tags);
    uint8_t *elements = lend(NULL, count), *message = lend(NULL, 5), *response = lend(NULL, len), *block = lend(NULL, 1);
    answer("setup", 0, span_setup(tag_key, 32, mask_key, 32, id, 8, 3, tags, elements, count));
    expect("the auxiliary elements", !memcmp(elements, auxiliary, count));
    answer("challenge", 0, span_challenge(2, places, 2, coefficients, 2, message, 5));
    expect("the challenge", !memcmp(message, challenge, 5));
    answer("prove", 0, span_prove(archive, ARCHIVE(tags), mask_key, 32, elements, count, seed, 11, message, 5, response, len));
    expect("the response", !memcmp(response, of->response, len));
    judge("verdict", 0, tags, message, 2, response);
    answer("unmask", 0, span_unmask(3, tags, id, 8, mask_key, 32, response, len, block, 1));
    expect("the unmasked byte", block[0] == 0x74);
    judge_changed(tags, message, response);
    audit_nothing(of, archive, elements);
    give_back("setup's elements", elements, count);
    give_back("challenge's message", message, 5);
    give_back("prove's response", response, len);
    give_back("unmask's block", block, 1);
}

/* Inventory and Read; and both of what is left when node 2 is lost too: Read writes nothing. */
static void list_and_read(uint8_t *archive, size_t len) {
    static const uint8_t listed[6] = {8, 9, 16, 17, 0, 0}, left[6] = {8, 9};
    uint8_t *list = lend(NULL, 6), *data = lend(NULL, 2), count = 99, consulted = 99;
    answer("inventory", 0, span_inventory(archive, len, list, 6, &count));
    expect("the list", count == 4 && !memcmp(list, listed, 6));
    answer("read", 0, span_read(archive, len, data, 2, &consulted));
    expect("the file", consulted == 3 && !memcmp(data, file, 2));
    answer("lose", 0, span_lose(archive, len, 2));
    memset(data, 0x5a, 2);
    answer("read of a lost file", 8, span_read(archive, len, data, 2, &consulted));
    expect("what a refused read left", consulted == 3 && data[0] == 0x5a && data[1] == 0x5a);
    answer("inventory, short list", 2, span_inventory(archive, len, list, 5, &count));
    answer("inventory, bad archive and short list", 3, span_inventory(archive, len - 1, list, 5, &count));
    expect("what a refused inventory left", count == 4 && !memcmp(list, listed, 6));
    answer("inventory of node 1", 0, span_inventory(archive, len, list, 6, &count));
    expect("its list", count == 2 && !memcmp(list, left, 6));
    give_back("inventory's list", list, 6);
    give_back("read's file", data, 2);
}

/* The operations on the field and the keystream; and a tag key of which vector 1 alone starts with zero, which Setup takes for one tag. */
static void values(void) {
    static const uint8_t nonce[12] = {0, 0, 0, 9, 0, 0, 0, 0x4a}, start[4] = {0x10, 0xf1, 0xe7, 0xe4}, key[32] = {[30] = 0x01, [31] = 0x1f};
    uint8_t *elements = lend(NULL, 5), *block = lend(NULL, 64);
    answer("multiply", 0xc1, span_multiply(0x57, 0x83));
    answer("inverse", 0xca, span_inverse(0x53));
    answer("inverse of zero", 0, span_inverse(0));
    answer("block", 0, span_block(tag_key, 32, 1, nonce, 12, block, 64));
    expect("the block's first bytes", !memcmp(block, start, 4));
    for (size_t s = 0; s < 3; s++) {
        answer("vector", 0, span_vector(tag_key, 32, id, 8, 3, 2, s, elements, 5));
        expect("the key vector", !memcmp(elements, vectors[s], 5));
    }
    answer("vector of no tag", 1, span_vector(tag_key, 32, id, 8, 3, 2, 10, elements, 5));
    for (size_t tags = 3; tags; tags--) {
        answer("setup of a zero vector", tags > 1 ? 7 : 0, span_setup(key, 32, mask_key, 32, id, 8, 3, tags, block, AUXILIARY(tags)));
        expect("what a refused setup left", tags == 1 || !memcmp(block, start, 4));
    }
    give_back("vector's elements", elements, 5);
    give_back("block's bytes", block, 64);
}

int main(void) {
    for (int i = 0; i < 32; i++) tag_key[i] = (uint8_t)i, mask_key[i] = (uint8_t)(100 + i);
    memcpy(lived_of_one, lived, sizeof lived);
    lived_of_one[0] = 0x20, lived_of_one[3] = 0x62;
    values();
    repair_by_one_named_twice();
    plan_on_a_row_table();
    for (size_t k = 0; k < sizeof lives / sizeof *lives; k++) {
        uint8_t *archive = live(&lives[k]);
        audit(&lives[k], archive);
        plan_all(archive, lives[k].tags);
        list_and_read(archive, ARCHIVE(lives[k].tags));
        give_back("the archive", archive, ARCHIVE(lives[k].tags));
    }
    if (!failures) puts("the lives in numbers through the C library: every answer and every byte as expected");
    return failures != 0;
}
