/* Losses through the exported function, with guards around each buffer: worked lists, refusals, and archives drawn at many sizes, on copies of
   which each set is lost and the rest is read. Ends with status 0 where all are as expected. */
#include "../include/span_archive.h"
#include "drawn.h"
#include "expect.h"

enum { N = 3, SETS = SPAN_LOSSES_BYTES, NODES = 6, PLACES = 8, M = 16, MOST = SPAN_ARCHIVE_BYTES(N, M, PLACES, NODES, 10), DRAWN = 400 };

/* An archive at n = 3, and its sizes. */
struct archive {
    size_t m, places, nodes, tags, len;
    uint8_t bytes[MOST];
};

static const uint8_t id[8] = {1, 2, 3, 4, 5, 6, 7, 8}, tag_key[32] = {1}, file[M * (N - 2)] = {0x57, 0x01}, padding[2 * M] = {0x01};

static void open_(struct archive *a, size_t m, size_t places, size_t nodes, size_t tags) {
    a->m = m, a->places = places, a->nodes = nodes, a->tags = tags, a->len = SPAN_ARCHIVE_BYTES(N, m, places, nodes, tags);
    answer("open", 0, span_open(2, N, m, places, nodes, tags, id, 8, a->bytes, a->len));
}

static void encode(struct archive *a, size_t k, const uint8_t *row) {
    answer("encode", 0, span_encode(a->bytes, a->len, k / a->places, k % a->places, file, a->m * (N - 2), padding, 2 * a->m, tag_key, 32,
                                    row, a->m));
}

/* Losses of an archive: these sets, then zeros, and their number. */
static void list(const char *what, const struct archive *a, size_t k, const uint8_t *sets, size_t number) {
    uint8_t *copy = lend(a->bytes, a->len), *got = lend(NULL, SETS), expected[SETS] = {0}, count = 99;
    memcpy(expected, sets, number);
    answer(what, 0, span_losses(copy, a->len, k, got, SETS, &count));
    expect(what, count == number && !memcmp(got, expected, SETS));
    expect("the archive after losses", !memcmp(copy, a->bytes, a->len));
    give_back("losses' archive", copy, a->len);
    give_back("losses' sets", got, SETS);
}

/* A refused call leaves list and number as they were. */
static void refuse(unsigned expected, const struct archive *a, size_t missing, size_t k, size_t sets_len) {
    uint8_t *sets = lend(NULL, sets_len), as_lent[SETS + 1], count = 99;
    memset(as_lent, 0xa5, sizeof as_lent);
    answer("losses, refused", expected, span_losses(a->bytes, a->len - missing, k, sets, sets_len, &count));
    expect("what refused losses left", count == 99 && !memcmp(sets, as_lent, sets_len));
    give_back("refused losses' sets", sets, sets_len);
}

/* ---- worked lists */

static void worked(void) {
    static const uint8_t rows[4][2] = {{1, 0}, {0, 1}, {0, 2}, {3, 0}}, byte[1] = {1};
    struct archive a;
    open_(&a, 2, 1, 4, 1);
    list("none of 4 filled, k=0", &a, 0, (const uint8_t[]){0x00}, 1);
    list("none of 4 filled, k=2", &a, 2, (const uint8_t[]){0x03, 0x05, 0x09, 0x06, 0x0a, 0x0c}, 6);
    for (size_t k = 0; k < 4; k++) encode(&a, k, rows[k]);
    list("four rows, k=0", &a, 0, byte, 0);
    list("four rows, k=1", &a, 1, byte, 0);
    list("four rows, k=2", &a, 2, (const uint8_t[]){0x09, 0x06}, 2);
    list("four rows, k=3", &a, 3, (const uint8_t[]){0x07, 0x0b, 0x0d, 0x0e}, 4);
    list("four rows, k=4", &a, 4, (const uint8_t[]){0x0f}, 1);
    open_(&a, 1, 1, 2, 1);
    encode(&a, 1, byte);
    list("node 1 of 2 filled, k=1", &a, 1, (const uint8_t[]){0x02}, 1);
    list("node 1 of 2 filled, k=2", &a, 2, (const uint8_t[]){0x03}, 1);
    open_(&a, 2, 1, 6, 1);
    list("none of 6 filled, k=3", &a, 3, (const uint8_t[]){0x07, 0x0b, 0x13, 0x23, 0x0d, 0x15, 0x25, 0x19, 0x29, 0x31,
                                                             0x0e, 0x16, 0x26, 0x1a, 0x2a, 0x32, 0x1c, 0x2c, 0x34, 0x38}, 20);
}

/* The life's rows, two places a node: node 0 is empty, node 1 has a row of zeros. */
static void life(size_t tags) {
    static const uint8_t rows[4][2] = {{0x53, 0xca}, {0x00, 0x00}, {0xf3, 0xfe}, {0x72, 0xfb}};
    struct archive a;
    open_(&a, 2, 2, 3, tags);
    for (size_t k = 0; k < 4; k++) encode(&a, 2 + k, rows[k]);
    list("the life, k=0", &a, 0, rows[1], 0);
    list("the life, k=1", &a, 1, (const uint8_t[]){0x04}, 1);
    list("the life, k=2", &a, 2, (const uint8_t[]){0x05, 0x06}, 2);
    list("the life, k=3", &a, 3, (const uint8_t[]){0x07}, 1);
    refuse(1, &a, 0, 4, SETS);
    refuse(1, &a, 0, SIZE_MAX, 0);
    refuse(2, &a, 0, 3, SETS - 1);
    refuse(2, &a, 0, 0, SETS + 1);
    refuse(2, &a, 0, 1, 0);
    refuse(3, &a, 1, 4, SETS - 1);
    refuse(3, &a, a.len, 4, 0);
}

/* ---- what Lose and Read show */

/* Whether Read is refused with 8 once the nodes of a set are lost; it is done otherwise. */
static int unreadable(const struct archive *a, unsigned set) {
    uint8_t copy[MOST], data[M * (N - 2)], consulted, read;
    memcpy(copy, a->bytes, a->len);
    for (size_t node = 0; node < a->nodes; node++)
        if (set >> node & 1) answer("lose", 0, span_lose(copy, a->len, node));
    read = span_read(copy, a->len, data, a->m * (N - 2), &consulted);
    expect("read of the rest", read == 0 || read == 8);
    return read == 8;
}

/* Behind `number` sets, those of them that have these nodes and k more from `from` on, in the order of node numbers. */
static size_t losses_from(const struct archive *a, size_t from, size_t k, unsigned set, uint8_t *sets, size_t number) {
    if (!k && unreadable(a, set)) sets[number++] = (uint8_t)set;
    for (size_t node = from; k && node + k <= a->nodes; node++) number = losses_from(a, node + 1, k - 1, set | 1u << node, sets, number);
    return number;
}

/* An archive of any sizes, most of its places filled, with about three places an element. Rows have one or two elements that are not zero, so
   that sets of every size may hurt and may not. */
static void draw(struct archive *a) {
    unsigned places = 1 + drawn(PLACES), nodes = 1 + drawn(NODES), m = 1 + drawn(1 + places * nodes / 3);
    open_(a, m < M ? m : M, places, nodes, 1 + drawn(10));
    for (size_t k = 0; k < nodes * places; k++) {
        uint8_t row[M] = {0};
        for (size_t i = 0; i < 2; i++) row[drawn((unsigned)a->m)] = (uint8_t)drawn(256);
        if (drawn(8)) encode(a, k, row);
    }
}

static void drawn_archives(void) {
    static struct archive a;
    for (int i = 0; i < DRAWN; i++) {
        draw(&a);
        for (size_t k = 0; k <= a.nodes; k++) {
            uint8_t sets[SETS];
            list("losses of a drawn archive", &a, k, sets, losses_from(&a, 0, k, 0, sets, 0));
        }
        refuse(1, &a, 0, a.nodes + 1, SETS);
    }
}

int main(void) {
    worked();
    life(1);
    life(3);
    drawn_archives();
    if (!failures) puts("losses through the C library: worked lists as expected, and those of drawn archives as lose and read show");
    return failures != 0;
}
