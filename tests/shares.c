/* Shares through the exported functions, with guards around each buffer: archives of drawn sizes, marks and records are cut into shares, and every
   set of shares is gathered again; shares that are another archive's, and every other refusal. Ends with status 0 where all are as expected. */
#include "../include/span_archive.h"
#include "drawn.h"
#include "expect.h"

enum { N = 1024, M = 16, PLACES = 8, NODES = 6, TAGS = 10, MOST = SPAN_ARCHIVE_BYTES(N, M, PLACES, NODES, TAGS), DRAWN = 300, LARGE = 3 };

/* An archive, and its sizes. */
struct archive {
    size_t layout, n, m, places, nodes, tags, len;
    uint8_t bytes[MOST + 1];
};

static size_t gathered, refused;

/* A new archive with an id of its own. */
static void open_(struct archive *a, size_t layout, size_t n, size_t m, size_t places, size_t nodes, size_t tags) {
    uint8_t id[8];
    draw_bytes(id, 8);
    a->layout = layout, a->n = n, a->m = m, a->places = places, a->nodes = nodes, a->tags = tags;
    a->len = SPAN_ARCHIVE_BYTES(n, m, places, nodes, tags);
    answer("open", 0, span_open(layout, n, m, places, nodes, tags, id, 8, a->bytes, a->len));
}

static size_t mark_byte(size_t k) { return 12 + k / 8; }
static uint8_t mark_bit(size_t k) { return (uint8_t)(0x80 >> k % 8); }

/* Marks and records are drawn: those of empty places too. */
static void fill(struct archive *a) {
    draw_bytes(a->bytes + 18, a->len - 18);
    for (size_t k = 0; k < a->nodes * a->places; k++)
        if (drawn(2)) a->bytes[mark_byte(k)] |= mark_bit(k);
}

/* A copy in which the nodes outside a set, a bit each, are lost. */
static uint8_t *keeping(const struct archive *a, unsigned set) {
    uint8_t *copy = lend(a->bytes, a->len);
    for (size_t node = 0; node < a->nodes; node++)
        if (!(set >> node & 1)) answer("lose", 0, span_lose(copy, a->len, node));
    return copy;
}

/* One node of a share, which is only read. */
static void gather(const struct archive *a, uint8_t *into, size_t node, unsigned kept) {
    uint8_t *share = keeping(a, kept), *before = lend(share, a->len);
    answer("gather", 0, span_gather(into, a->len, share, a->len, node));
    expect("the share after it", !memcmp(share, before, a->len));
    give_back("a share", share, a->len);
    give_back("a share as it was", before, a->len);
    gathered++;
}

/* ---- gathered is whole */

/* The shares of a set, or a whole archive in their place, gathered in a drawn order. */
static void gather_set(const struct archive *a, unsigned set, int whole) {
    uint8_t *into = keeping(a, 0), *expected = keeping(a, set), order[NODES], count = 0;
    for (uint8_t node = 0; node < a->nodes; node++) {
        size_t at = drawn(count + 1u);
        if (!(set >> node & 1)) continue;
        order[count++] = order[at];
        order[at] = node;
    }
    for (size_t i = 0; i < count; i++) gather(a, into, order[i], whole ? ~0u : 1u << order[i]);
    expect("what was gathered", !memcmp(into, expected, a->len));
    if (count == a->nodes) expect("all of it", !memcmp(into, a->bytes, a->len));
    give_back("a gathered archive", into, a->len);
    give_back("the expected archive", expected, a->len);
}

/* ---- what an archive tells */

static void tell(const struct archive *a) {
    size_t layout = 99, n = 99, m = 99, places = 99, nodes = 99, tags = 99, len = SPAN_ROWS_BYTES(a->places, a->m);
    answer("sizes", 0, span_sizes(a->bytes, a->len, &layout, &n, &m, &places, &nodes, &tags));
    expect("the six numbers", layout == a->layout && n == a->n && m == a->m && places == a->places && nodes == a->nodes && tags == a->tags);
    for (size_t node = 0; node < a->nodes; node++) {
        uint8_t *rows = lend(NULL, len), expected[PLACES * M] = {0};
        for (size_t k = node * a->places, i = 0; i < a->places; i++, k++)
            if (a->bytes[mark_byte(k)] & mark_bit(k))
                memcpy(expected + i * a->m, a->bytes + 18 + k * SPAN_RECORD_BYTES(a->n, a->m, a->tags) + a->n, a->m);
        answer("rows", 0, span_rows(a->bytes, a->len, node, rows, len));
        expect("a node's rows", !memcmp(rows, expected, len));
        give_back("the rows", rows, len);
    }
}

/* ---- refusals */

/* Nothing is written, neither into the archive nor into the share. */
static void refuse(const char *what, unsigned expected, const uint8_t *archive, size_t len, const uint8_t *share, size_t share_len, size_t node) {
    uint8_t *into = lend(archive, len), *from = lend(share, share_len);
    answer(what, expected, span_gather(into, len, from, share_len, node));
    expect(what, !memcmp(into, archive, len) && !memcmp(from, share, share_len));
    give_back("the archive of a refused gather", into, len);
    give_back("the share of a refused gather", from, share_len);
    refused++;
}

/* Every bit of the first twelve bytes; the length, one more and one less, on either side; numbers that are no node's. */
static void refuse_others(const struct archive *a) {
    static const size_t beyond[] = {256, 65536, (size_t)1 << 32, SIZE_MAX};
    uint8_t *empty = keeping(a, 0), *other = lend(a->bytes, a->len);
    for (size_t bit = 0; bit < 96; bit++) {
        other[bit / 8] ^= (uint8_t)(1 << bit % 8);
        refuse("gather, a bit of the header", 3, empty, a->len, other, a->len, 0);
        other[bit / 8] ^= (uint8_t)(1 << bit % 8);
    }
    refuse("gather, a short share", 3, empty, a->len, a->bytes, a->len - 1, a->nodes);
    refuse("gather, a long share", 3, empty, a->len, a->bytes, a->len + 1, 0);
    refuse("gather, a short archive", 3, empty, a->len - 1, a->bytes, a->len, 0);
    refuse("gather, both short", 3, empty, a->len - 1, a->bytes, a->len - 1, 0);
    refuse("gather, the node after the last", 4, a->bytes, a->len, a->bytes, a->len, a->nodes);
    for (size_t i = 0; i < sizeof beyond / sizeof *beyond; i++)
        refuse("gather, a node beyond", 4, empty, a->len, a->bytes, a->len, beyond[i]);
    give_back("an empty archive", empty, a->len);
    give_back("another share", other, a->len);
}

/* One filled place is enough for 6, and that of another node is not. */
static void refuse_filled(const struct archive *a) {
    for (size_t k = 0; k < a->nodes * a->places; k++) {
        uint8_t *one = keeping(a, 0);
        one[mark_byte(k)] |= mark_bit(k);
        refuse("gather, one place filled", 6, one, a->len, a->bytes, a->len, k / a->places);
        answer("gather, another node filled", a->nodes > 1 ? 0 : 6, span_gather(one, a->len, a->bytes, a->len, (k / a->places + 1) % a->nodes));
        give_back("an archive with one filled place", one, a->len);
    }
}

/* Two archives of one id that are good by themselves and have the same length. */
static void refuse_same_length(size_t n, size_t m, size_t tags, size_t n2, size_t m2, size_t tags2) {
    static struct archive a, b;
    open_(&a, 2, n, m, 2, 3, tags), open_(&b, 2, n2, m2, 2, 3, tags2);
    memcpy(b.bytes + 4, a.bytes + 4, 8);
    expect("two archives of the same length", a.len == b.len);
    tell(&a), tell(&b);
    for (size_t node = 0; node < 4; node++) refuse("gather, other sizes of the same length", 3, a.bytes, a.len, b.bytes, b.len, node);
}

/* Of Sizes and Rows: nothing is written. */
static void refuse_telling(const struct archive *a) {
    size_t six[6] = {91, 92, 93, 94, 95, 96}, len = SPAN_ROWS_BYTES(a->places, a->m);
    uint8_t *rows = lend(NULL, len + 1), as_lent[PLACES * M + 1];
    memset(as_lent, 0xa5, sizeof as_lent);
    answer("sizes of a short archive", 3, span_sizes(a->bytes, a->len - 1, six, six + 1, six + 2, six + 3, six + 4, six + 5));
    for (size_t i = 0; i < 6; i++) expect("what refused sizes left", six[i] == 91 + i);
    answer("rows of a short archive", 3, span_rows(a->bytes, a->len - 1, a->nodes, rows, len + 1));
    answer("rows, too long", 2, span_rows(a->bytes, a->len, a->nodes, rows, len + 1));
    answer("rows, too short", 2, span_rows(a->bytes, a->len, 0, rows, len - 1));
    answer("rows of the node after the last", 4, span_rows(a->bytes, a->len, a->nodes, rows, len));
    answer("rows of a node beyond", 4, span_rows(a->bytes, a->len, (size_t)1 << 32, rows, len));
    expect("what refused rows left", !memcmp(rows, as_lent, len + 1));
    give_back("the rows that were refused", rows, len + 1);
}

int main(void) {
    static struct archive a;
    for (int i = 0; i < DRAWN; i++) {
        unsigned layout = 1 + drawn(2), n = 3 + drawn(20), m = 1 + drawn(M), places = 1 + drawn(PLACES), nodes = 1 + drawn(NODES), tags = 1 + drawn(TAGS);
        if (i < LARGE) n = N, m = M, places = PLACES, nodes = NODES, tags = TAGS;
        open_(&a, layout, n, m, places, nodes, layout == 1 ? 1 : tags);
        fill(&a);
        tell(&a);
        for (unsigned set = 0; set < 1u << nodes; set++) gather_set(&a, set, set % 2);
        gather_set(&a, (1u << nodes) - 1, 0);
        refuse_others(&a), refuse_filled(&a), refuse_telling(&a);
    }
    refuse_same_length(4, 2, 1, 5, 1, 1);
    refuse_same_length(4, 2, 1, 3, 2, 2);
    if (!failures)
        printf("shares through the C library: whole again, %zu of them gathered from %d archives, %zu gathers refused\n", gathered, DRAWN, refused);
    return failures != 0;
}
