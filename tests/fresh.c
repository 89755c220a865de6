/* A rebuilt archive is a fresh one, and so is one that was gathered: through the exported functions, histories of Encode, Lose, Repair and Gather
   are drawn at many sizes in both layouts, refused calls among them, on two archives of one owner that gather from each other, beside a row table
   each in plain C. An archive is compared with a new one into which its table's rows are encoded, in shelf order and backwards. Ends with status 0
   where every answer and every byte is the same. */
#include "../include/span_archive.h"
#include "drawn.h"
#include "expect.h"
#include "table.h"

enum { MOST_N = 1024, MOST_FILE = MOST_M * (MOST_N - 2), MOST_TAGS = 10 };
enum { HISTORIES = 2000, LARGE = 10, CALLS = 200 };

/* An archive, its one file, padding and tag key, and the table; how many repairs, one from another, a node's blocks are old. */
struct life {
    size_t layout, len, file_len, age[8];
    struct table table;
    uint8_t id[8], key[32], file[MOST_FILE], padding[2 * MOST_M], *archive;
};

/* What the histories met: repairs done, of them from blocks that were themselves repaired, the greatest age; losses of nodes that were not
   empty; gathers of nodes that were not empty; comparisons. */
static size_t repairs, rebuilt, oldest, emptied, gathers, compared;

/* ---- a new archive */

static uint8_t *open_(const struct life *h) {
    const struct table *t = &h->table;
    uint8_t *archive = lend(NULL, h->len);
    draw_bytes(archive, h->len);
    answer("open", 0, span_open(h->layout, t->n, t->m, t->places, t->nodes, t->tags, h->id, 8, archive, h->len));
    return archive;
}

/* Whether Setup accepts the tag key for the id. */
static int set_up(const struct life *h) {
    static uint8_t mask_key[32], auxiliary[SPAN_AUXILIARY_BYTES(MOST_N, MOST_TAGS)];
    const struct table *t = &h->table;
    return !span_setup(h->key, 32, mask_key, 32, h->id, 8, t->n, t->tags, auxiliary, SPAN_AUXILIARY_BYTES(t->n, t->tags));
}

/* A life of these sizes, its other parts zero. */
static void new_life(struct life *h, size_t layout, size_t n, size_t m, size_t places, size_t nodes, size_t tags) {
    memset(h, 0, sizeof *h);
    h->layout = layout, h->len = SPAN_ARCHIVE_BYTES(n, m, places, nodes, tags), h->file_len = SPAN_FILE_BYTES(n, m);
    h->table.n = n, h->table.m = m, h->table.places = places, h->table.nodes = nodes, h->table.tags = tags;
}

/* ---- the same bytes */

/* A new archive with the table's rows encoded, the last place first where `backwards`. */
static uint8_t *fresh(const struct life *h, int backwards) {
    const struct table *t = &h->table;
    uint8_t *archive = open_(h);
    for (size_t i = 0, count = t->nodes * t->places; i < count; i++) {
        size_t k = backwards ? count - 1 - i : i;
        if (t->filled[k])
            answer("encode of a row of the table", 0, span_encode(archive, h->len, k / t->places, k % t->places, h->file, h->file_len, h->padding,
                                                                  2 * t->m, h->key, 32, t->row[k], t->m));
    }
    return archive;
}

static void compare(const struct life *h) {
    for (int backwards = 0; backwards < 2; backwards++) {
        uint8_t *archive = fresh(h, backwards);
        expect("the archive and a fresh one", !memcmp(h->archive, archive, h->len));
        give_back("a fresh archive", archive, h->len);
    }
    compared++;
}

/* ---- one call, on the archive and on the table */

static void encode(struct life *h, size_t node, size_t place, const uint8_t *row, size_t row_len) {
    static const uint8_t other[MOST_FILE];
    struct table *t = &h->table;
    unsigned expected = table_encode(t, node, place, h->file_len, 2 * t->m, 32, row, row_len);
    const uint8_t *file = expected ? other : h->file, *padding = expected ? other : h->padding, *key = expected ? other : h->key;
    answer("encode", expected, span_encode(h->archive, h->len, node, place, file, h->file_len, padding, 2 * t->m, key, 32, row, row_len));
}

static void lose(struct life *h, size_t node) {
    size_t filled = node < h->table.nodes && filled_in(&h->table, node);
    answer("lose", table_lose(&h->table, node), span_lose(h->archive, h->len, node));
    if (filled) emptied++, h->age[node] = 0;
}

static void repair(struct life *h, const struct repair *r) {
    uint8_t *scratch = lend(NULL, r->scratch_len);
    unsigned expected = table_repair(&h->table, r);
    size_t age = 0;
    answer("repair", expected, span_repair(h->archive, h->len, r->target, r->helpers, r->count, r->q, r->gammas, r->gammas_len, r->thetas,
                                           r->thetas_len, scratch, r->scratch_len));
    give_back("repair's scratch", scratch, r->scratch_len);
    if (expected) return;
    for (size_t i = 0; i < r->count; i++)
        if (age < h->age[r->helpers[i]]) age = h->age[r->helpers[i]];
    h->age[r->target] = age + 1;
    repairs++, rebuilt += age > 0;
    if (oldest <= age) oldest = age + 1;
}

/* A node from the owner's other archive. */
static void gather(struct life *h, const struct life *from, size_t node) {
    unsigned expected = table_gather(&h->table, &from->table, node);
    answer("gather", expected, span_gather(h->archive, h->len, from->archive, from->len, node));
    if (expected || !filled_in(&h->table, node)) return;
    h->age[node] = from->age[node];
    gathers++;
}

/* ---- drawn calls: now and then a number or a length is one too many */

static size_t one_more(size_t number) { return number + !drawn(16); }

static void encode_drawn(struct life *h) {
    const struct table *t = &h->table;
    uint8_t row[MOST_M + 1] = {0};
    if (drawn(8)) draw_bytes(row, sizeof row);
    size_t node = drawn((unsigned)t->nodes + 1), place = one_more(drawn((unsigned)t->places)), len = one_more(t->m);
    encode(h, node, place, row, len);
}

/* A node with this many filled places, where a few draws find one. */
static size_t node_with(const struct table *t, size_t filled) {
    size_t node = 0;
    for (int i = 0; i < 12; i++) {
        node = drawn((unsigned)t->nodes + 1);
        if (node < t->nodes && filled_in(t, node) == filled) break;
    }
    return node;
}

static void repair_drawn(struct life *h) {
    static struct repair r;
    const struct table *t = &h->table;
    r.target = node_with(t, 0), r.count = drawn(32) ? 1 + drawn(5) : 6 * drawn(2), r.q = drawn(32) ? 1 + drawn(8) : 9 * drawn(2);
    for (size_t i = 0; i < r.count; i++) r.helpers[i] = (uint8_t)node_with(t, t->places);
    r.gammas_len = one_more(r.count * r.q * t->places), r.thetas_len = one_more(r.count * r.q * t->places);
    r.scratch_len = one_more(SPAN_SCRATCH_BYTES(r.count, r.q, t->n, t->m, t->tags));
    draw_bytes(r.gammas, r.gammas_len), draw_bytes(r.thetas, r.thetas_len);
    repair(h, &r);
}

/* Every node but node 1. */
static void fill(struct life *h) {
    for (size_t k = 0; k < h->table.nodes * h->table.places; k++) {
        uint8_t row[MOST_M];
        draw_bytes(row, sizeof row);
        if (k / h->table.places != 1) encode(h, k / h->table.places, k % h->table.places, row, h->table.m);
    }
}

/* Both archives are filled at first; then calls of any kind follow, on the one or on the other. */
static void history(struct life both[2], size_t calls) {
    fill(&both[0]), fill(&both[1]);
    while (calls--) {
        unsigned on = drawn(2), kind = drawn(9);
        struct life *h = &both[on];
        if (kind < 3) encode_drawn(h);
        else if (kind < 5) lose(h, drawn((unsigned)h->table.nodes + 1));
        else if (kind < 8) repair_drawn(h);
        else gather(h, &both[!on], node_with(&h->table, 0));
        if (!drawn(16)) compare(h);
    }
    compare(&both[0]), compare(&both[1]);
}

/* The second archive of the same owner: another buffer, and calls of its own. */
static void owned_too(struct life *h, const struct life *first) {
    memcpy(h, first, sizeof *h);
    h->archive = open_(h);
}

/* The first few are of the largest sizes. */
static void drawn_histories(void) {
    static struct life both[2];
    struct life *h = &both[0];
    for (int i = 0; i < HISTORIES; i++) {
        unsigned layout = 1 + drawn(2), n = 3 + drawn(40), m = 1 + drawn(MOST_M), places = 1 + drawn(8), nodes = 1 + drawn(6);
        unsigned tags = 1 + drawn(MOST_TAGS);
        if (i < LARGE) n = MOST_N, m = MOST_M, places = 8, nodes = 6, tags = MOST_TAGS;
        new_life(h, layout, n, m, places, nodes, layout == 1 ? 1 : tags);
        draw_bytes(h->key, 32), draw_bytes(h->file, sizeof h->file), draw_bytes(h->padding, sizeof h->padding);
        do draw_bytes(h->id, 8);
        while (!set_up(h));
        h->archive = open_(h);
        owned_too(&both[1], h);
        history(both, drawn(CALLS));
        give_back("the first archive of a history", both[0].archive, h->len);
        give_back("the second archive of a history", both[1].archive, h->len);
    }
    expect("histories with losses, repairs, repairs of repairs, and gathers",
           emptied > HISTORIES && repairs > HISTORIES && rebuilt > HISTORIES && oldest > 9 && gathers > HISTORIES);
}

/* ---- the life in numbers */

/* What is left of it: header and marks, then the records of nodes 1 and 2, of as many tags as there are. */
static void expect_lived(const struct life *h) {
    static const uint8_t header[4] = {0x20, 0x06, 0x22, 0x60}, records[4][8] = {{0x28, 0x53, 0x05, 0x53, 0xca, 0xa5, 0x96, 0x15},
                                                                               {0},
                                                                               {0x2a, 0xf3, 0xd5, 0xf3, 0xfe, 0xbd, 0x28, 0x64},
                                                                               {0x40, 0x72, 0xc1, 0x72, 0xfb, 0xca, 0x98, 0x20}};
    uint8_t expected[SPAN_ARCHIVE_BYTES(3, 2, 2, 3, 3)] = {0};
    size_t len = SPAN_RECORD_BYTES(3, 2, h->table.tags);
    memcpy(expected, header, 4), memcpy(expected + 4, h->id, 8);
    if (h->layout == 1) expected[0] = 0x10;
    else expected[3] |= (uint8_t)(h->table.tags << 1);
    expected[12] = 0x3c;
    for (size_t k = 0; k < 4; k++) memcpy(expected + 18 + (2 + k) * len, records[k], len);
    expect("the life in numbers", !memcmp(h->archive, expected, h->len));
}

/* Its accepted calls: the archive is as computed by hand, and as a fresh one. */
static void life(size_t layout, size_t tags) {
    static const uint8_t id[8] = {1, 2, 3, 4, 5, 6, 7, 8}, file[2] = {0x57, 0x01}, padding[4] = {0x01, 0x00, 0x00, 0x04};
    static const uint8_t rows[4][2] = {{0x01, 0x00}, {0x02, 0x03}, {0x53, 0xca}, {0x00, 0x00}};
    struct repair r = {2, 2, 2, 8, 8, SPAN_SCRATCH_BYTES(2, 2, 3, 2, tags), {0, 1}, {0}, {0}};
    static struct life h;
    new_life(&h, layout, 3, 2, 2, 3, tags);
    memcpy(h.id, id, 8), memcpy(h.file, file, 2), memcpy(h.padding, padding, 4);
    for (size_t i = 0; i < 32; i++) h.key[i] = (uint8_t)i;
    for (size_t i = 0; i < 8; i++) r.gammas[i] = (uint8_t)(1 + 7 * i), r.thetas[i] = (uint8_t)(3 + 29 * i);
    expect("setup", set_up(&h));
    h.archive = open_(&h);
    for (size_t k = 0; k < 4; k++) encode(&h, k / 2, k % 2, rows[k], 2);
    repair(&h, &r);
    lose(&h, 0);
    expect_lived(&h);
    compare(&h);
    give_back("the life's archive", h.archive, h.len);
}

int main(void) {
    life(1, 1);
    for (size_t tags = 1; tags <= 3; tags++) life(2, tags);
    drawn_histories();
    if (!failures)
        printf("rebuilt and gathered archives through the C library: fresh ones, byte for byte, %zu times in %d histories with %zu repairs, up to %zu "
               "deep, and %zu gathers\n",
               compared, HISTORIES, repairs, oldest, gathers);
    return failures != 0;
}
