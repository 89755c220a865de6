/* The span archive's operations for C and C++ (link target/staticlib/libspan.a, which `tools/staticlib span` makes).

   A byte slice is a pointer, never NULL, and its length, exactly. Every buffer is the caller's, before and after the call; nothing is kept. Two
   buffers of one call must not overlap where one of them is written. Any bytes, lengths and numbers may be passed. A function returns SPAN_DONE,
   else the first refusal below that applies, in the order given with it, and then every lent byte is as it was. docs/SCHEME.md has the whole
   scheme; a node is what it calls a box.

   Threads: the library has no writable data of its own, so calls on different buffers may run at once. Alignment: none is asked for. Stack: below
   17 KiB at the largest sizes (measured by tests/run, not proved). Mapped memory: an archive may be a mapped file; a fault in it is the caller's.
   Timing: a product takes no branch on its operands, so zero bytes cost what others do (measured by bench/run, not proved). It looks tables up by
   their values; Inverse tests for 00, Read, Plan and Losses go by rows and marks, Verdict stops at the first tag that fails: nothing is constant-time.

   The bytes of an archive: 4 of packed sizes (the layout in 4 bits, n in 11, m in 5, places in 4, nodes in 3; then under layout 2 the tags in 4
   and a zero bit, under layout 1, which has one tag, five zero bits), the id from byte 4, 48 fill marks from byte 12 (that of node b, place p is
   bit b*places+p, from the top), then from byte 18 on nodes*places records of n+m+tags bytes: n data elements, the row of m, the tags. Where
   span_open made it, and span_encode (always with the same file, padding and tag key, one that span_setup accepts), span_lose, span_repair and
   span_gather of shares that were made so alone changed it, every byte is the one that span_open and a span_encode of each stored row would write;
   records of empty places are zero. */
#ifndef SPAN_ARCHIVE_H
#define SPAN_ARCHIVE_H

#include <stddef.h>
#include <stdint.h>

/* Answers. 10 is none of them. */
#define SPAN_DONE 0
#define SPAN_WRONG_SIZE 1      /* a size outside its range: layout 1 or 2, n 3 to 1,024, m 1 to 16, places 1 to 8, nodes 1 to 6, tags 1 to 10
                                  (1 under layout 1), s 0 to 9, k 0 to the number of nodes */
#define SPAN_WRONG_LENGTH 2    /* a buffer that has not exactly its length */
#define SPAN_BAD_ARCHIVE 3     /* in span_gather also a share of another archive */
#define SPAN_NO_SUCH_PLACE 4   /* nor node */
#define SPAN_PLACE_EMPTY 5     /* a place that is needed */
#define SPAN_PLACE_FILLED 6    /* a place that would be filled */
#define SPAN_ZERO_KEY 7        /* a tag key with a key vector, of one of the tags, whose first n-2 elements are zero */
#define SPAN_UNREADABLE 8      /* the filled rows do not determine the file */
#define SPAN_MALFORMED 9       /* a message, or fields that no challenge has */
#define SPAN_PROVES_NOTHING 11 /* span_verdict alone: the named rows cancel, so any box could answer the challenge; draw another */
#define SPAN_NO_PLAN 12        /* span_plan alone: no thetas give the wanted rows */
#define SPAN_REJECTED 255      /* span_verdict alone: no refusal */

/* Lengths, exact ones, in bytes. */
#define SPAN_KEY_BYTES 32
#define SPAN_NONCE_BYTES 12
#define SPAN_STREAM_BLOCK_BYTES 64
#define SPAN_ID_BYTES 8
#define SPAN_SEED_BYTES 11
#define SPAN_VECTOR_BYTES(n, m) ((n) + (m))
#define SPAN_AUXILIARY_BYTES(n, tags) ((tags) * ((n)-1))
#define SPAN_FILE_BYTES(n, m) ((m) * ((n)-2))
#define SPAN_PADDING_BYTES(m) (2 * (m))
#define SPAN_RECORD_BYTES(n, m, tags) ((n) + (m) + (tags))
#define SPAN_ARCHIVE_BYTES(n, m, places, nodes, tags) (18 + (nodes) * (places)*SPAN_RECORD_BYTES(n, m, tags))
#define SPAN_COEFFICIENT_BYTES(helpers, q, places) ((helpers) * (q) * (places))
#define SPAN_SCRATCH_BYTES(helpers, q, n, m, tags) ((helpers) * (q)*SPAN_RECORD_BYTES(n, m, tags))
#define SPAN_CHALLENGE_BYTES(count) ((11 * ((count) + 1) + 7) / 8)
#define SPAN_ROWS_BYTES(places, m) ((places) * (m))
#define SPAN_RESPONSE_BYTES(n, tags) ((n) + 12 + 2 * (tags))
#define SPAN_LOSSES_BYTES 20

#ifdef __cplusplus
extern "C" {
#endif

/* The product in GF(2^8) itself; refuses nothing. */
uint8_t span_multiply(uint8_t a, uint8_t b);

/* The inverse in GF(2^8) itself, and 00 of 00; refuses nothing. */
uint8_t span_inverse(uint8_t a);

/* The ChaCha20 block of a key, a counter and a nonce of 12 bytes into 64 bytes. Refuses 2. */
uint8_t span_block(const uint8_t *key, size_t key_len, uint32_t counter, const uint8_t *nonce, size_t nonce_len, uint8_t *out,
                   size_t out_len);

/* The n+m elements of the key vector of tag s, from 0. Refuses 1, 2. */
uint8_t span_vector(const uint8_t *tag_key, size_t tag_key_len, const uint8_t *id, size_t id_len, size_t n, size_t m, size_t s,
                    uint8_t *out, size_t out_len);

/* A new archive of 18+nodes*places*(n+m+tags) bytes, all places empty. Refuses 1, 2. */
uint8_t span_open(size_t layout, size_t n, size_t m, size_t places, size_t nodes, size_t tags, const uint8_t *id, size_t id_len,
                  uint8_t *archive, size_t archive_len);

/* The n-1 auxiliary elements of each tag, tag by tag. Refuses 1, 2, 7. */
uint8_t span_setup(const uint8_t *tag_key, size_t tag_key_len, const uint8_t *mask_key, size_t mask_key_len, const uint8_t *id,
                   size_t id_len, size_t n, size_t tags, uint8_t *auxiliary, size_t auxiliary_len);

/* Fills a place with the source blocks, of a file of m(n-2) bytes and a padding of 2m, combined by a row of m bytes, and that block's
   tags. Refuses 3, 2, 4, 6. */
uint8_t span_encode(uint8_t *archive, size_t archive_len, size_t node, size_t place, const uint8_t *file, size_t file_len,
                    const uint8_t *padding, size_t padding_len, const uint8_t *tag_key, size_t tag_key_len, const uint8_t *row,
                    size_t row_len);

/* Empties a node: its records and marks become zero. Refuses 3, 4. */
uint8_t span_lose(uint8_t *archive, size_t archive_len, size_t node);

/* Puts one node of a share into an archive where all its places are empty: its marks and all its records, those of empty places too, become the
   share's, and every other byte stays. A share is any archive that has the same first twelve bytes (layout, sizes, tags, id), for a box the one in
   which every other node is lost; its other nodes are not looked at, and it is only read. Refuses 3 (either is bad, or they begin differently), 4,
   6 (any place of the node is filled). */
uint8_t span_gather(uint8_t *archive, size_t archive_len, const uint8_t *share, size_t share_len, size_t node);

/* Layout, n, m, places, nodes and tags as every operation reads them; under layout 1 there is one tag. The six pointers are distinct. Refuses 3, and
   then all six numbers are as they were. */
uint8_t span_sizes(const uint8_t *archive, size_t archive_len, size_t *layout, size_t *n, size_t *m, size_t *places, size_t *nodes,
                   size_t *tags);

/* The rows that a node holds, places*m bytes, zeros for a place that is not filled whatever its record holds: as span_verdict takes them. It serves
   an owner who keeps his row table as an archive; an auditor never takes rows from a box. Refuses 3, 2, 4. */
uint8_t span_rows(const uint8_t *archive, size_t archive_len, size_t node, uint8_t *rows, size_t rows_len);

/* Fills all places of a node from 1 to 5 helpers, a byte each, with q (1 to 8) repair blocks a helper. Gammas and thetas are
   helpers*q*places bytes each, scratch helpers*q*(n+m+tags), which then holds the repair blocks with tags. Refuses 3, 1, 2, 4, 6, 5. */
uint8_t span_repair(uint8_t *archive, size_t archive_len, size_t target, const uint8_t *helpers, size_t helpers_len, size_t q,
                    const uint8_t *gammas, size_t gammas_len, const uint8_t *thetas, size_t thetas_len, uint8_t *scratch,
                    size_t scratch_len);

/* The thetas by which span_repair, with these helpers, q and gammas, gives the places of any empty node the wanted rows, places*m bytes, row
   after row. A repair block whose row is a combination of those before it gets the theta 00 for every place; so there is one plan, or none.
   Of the archive m, places, nodes, marks and rows alone count, so the owner may plan on a small one that has the same. Gammas and thetas
   are helpers*q*places bytes each. Refuses 3, 1, 2, 4, 5, 12 (some vector is orthogonal to every repair row and not to a wanted row). */
uint8_t span_plan(const uint8_t *archive, size_t archive_len, const uint8_t *helpers, size_t helpers_len, size_t q,
                  const uint8_t *gammas, size_t gammas_len, const uint8_t *rows, size_t rows_len, uint8_t *thetas, size_t thetas_len);

/* The challenge to a node for 1 to 8 rising places, a coefficient each: (11*(count+1)+7)/8 bytes. Refuses 2 (unequal lists), 9,
   2 (output length). */
uint8_t span_challenge(size_t node, const uint8_t *places, size_t places_len, const uint8_t *coefficients, size_t coefficients_len,
                       uint8_t *message, size_t message_len);

/* The response of n+12+2*tags bytes to a challenge, masked by a seed of 11 bytes, with Setup's auxiliary elements for as many tags as the
   archive has. The box draws the seed, afresh for each call: two responses under one seed give stored bytes away. The row at a block's end is
   in no response. Refuses 3, 9, 2, 4, 5. */
uint8_t span_prove(const uint8_t *archive, size_t archive_len, const uint8_t *mask_key, size_t mask_key_len, const uint8_t *auxiliary,
                   size_t auxiliary_len, const uint8_t *seed, size_t seed_len, const uint8_t *message, size_t message_len,
                   uint8_t *response, size_t response_len);

/* 0 for accepted, where every tag agrees, 255 for rejected, else the refusal, which speaks of the call and not of the box. The rows are those
   of the challenged node, places*m bytes, zeros for empty places; they come from the owner, never from the box. Refuses 1, 9, 2, 4, 9 (the
   response's first byte), 11 (the rows of the named places, combined by the coefficients, are zero). */
uint8_t span_verdict(const uint8_t *tag_key, size_t tag_key_len, const uint8_t *id, size_t id_len, size_t n, size_t m, size_t places,
                     size_t nodes, size_t tags, const uint8_t *rows, size_t rows_len, const uint8_t *message, size_t message_len,
                     const uint8_t *response, size_t response_len);

/* The n-2 bytes that a response hides. Refuses 1, 2, 9. */
uint8_t span_unmask(size_t n, size_t tags, const uint8_t *id, size_t id_len, const uint8_t *mask_key, size_t mask_key_len,
                    const uint8_t *response, size_t response_len, uint8_t *out, size_t out_len);

/* For every filled place 8 times its node plus the place, node by node and within a node place by place, both rising; zeros up to
   nodes*places bytes. Their number into *count. Refuses 3, 2. */
uint8_t span_inventory(const uint8_t *archive, size_t archive_len, uint8_t *list, size_t list_len, uint8_t *count);

/* The file of m(n-2) bytes, solved from the first filled places, by node, then place, whose rows determine it; how many filled places were
   consulted into *consulted. Tags are not examined: of damaged records it gives some file, without a refusal. Refuses 3, 2, 8. */
uint8_t span_read(const uint8_t *archive, size_t archive_len, uint8_t *file, size_t file_len, uint8_t *consulted);

/* Every set of just k nodes (0 to `nodes`) whose loss would leave the file unreadable: were span_lose called for each of them, span_read would
   be refused with 8. A set is a byte in which bit b, of value 2^b, stands for node b; an empty node counts as a node. Sets come in the order of
   their node numbers, not of the bytes: that of 0 and 3, 09, before that of 1 and 2, 06. Zeros up to 20 bytes; the number of sets into
   *count, which alone tells the empty set, 00 for k = 0, from none. The archive is only read. Refuses 3, 1 (k above the nodes), 2. */
uint8_t span_losses(const uint8_t *archive, size_t archive_len, size_t k, uint8_t *sets, size_t sets_len, uint8_t *count);

#ifdef __cplusplus
}
#endif

#endif
