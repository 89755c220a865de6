/* The operations in plain scalar C at the largest sizes: bench/run times the proved ones beside them, tests/largest.c compares every byte.
   File, padding, Repair's coefficients and auxiliary elements are those of `inputs`. A place is numbered by node, then place. An archive's
   header says how many tags a record has. */
#ifndef PLAIN_H
#define PLAIN_H

#include "largest.h"

extern struct inputs inputs;

/* Makes the field's tables and the inputs; the first call. */
void c_start(void);

/* The sum of the first n bytes of a stream; the product of two vectors. */
uint8_t c_draw(const uint8_t *key, const uint8_t *nonce, size_t n);
uint8_t c_product(const uint8_t *a, const uint8_t *b, size_t n);

void c_setup(const uint8_t *tag_key, const uint8_t *mask_key, const uint8_t *id, size_t tags, uint8_t *auxiliary);
void c_open(size_t layout, size_t tags, uint8_t *archive);
void c_encode(uint8_t *archive, size_t k, const uint8_t *key, const uint8_t *row);
void c_repair(uint8_t *archive, size_t target, const uint8_t *helpers, uint8_t *scratch);
void c_lose(uint8_t *archive, size_t node);

/* A challenge has a coefficient for each of a node's eight places; the rows are that node's. */
void c_challenge(size_t node, const uint8_t *coefficients, uint8_t *message);
void c_prove(uint8_t *archive, size_t node, const uint8_t *coefficients, const uint8_t *mask_key, const uint8_t *seed, uint8_t *response);
uint8_t c_verdict(const uint8_t *key, size_t tags, const uint8_t *rows, const uint8_t *coefficients, const uint8_t *response);
void c_unmask(const uint8_t *id, const uint8_t *mask_key, const uint8_t *response, uint8_t *out);

/* The number of filled places; of filled places consulted, 0 where the rows do not determine the file. Read takes any n. */
size_t c_inventory(const uint8_t *archive, uint8_t *list);
size_t c_read(const uint8_t *archive, size_t n, uint8_t *out);

/* The sets of k nodes whose loss would leave the file unreadable, by node numbers, then zeros; their number. */
size_t c_losses(const uint8_t *archive, size_t k, uint8_t *sets);

/* Thetas for the wanted rows, from q repair blocks of each of `count` helpers: 0, or 12 where there are none, and nothing is written. */
uint8_t c_plan(const uint8_t *archive, const uint8_t *helpers, size_t count, size_t q, const uint8_t *wanted, uint8_t *thetas);

#endif
