/* What the test files share: comparisons, buffers with guard numbers around them, and bytes written as in document 01. */
#ifndef CHECKS_H
#define CHECKS_H

#include "mortarleaf.h"

/* The kinds, numbered as a reply numbers records. */
enum kind { CONTEXT = 1, SPECIFICATION = 2, CONTROLLER = 3 };

/* The case that runs now: comparisons that fail name it. */
void begin_case(const char *function, const char *name);

/* Comparisons. Each counts as one, passed or failed; one that fails prints what differs. */
void same(const char *what, uint64_t got, uint64_t wanted);
void same_reply(struct mortarleaf_reply got, struct mortarleaf_reply wanted); /* five: one for each number */
unsigned long failures(void); /* how many have failed so far */
void print_counts(void);
void need(int enough, const char *what); /* a test that asks for more room than there is would prove nothing: it ends everything */

/* So much has failed that long series of cases would only print more of it: they end here. */
int hopeless(void);

/* A series that hardly meets a reply says little about it: compare that it was wanted so often or more. */
void wanted_often(const unsigned long *counts, uint32_t number, unsigned long least);

/* A reply of the four numbers that all calls tell but the unblocked answer; rounds are 0. */
struct mortarleaf_reply reply(uint32_t number, uint32_t record, uint32_t row, uint32_t states);

/* Bytes, and numbers of 16 and of 64 bits, with guards before and behind. Whoever lends a buffer fills it first: guards and content then hold
 * numbers that differ from place to place. `wanted` begins as a copy of the whole and is changed to what must stand there after the call. */
enum { GUARDS = 16, MOST_BYTES = 66000, MOST_NUMBERS = 8300, MOST_SETS = 700 };
struct bytes {
    size_t size;
    uint8_t whole[GUARDS + MOST_BYTES + GUARDS], wanted[GUARDS + MOST_BYTES + GUARDS];
};
struct numbers {
    size_t count;
    uint16_t whole[GUARDS + MOST_NUMBERS + GUARDS], wanted[GUARDS + MOST_NUMBERS + GUARDS];
};
struct sets {
    size_t count;
    uint64_t whole[GUARDS + MOST_SETS + GUARDS], wanted[GUARDS + MOST_SETS + GUARDS];
};
void fill_bytes(struct bytes *b, size_t size);
void fill_numbers(struct numbers *n, size_t count);
void fill_sets(struct sets *s, size_t count);
void hold_bytes(struct bytes *b, const uint8_t *content, size_t size); /* this content, and it must stay */
void hold_numbers(struct numbers *n, const uint16_t *content, size_t count);
uint8_t *lent_bytes(struct bytes *b);
uint16_t *lent_numbers(struct numbers *n);
uint64_t *lent_sets(struct sets *s);
uint8_t *wanted_bytes(struct bytes *b);
uint16_t *wanted_numbers(struct numbers *n);
uint64_t *wanted_sets(struct sets *s);
void same_bytes(const char *what, const struct bytes *b); /* one comparison: content and guards */
void same_numbers(const char *what, const struct numbers *n);
void same_sets(const char *what, const struct sets *s);

/* The bytes of a text such as "1F 00 43 58 | 00 01"; marks between the bytes are for the reader. How many there are. */
size_t from_text(const char *text, uint8_t *out);

#endif
