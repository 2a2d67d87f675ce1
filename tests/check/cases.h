/* The checking of one input, with all that comes of it, and the list of the test files. */
#ifndef CASES_H
#define CASES_H

#include "reference.h"

/* Check this input with so many numbers lent. Compared are the reply, the lent numbers with guards around them, and the records, which stay.
 * `sets` are the first 512 numbers afterwards; NULL: nothing is written. A case that differs prints its records. */
void check_lent(const char *name, const struct input *in, size_t lent, struct mortarleaf_reply wanted, const uint64_t *sets);

/* A case whose reply, and whose numbers, are known by hand. The reference must give the same. More than 512 numbers are lent. */
void check_once(const char *name, const struct input *in, struct mortarleaf_reply wanted, const uint64_t *sets);

/* The same; then exactly 512 numbers are lent, and others more; and fewer, which is 10 unless something earlier is wrong. */
void check_case(const char *name, const struct input *in, struct mortarleaf_reply wanted, const uint64_t *sets);

/* A case of which 0, 14, 15 or 16 is known by hand; the numbers are those of the reference. More than 512 numbers are lent. */
void verdict_case(const char *name, const struct input *in, uint32_t number);

/* A refusal before 14, known by hand: nothing is written. */
void refusal_case(const char *name, const struct input *in, uint32_t number, uint32_t record, uint32_t row);

/* A case of which only the reference knows what is wanted. The reply that is wanted. */
uint32_t compared_case(const char *name, const struct input *in, size_t lent);

/* Cases as texts. The reached pairs of the first states are given as numbers; all other states have none. */
struct small_check {
    const char *name, *context, *specification, *controller;
    uint32_t number, states;
    uint64_t sets[6];
};
void check_all(const struct small_check *cases, size_t count);

/* The test files. */
void test_known(void);
void test_counts(void);
void test_order(void);
void test_incomplete(void);
void test_reached(void);
void test_rings(void);
void test_limits(void);
void test_random(void);
void test_damaged(void);

#endif
