/* The solving of one skid, with all that comes of it, and the list of the test files. */
#ifndef CASES_H
#define CASES_H

#include "reference.h"

/* Solve this skid in this mode with so many numbers lent. Compared are the reply, both lent buffers with guards around them, and the records, which
 * stay. `table` is what their first 512 and 8,192 numbers hold afterwards; NULL: nothing is written. An unblocked answer is also tried as the table
 * of a controller (fits_as_it_is). A case that differs prints its records. */
void solve_lent(const char *name, uint32_t mode, const struct skid *skid, struct lent lent, struct mortarleaf_reply wanted,
                const struct table *table);

/* A case whose reply, and whose numbers, are known by hand. The reference must give the same. More numbers are lent than are written. */
void solve_once(const char *name, uint32_t mode, const struct skid *skid, struct mortarleaf_reply wanted, const struct table *table);

/* The same; then exactly 512 and 8,192 numbers are lent, and others more; and fewer, which is 10 unless something earlier is wrong. */
void solve_case(const char *name, uint32_t mode, const struct skid *skid, struct mortarleaf_reply wanted, const struct table *table);

/* Nothing is deleted: both modes have the same answer of so many states. The first as solve_once, the second as solve_case. */
void same_once(const char *name, const struct skid *skid, uint32_t states, const struct table *table);
void same_case(const char *name, const struct skid *skid, uint32_t states, const struct table *table);

/* The unblocked answer is none, after so many rounds. */
void none_once(const char *name, const struct skid *skid, uint32_t rounds);
void none_case(const char *name, const struct skid *skid, uint32_t rounds);

/* A case of which only the number of plain states is known by hand; more than 512 stands for refusal 11, in both modes. All else is as the reference
 * has it. */
void states_case(const char *name, const struct skid *skid, size_t states);

/* A refusal before 11, known by hand: nothing is written, in both modes. */
void refusal_case(const char *name, const struct skid *skid, uint32_t number, uint32_t record, uint32_t row);

/* A case of which only the reference knows what is wanted. In both modes: what is wanted, and what the two have to do with each other
 * (deleted_or_fits). */
struct outcome {
    struct mortarleaf_reply reply;
    struct table table;
};
void compared_case(const char *name, uint32_t mode, const struct skid *skid, struct lent lent, struct outcome *wanted);
void compared_both(const char *name, const struct skid *skid, struct lent lent, struct outcome wanted[MODES]);

/* Answers as texts, with the sets of the first states as numbers, and all next states, which are below 10: in "0 - | 1 1" state 0 stays by its first
 * step, and its second one is absent; the bars are for the reader. All other numbers are 0. No text: nothing is deleted, and the unblocked answer is
 * the plain one. No states: it is none. */
struct small_answer {
    uint32_t states, rounds;
    uint64_t sets[6];
    const char *next;
};
struct small_solve {
    const char *name, *context, *specification;
    struct small_answer plain, unblocked;
};
#define AS_PLAIN                                                                                                                                     \
    { 0, 0, {0}, NULL }
#define NONE_AFTER(rounds)                                                                                                                           \
    { 0, rounds, {0}, "" }
void solve_all(const struct small_solve *cases, size_t count);

/* An unblocked answer in the lent numbers, of so many states: written as a record and read again it is the same table; the check says that it fits,
 * and reaches with each state the pairs of its set. */
void fits_as_it_is(const struct skid *skid, uint32_t states, const uint64_t *sets, const uint16_t *next);

/* The plain answer, checked as it is: it never leaves, and it fits exactly if the unblocked answer is there and nothing was deleted. */
void deleted_or_fits(const char *name, const struct skid *skid, const struct outcome wanted[MODES]);

/* The test files. */
void test_known(void);
void test_counts(void);
void test_order(void);
void test_steps(void);
void test_rounds(void);
void test_chains(void);
void test_cascades(void);
void test_falls(void);
void test_subsets(void);
void test_limits(void);
void test_words(void);
void test_good_words(void);
void test_inside(void);
void test_random(void);
void test_damaged(void);

#endif
