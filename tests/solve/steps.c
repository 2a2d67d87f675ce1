/* The step from a set by (u, v), by hand: what is reached, what is absent, what is empty, and the numbers of the sets. Bit a times specification
 * states plus c is the pair (a, c). Of the unblocked answer there is nothing here but whether it is the plain one or none; see rounds.c. */
#include "cases.h"
#include "known.h"

#define O_IS_0 "2 2 1 | 0 0 0 0 | 0 1 0 0"             /* a specification: I = O = 2, o=0 on each i */
#define NEVER_1 "1 2 1 | 0 0 0 0"                      /* a specification: O = 2, o=0 alone */
#define O_IS_V "1 2 1 2 1 | 0 0 0 0 0 0 | 0 0 1 0 1 0" /* a context: V = O = 2, o follows v */

static const struct small_solve cases[] = {
    /* a pair's halves: the context goes 0 1 1 .., the specification 0 1 2 2 ..; and the other way round */
    {"pairs (0,0) (1,1) (1,2)",
     "1 1 1 1 2 | 0 0 0 0 0 1 | 1 0 0 0 0 1",
     "1 1 3 | 0 0 0 1 | 1 0 0 2 | 2 0 0 2",
     {3, 0, {1, 16, 32}, "1 | 2 | 2"},
     AS_PLAIN},
    {"pairs (0,0) (1,1) (2,1)",
     "1 1 1 1 3 | 0 0 0 0 0 1 | 1 0 0 0 0 2 | 2 0 0 0 0 2",
     "1 1 2 | 0 0 0 1 | 1 0 0 1",
     {3, 0, {1, 8, 32}, "1 | 2 | 2"},
     AS_PLAIN},
    {"pairs (0,0) (0,1) (1,0) (1,1)",
     "1 2 1 2 2 | 0 0 0 0 0 0 | 0 0 1 0 1 1 | 1 0 0 0 0 1 | 1 0 1 0 1 1",
     "1 2 2 | 0 0 0 1 | 0 0 1 0 | 1 0 0 1 | 1 0 1 1",
     {4, 0, {1, 2, 4, 8}, "1 2 | 1 3 | 3 2 | 3 3"},
     AS_PLAIN},
    /* sets of several pairs */
    {"two inputs, two pairs", "2 1 1 1 2 | 0 0 0 0 0 0 | 0 1 0 0 0 1 | 1 0 0 0 0 1", FREE_2, {2, 0, {1, 3}, "1 | 1"}, NONE_AFTER(2)},
    {"two rows to one pair", "2 1 1 1 2 | 0 0 0 0 0 1 | 0 1 0 0 0 1", FREE_2, {3, 0, {1, 2, 0}, "1 | 2 | 2"}, NONE_AFTER(2)},
    {"one set, its pairs found in two orders",
     "2 1 2 1 3 | 0 0 0 0 0 1 | 0 0 0 1 0 2 | 0 1 0 0 0 2 | 0 1 0 1 0 1",
     FREE_2,
     {3, 0, {1, 6, 0}, "1 1 | 2 2 | 2 2"},
     NONE_AFTER(2)},
    {"two o, two specification states",
     "1 2 1 1 1 | 0 0 0 0 0 0 | 0 0 0 0 1 0",
     "1 2 2 | 0 0 0 0 | 0 0 1 1 | 1 0 0 0 | 1 0 1 1",
     {2, 0, {1, 3}, "1 | 1"},
     AS_PLAIN},
    {"a pair of the set has no row for the letter",
     "2 1 1 2 2 | 0 0 0 0 0 0 | 0 1 0 0 0 1 | 1 0 1 0 0 0",
     FREE_2,
     {3, 0, {1, 3, 0}, "1 2 | 1 0 | 2 2"},
     NONE_AFTER(2)},
    {"a set that is a part of another",
     "2 1 1 2 2 | 0 0 0 0 0 0 | 0 1 0 0 0 1 | 1 0 1 0 0 1",
     FREE_2,
     {4, 0, {1, 3, 0, 2}, "1 2 | 1 3 | 2 2 | 2 3"},
     NONE_AFTER(2)},
    /* absent steps: no specification row */
    {"v=1 is absent", O_IS_V, NEVER_1, {1, 0, {1}, "0 -"}, AS_PLAIN},
    {"v=0 is absent", O_IS_V, "1 2 1 | 0 0 1 0", {1, 0, {1}, "- 0"}, AS_PLAIN},
    {"absent in the specification's second state", "1 2 1 1 1 | 0 0 0 0 0 0", "1 2 2 | 0 0 0 1 | 1 0 1 0", {2, 0, {1, 2}, "1 | -"}, NONE_AFTER(2)},
    {"absent for one pair of the set",
     "2 2 1 2 2 | 0 0 0 0 0 0 | 0 0 1 0 0 0 | 0 1 0 0 0 1 | 1 0 1 0 1 1",
     O_IS_0,
     {2, 0, {1, 3}, "1 0 | 1 -"},
     NONE_AFTER(2)},
    {"absent by the first row, others go on", "2 2 1 1 2 | 0 0 0 0 1 1 | 0 1 0 0 0 1", O_IS_0, {1, 0, {1}, "-"}, NONE_AFTER(1)},
    {"absent by the last row, others go on", "2 2 1 1 2 | 0 0 0 0 0 1 | 0 1 0 0 1 1", O_IS_0, {1, 0, {1}, "-"}, NONE_AFTER(1)},
    {"the specification goes on by o", O_IS_V, "1 2 2 | 0 0 0 0 | 0 0 1 1 | 1 0 1 1", {2, 0, {1, 2}, "0 1 | - 1"}, AS_PLAIN},
    {"i and o are not exchanged: present", "2 2 1 1 1 | 0 0 0 0 1 0", "2 2 1 | 0 0 1 0", {1, 0, {1}, "0"}, NONE_AFTER(1)},
    {"i and o are not exchanged: absent", "2 2 1 1 1 | 0 0 0 0 1 0", "2 2 1 | 0 1 0 0", {1, 0, {1}, "-"}, NONE_AFTER(1)},
    {"u and v are not exchanged", "1 2 2 2 1 | 0 0 0 1 1 0 | 0 0 1 0 0 0", NEVER_1, {2, 0, {1, 0}, "1 0 - 1 | 1 1 1 1"}, AS_PLAIN},
    {"u=2 of 3, v=0 of 2", "1 2 3 2 1 | 0 0 0 2 1 0", NEVER_1, {2, 0, {1, 0}, "1 1 1 1 - 1 | 1 1 1 1 1 1"}, NONE_AFTER(1)},
    {"u=0 of 2, v=2 of 3", "1 2 2 3 1 | 0 0 2 0 1 0", NEVER_1, {2, 0, {1, 0}, "1 1 - 1 1 1 | 1 1 1 1 1 1"}, NONE_AFTER(1)},
    {"a specification without rows", "1 1 2 1 1 | 0 0 0 0 0 0", "1 1 1", {2, 0, {1, 0}, "- 1 | 1 1"}, NONE_AFTER(1)},
    {"both without rows", "1 1 1 1 1", "1 1 1", {2, 0, {1, 0}, "1 | 1"}, NONE_AFTER(1)},
    /* beyond an absent step nothing is looked at; nor are states that nothing reaches */
    {"what an absent step would lead to",
     "1 2 1 2 3 | 0 0 0 0 0 1 | 0 0 1 0 1 2 | 1 0 0 0 0 1 | 2 0 0 0 0 2",
     NEVER_1,
     {3, 0, {1, 2, 0}, "1 - | 1 2 | 2 2"},
     AS_PLAIN},
    {"a context state that nothing reaches", "1 2 1 1 2 | 0 0 0 0 0 0 | 1 0 0 0 1 1", NEVER_1, {1, 0, {1}, "0"}, AS_PLAIN},
    {"a specification state that nothing reaches", "1 1 1 1 1 | 0 0 0 0 0 0", "1 1 2 | 0 0 0 0", {1, 0, {1}, "0"}, AS_PLAIN},
    /* numbers: u before v, and a step that leads back */
    {"u before v, the empty set between",
     "1 1 2 2 3 | 0 0 0 1 0 1 | 0 0 1 0 0 2",
     "1 1 2 | 0 0 0 1 | 1 0 0 0",
     {4, 0, {1, 0, 32, 8}, "1 2 3 1 | 1 1 1 1 | 1 1 1 1 | 1 1 1 1"},
     NONE_AFTER(2)},
    {"each letter to a state of its own",
     "1 1 2 2 5 | 0 0 0 0 0 1 | 0 0 0 1 0 2 | 0 0 1 0 0 3 | 0 0 1 1 0 4",
     FREE_1,
     {6, 0, {1, 2, 8, 4, 16, 0}, "1 2 3 4 | 5 5 5 5 | 5 5 5 5 | 5 5 5 5 | 5 5 5 5 | 5 5 5 5"},
     NONE_AFTER(2)},
    {"states upward: those of state 1 before those of state 2",
     "1 1 1 2 5 | 0 0 0 0 0 2 | 0 0 1 0 0 1 | 1 0 0 0 0 3 | 1 0 1 0 0 3 | 2 0 0 0 0 4 | 2 0 1 0 0 4 | 3 0 0 0 0 0 | 3 0 1 0 0 0"
     " | 4 0 0 0 0 4 | 4 0 1 0 0 2",
     FREE_1,
     {5, 0, {1, 4, 2, 16, 8}, "1 2 | 3 3 | 4 4 | 3 1 | 0 0"},
     AS_PLAIN},
};

void test_steps(void) { solve_all(cases, sizeof cases / sizeof cases[0]); }
