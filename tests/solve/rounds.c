/* The rounds of deletion on small skids, by hand: what falls, when, and how the rest is numbered. With one specification state, bit a of a set is
 * context state a. */
#include "cases.h"
#include "known.h"

#define ONE_TO_3_AND_4                                                                                                                               \
    "2 1 1 2 5 | 0 0 0 0 0 1 | 0 0 1 0 0 2 | 0 1 0 0 0 1 | 0 1 1 0 0 2 | 1 0 0 0 0 3 | 1 0 1 0 0 3 | 2 0 0 0 0 4 | 2 0 1 0 0 3"                      \
    " | 2 1 0 0 0 4 | 2 1 1 0 0 3 | 3 0 0 0 0 3 | 3 0 1 0 0 3 | 3 1 0 0 0 3 | 3 1 1 0 0 3 | 4 0 0 0 0 4 | 4 0 1 0 0 4 | 4 1 0 0 0 4"                 \
    " | 4 1 1 0 0 4"

static const struct small_solve cases[] = {
    /* state 1 has no rows; state 2 goes on for ever. The empty set is reached through 1 alone */
    {"what only a deleted state leads to",
     "1 1 1 2 3 | 0 0 0 0 0 1 | 0 0 1 0 0 2 | 2 0 0 0 0 2 | 2 0 1 0 0 2",
     FREE_1,
     {4, 0, {1, 2, 4, 0}, "1 2 | 3 3 | 2 2 | 3 3"},
     {2, 1, {1, 4}, "- 1 | 1 1"}},
    /* 1 lacks i=1 and falls. It was the first to find 3; now 2 finds 4 before 3 */
    {"numbered afresh, in another order",
     ONE_TO_3_AND_4,
     FREE_2,
     {5, 0, {1, 2, 4, 8, 16}, "1 2 | 3 3 | 4 3 | 3 3 | 4 4"},
     {4, 1, {1, 4, 16, 8}, "- 1 | 2 3 | 2 2 | 3 3"}},
    /* u=1 is never sent; 1 has no rows */
    {"the empty set stays",
     "1 1 2 2 2 | 0 0 0 0 0 0 | 0 0 1 0 0 1",
     FREE_1,
     {3, 0, {1, 2, 0}, "0 1 2 2 | 2 2 2 2 | 2 2 2 2"},
     {2, 1, {1, 0}, "0 - 1 1 | 1 1 1 1"}},
    /* the start lacks i=1 and falls with 3, which has no rows; then 2, then 1 */
    {"deletion goes on when the start is gone",
     "2 1 1 1 4 | 0 0 0 0 0 1 | 1 0 0 0 0 2 | 1 1 0 0 0 2 | 2 0 0 0 0 3 | 2 1 0 0 0 3",
     FREE_2,
     {5, 0, {1, 2, 4, 8, 0}, "1 | 2 | 3 | 4 | 4"},
     NONE_AFTER(3)},
    /* v=0 leads to {1, 2}, and 2 lacks i=1. Pair 1 by itself would pass */
    {"a set falls by one of its pairs",
     "2 1 1 2 4 | 0 0 0 0 0 1 | 0 0 1 0 0 3 | 0 1 0 0 0 2 | 0 1 1 0 0 3 | 1 0 0 0 0 1 | 1 0 1 0 0 1 | 1 1 0 0 0 1 | 1 1 1 0 0 1"
     " | 2 0 0 0 0 1 | 2 0 1 0 0 1 | 3 0 0 0 0 3 | 3 0 1 0 0 3 | 3 1 0 0 0 3 | 3 1 1 0 0 3",
     FREE_2,
     {4, 0, {1, 6, 8, 2}, "1 2 | 3 3 | 2 2 | 3 3"},
     {2, 1, {1, 8}, "- 1 | 1 1"}},
    /* 1 goes on by u=0 for its only i, but u=1 is absent by both v */
    {"a u without a v, although each i goes on",
     "1 2 2 2 3 | 0 0 0 0 0 1 | 0 0 1 0 0 2 | 1 0 0 0 0 1 | 1 0 0 1 1 1 | 1 0 1 0 0 1 | 1 0 1 1 1 1 | 2 0 0 0 0 2 | 2 0 1 0 0 2",
     "1 2 1 | 0 0 0 0",
     {4, 0, {1, 2, 4, 0}, "1 2 3 3 | 1 1 - - | 2 2 3 3 | 3 3 3 3"},
     {3, 1, {1, 4, 0}, "- 1 2 2 | 1 1 2 2 | 2 2 2 2"}},
    /* i=0 goes on by v=0 alone and i=1 by v=1 alone, to 1, which lacks i=1 */
    {"each i by a v of its own",
     "2 1 1 2 2 | 0 0 0 0 0 0 | 0 1 1 0 0 1 | 1 0 0 0 0 1 | 1 0 1 0 0 1",
     FREE_2,
     {2, 0, {1, 2}, "0 1 | 1 1"},
     NONE_AFTER(2)},
    /* the same, and i=1 goes on by v=0 too */
    {"an i by either v",
     "2 1 1 2 2 | 0 0 0 0 0 0 | 0 1 0 0 0 0 | 0 1 1 0 0 1 | 1 0 0 0 0 1 | 1 0 1 0 0 1",
     FREE_2,
     {2, 0, {1, 2}, "0 1 | 1 1"},
     {1, 1, {1}, "0 -"}},
    /* o follows v; the specification's second state has no rows. Pair (0, 1) is bit 1 */
    {"the specification's second state has no rows",
     "1 2 1 2 1 | 0 0 0 0 0 0 | 0 0 1 0 1 0",
     "1 2 2 | 0 0 0 0 | 0 0 1 1",
     {2, 0, {1, 2}, "0 1 | - -"},
     {1, 1, {1}, "0 -"}},
    /* 1 has no rows, and 2 leads to 1 alone: 2 falls a round after 1, although its number is higher */
    {"a round deletes at once",
     "1 1 1 2 3 | 0 0 0 0 0 1 | 0 0 1 0 0 2 | 2 0 0 0 0 1 | 2 0 1 0 0 1",
     FREE_1,
     {4, 0, {1, 2, 4, 0}, "1 2 | 3 3 | 1 1 | 3 3"},
     NONE_AFTER(3)},
    /* 1 and 2 lead to each other and lack i=1, so each by itself falls; 3 loops */
    {"two that lead to each other fall in one round",
     "2 1 1 2 4 | 0 0 0 0 0 1 | 0 0 1 0 0 3 | 0 1 0 0 0 1 | 0 1 1 0 0 3 | 1 0 0 0 0 2 | 1 0 1 0 0 2 | 2 0 0 0 0 1 | 2 0 1 0 0 1"
     " | 3 0 0 0 0 3 | 3 0 1 0 0 3 | 3 1 0 0 0 3 | 3 1 1 0 0 3",
     FREE_2,
     {4, 0, {1, 2, 8, 4}, "1 2 | 3 3 | 2 2 | 1 1"},
     {2, 1, {1, 8}, "- 1 | 1 1"}},
    /* 2 leads back to 1 and to 3, which has no rows: 1 and 2 stay, going round */
    {"a ring that loses its way out stays",
     "1 1 1 2 4 | 0 0 0 0 0 1 | 0 0 1 0 0 1 | 1 0 0 0 0 2 | 1 0 1 0 0 2 | 2 0 0 0 0 3 | 2 0 1 0 0 1",
     FREE_1,
     {5, 0, {1, 2, 4, 8, 0}, "1 1 | 2 2 | 3 1 | 4 4 | 4 4"},
     {3, 1, {1, 2, 4}, "1 1 | 2 2 | - 1"}},
};

void test_rounds(void) { solve_all(cases, sizeof cases / sizeof cases[0]); }
