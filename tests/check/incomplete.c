/* 14: "incomplete if a state reached by its own rows has no row for some u". Own rows count whatever the context does; states that they do not
 * reach are not asked. Contexts and specifications here let everything else pass: they loop on what they have. */
#include "cases.h"

#include <stdio.h>

#define FREE "1 1 1 | 0 0 0 0"
#define ANY_U1 "1 1 1 1 1 | 0 0 0 0 0 0"                            /* U = 1, V = 1 */
#define ONLY_U0 "1 1 2 1 1 | 0 0 0 0 0 0"                           /* U = 2, but the context sends u=0 alone */
#define ANY_U2 "1 1 2 1 1 | 0 0 0 0 0 0 | 0 0 0 1 0 0"              /* U = 2, both sent */
#define ONLY_V0 "1 1 1 2 1 | 0 0 0 0 0 0"                           /* V = 2, but the context goes on with v=0 alone */
#define U3_V3 "1 1 3 3 1 | 0 0 2 0 0 0 | 0 0 2 1 0 0 | 0 0 2 2 0 0" /* U = V = 3; it goes on with v=2 */

static const struct small_check cases[] = {
    /* which states are asked */
    {"no rows at all", ANY_U1, FREE, "1 1 1", 14, 0, {0}},
    {"no rows, three states", ANY_U1, FREE, "1 1 3", 14, 0, {0}},
    {"rows, but none of state 0", ANY_U1, FREE, "1 1 2 | 1 0 0 0", 14, 0, {0}},
    {"an unreached state without rows", ANY_U1, FREE, "1 1 2 | 0 0 0 0", 0, 2, {1, 0}},
    {"unreached states without rows, before and after", ANY_U1, FREE, "1 1 4 | 0 0 0 2 | 2 0 0 0", 0, 4, {1, 0, 1, 0}},
    {"an unreached state that leads to one without rows", ANY_U1, FREE, "1 1 3 | 0 0 0 0 | 1 0 0 2", 0, 3, {1, 0, 0}},
    {"an unreached state with some u only", ANY_U2, FREE, "2 1 2 | 0 0 0 0 | 0 1 0 0 | 1 0 0 0", 0, 2, {1, 0}},
    {"a reached state without rows", ANY_U1, FREE, "1 1 2 | 0 0 0 1", 14, 0, {0}},
    {"a reached state without rows, two steps away", ANY_U1, FREE, "1 1 3 | 0 0 0 2 | 2 0 0 1", 14, 0, {0}},
    {"the last state, without rows", ANY_U2, FREE, "2 1 4 | 0 0 0 1 | 0 1 0 2 | 1 0 0 0 | 1 1 0 1 | 2 0 0 3 | 2 1 0 0", 14, 0, {0}},
    /* by what they are reached */
    {"reached by a u that the context never sends", ONLY_U0, FREE, "2 1 2 | 0 0 0 0 | 0 1 0 1 | 1 0 0 0", 14, 0, {0}},
    {"the same, and it replies to each u", ONLY_U0, FREE, "2 1 2 | 0 0 0 0 | 0 1 0 1 | 1 0 0 0 | 1 1 0 0", 0, 2, {1, 0}},
    {"no reply to a u that the context never sends", ONLY_U0, FREE, "2 1 1 | 0 0 0 0", 14, 0, {0}},
    {"reached by a v with which the context does not go on", ONLY_V0, FREE, "1 2 2 | 0 0 0 0 | 0 0 1 1", 14, 0, {0}},
    {"the same, and it has a row", ONLY_V0, FREE, "1 2 2 | 0 0 0 0 | 0 0 1 1 | 1 0 1 1", 0, 2, {1, 0}},
    {"reached by own rows, the context has none", "1 1 1 1 1", FREE, "1 1 2 | 0 0 0 1", 14, 0, {0}},
    {"reached only beyond a step that leaves", "1 2 1 1 1 | 0 0 0 0 1 0", "1 2 1 | 0 0 0 0", "1 1 2 | 0 0 0 1", 14, 0, {0}},
    {"a row from an unreached state does not reach", ANY_U1, FREE, "1 1 3 | 0 0 0 0 | 2 0 0 1", 0, 3, {1, 0, 0}},
    /* what is asked of them: some v for each u */
    {"first u lacks", ANY_U2, FREE, "2 1 1 | 0 1 0 0", 14, 0, {0}},
    {"last u lacks", ANY_U2, FREE, "2 1 1 | 0 0 0 0", 14, 0, {0}},
    {"first u lacks in the second state", ANY_U2, FREE, "2 1 2 | 0 0 0 1 | 0 1 0 0 | 1 1 0 0", 14, 0, {0}},
    {"last u lacks in the second state", ANY_U2, FREE, "2 1 2 | 0 0 0 1 | 0 1 0 0 | 1 0 0 0", 14, 0, {0}},
    {"one v for each u", U3_V3, FREE, "3 3 1 | 0 0 2 0 | 0 1 2 0 | 0 2 2 0", 0, 1, {1}},
    {"another v for each u, which blocks", U3_V3, FREE, "3 3 1 | 0 0 0 0 | 0 1 1 0 | 0 2 0 0", 16, 0, {1}},
    {"the first u has every v, the last has none", U3_V3, FREE, "3 3 1 | 0 0 0 0 | 0 0 1 0 | 0 0 2 0 | 0 1 2 0", 14, 0, {0}},
    {"the middle u lacks", U3_V3, FREE, "3 3 1 | 0 0 0 0 | 0 0 1 0 | 0 0 2 0 | 0 2 0 0 | 0 2 1 0 | 0 2 2 0", 14, 0, {0}},
    /* 14 before what else is wrong */
    {"14 before 15", "1 2 2 1 1 | 0 0 0 0 1 0", "1 2 1 | 0 0 0 0", "2 1 1 | 0 0 0 0", 14, 0, {0}},
    {"14 before 16", "1 1 2 1 1", FREE, "2 1 1 | 0 0 0 0", 14, 0, {0}},
    {"14 before 15 and 16", "2 2 2 1 1 | 0 0 0 0 1 0", "2 2 1 | 0 0 0 0", "2 1 1 | 0 0 0 0", 14, 0, {0}},
};

/* A chain through all states. Upward it goes 0, 1, 2, ..; downward 0, the last, the one before it, .., 1. The end lacks a row, or loops. */
static void chain_case(unsigned states, int downward, int ends) {
    static struct input in;
    char name[100];
    snprintf(name, sizeof name, "a chain of %u states %s, %s row at its end", states, downward ? "downward" : "upward", ends ? "no" : "a");
    input_from_rows(&in, ANY_U1, FREE, "1 1 1");
    begin_controller(&in.controller, 1, 1, states);
    unsigned last = downward ? 1 : states - 1;
    for (unsigned state = 0; state < states; state++) {
        unsigned next = downward ? (state == 0 ? states - 1 : state - 1) : state + 1;
        if (state != last) controller_row(&in.controller, state, 0, 0, next);
        if (state == last && !ends) controller_row(&in.controller, state, 0, 0, state);
    }
    verdict_case(name, &in, ends ? 14 : 0);
}

void test_incomplete(void) {
    static const unsigned states[] = {2, 3, 65, 256, 257, 511, 512};
    check_all(cases, sizeof cases / sizeof cases[0]);
    for (size_t k = 0; k < sizeof states / sizeof states[0]; k++)
        for (int kind = 0; kind < 4; kind++) chain_case(states[k], kind / 2, kind % 2);
}
