/* Skids with a number of sets that is told beforehand, around the limit of 512.
 *
 * n context states stand in a ring, and by the four letters of U = V = 2 every set of them comes about that is not empty: (0,0) turns the ring,
 * (0,1) exchanges places 0 and 1, (1,0) adds place 1 where place 0 is there, and (1,1) does one of the things below. In front of the ring stands
 * a row of states that are passed once. The specification goes round by every step, so each set comes about once for each of its states. */
#include "cases.h"

#include <stdio.h>

enum last {
    IS_ABSENT, /* the specification has no row for it: nothing comes of it */
    DIES_OUT,  /* the context has no row for it: the empty set comes too */
    LOSES_ONE, /* one state of the ring has no row for it, the others stay: the empty set comes too, when it was alone */
};
static const char *const lasts[] = {"is absent", "dies out", "loses one"};

static struct skid skid;

/* Place p of the ring. */
static unsigned at(unsigned front, unsigned n, unsigned p) { return front + p % n; }

/* The rows of place p, in the order of their keys: i, then v before u. The row of i=1 adds place 1. */
static void ring_rows(unsigned front, unsigned n, unsigned p, enum last last) {
    struct record *r = &skid.context;
    unsigned state = at(front, n, p), other = p < 2 ? 1 - p : p;
    context_row(r, state, 0, 0, 0, 0, at(front, n, p + 1));
    context_row(r, state, 0, 0, 1, 0, state);
    context_row(r, state, 0, 1, 0, 0, at(front, n, other));
    if (last == IS_ABSENT || (last == LOSES_ONE && p != 0)) context_row(r, state, 0, 1, 1, last == IS_ABSENT, state);
    if (p == 0) context_row(r, state, 1, 0, 1, 0, at(front, n, 1));
}

static void subsets_case(unsigned front, unsigned n, unsigned c_states, enum last last) {
    size_t states = front + (((size_t)1 << n) - 1) * c_states;
    char name[150];
    begin_context(&skid.context, 2, 2, 2, 2, front + n);
    for (unsigned a = 0; a < front; a++)
        for (unsigned k = 0; k < 4; k++) context_row(&skid.context, a, 0, k / 2, k % 2, 0, a + 1);
    for (unsigned p = 0; p < n; p++) ring_rows(front, n, p, last);
    begin_specification(&skid.specification, 2, 2, c_states);
    for (unsigned k = 0; k < 2 * c_states; k++) specification_row(&skid.specification, k / 2, k % 2, 0, (k / 2 + 1) % c_states);
    if (last != IS_ABSENT) states++;
    snprintf(name, sizeof name, "%u states and a ring of %u, %u specification states, (1,1) %s: %zu sets", front, n, c_states, lasts[last], states);
    states_case(name, &skid, states);
}

/* The sets of K11 told by the specification: there is one context state. By v=1 the i may be 1, which brings state 1 in; what falls out behind the
 * last state is state 0, which is there already. */
static void lights_case(unsigned c_states) {
    size_t states = (size_t)1 << (c_states - 1);
    char name[100];
    snprintf(name, sizeof name, "lights of %u specification states: %zu sets", c_states, states);
    from_rows(&skid.context, CONTEXT, "2 1 1 2 1 | 0 0 0 0 0 0 | 0 0 1 0 0 0 | 0 1 1 0 0 0");
    begin_specification(&skid.specification, 2, 1, c_states);
    for (unsigned k = 0; k < 2 * c_states; k++) specification_row(&skid.specification, k / 2, k % 2, 0, k < 2 ? k : (k / 2 + 1) % c_states);
    states_case(name, &skid, states);
}

void test_subsets(void) {
    for (enum last last = IS_ABSENT; last <= LOSES_ONE; last++) {
        for (unsigned n = 2; n <= 10; n++) subsets_case(0, n, 1, last); /* 9: 511, 512 */
        for (unsigned front = 1; front <= 3; front++) {
            subsets_case(front, 9, 1, last); /* 512, 513, 514 and one more */
            subsets_case(front, 8, 2, last); /* 511, 512, 513 and one more */
            subsets_case(front, 7, 4, last); /* 509, 510, 511 and one more */
            subsets_case(front, 6, 7, last);
            if (front < 3) subsets_case(front, 6, 8, last);
            subsets_case(front, 3, 10, last);
        }
        subsets_case(4, 7, 4, last); /* 512 */
        subsets_case(5, 7, 4, last); /* 513 */
        subsets_case(0, 6, 10, last);
        subsets_case(50, 8, 1, last);
        subsets_case(54, 10, 1, last);
    }
    for (unsigned c_states = 2; c_states <= 12; c_states++) lights_case(c_states);
}
