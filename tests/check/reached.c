/* 0, 15 and 16: "the triples (a, c, controller state) reached by combined words within the specification whose controller word the
 * controller can run", and the sets that are written of them. Bit a times specification states plus c is the pair (a, c). */
#include "cases.h"

#define LOOP "1 1 1 | 0 0 0 0"                         /* a controller of one state, U = V = 1 */
#define O_IS_0 "2 2 1 | 0 0 0 0 | 0 1 0 0"             /* a specification: I = O = 2, o=0 on each i */
#define O_IS_V "1 2 1 2 1 | 0 0 0 0 0 0 | 0 0 1 0 1 0" /* a context: V = O = 2, o follows v */
#define NEVER_1 "1 2 1 | 0 0 0 0"                      /* a specification: O = 2, o=0 alone */

static const struct small_check cases[] = {
    /* a pair's halves: the context goes 0 1 1 .., the specification 0 1 2 2 .. */
    {"pairs (0,0) (1,1) (1,2)", "1 1 1 1 2 | 0 0 0 0 0 1 | 1 0 0 0 0 1", "1 1 3 | 0 0 0 1 | 1 0 0 2 | 2 0 0 2", LOOP, 0, 1, {1 + 16 + 32}},
    {"the same by two controller states", "1 1 1 1 2 | 0 0 0 0 0 1 | 1 0 0 0 0 1", "1 1 3 | 0 0 0 1 | 1 0 0 2 | 2 0 0 2",
     "1 1 2 | 0 0 0 1 | 1 0 0 0", 0, 2, {1 + 32, 16 + 32}},
    {"pairs (0,0) (1,1) (2,1)", "1 1 1 1 3 | 0 0 0 0 0 1 | 1 0 0 0 0 2 | 2 0 0 0 0 2", "1 1 2 | 0 0 0 1 | 1 0 0 1", LOOP, 0, 1, {1 + 8 + 32}},
    {"the specification stays, the context goes on", "1 1 1 1 3 | 0 0 0 0 0 1 | 1 0 0 0 0 2 | 2 0 0 0 0 2", "1 1 2 | 0 0 0 0", LOOP, 0, 1,
     {1 + 4 + 16}},
    {"the context stays, the specification goes on", "1 1 1 1 2 | 0 0 0 0 0 0", "1 1 3 | 0 0 0 1 | 1 0 0 2 | 2 0 0 2", LOOP, 0, 1, {1 + 2 + 4}},
    /* empty sets */
    {"states beyond what is reached", O_IS_V, NEVER_1, "1 2 5 | 0 0 0 3 | 1 0 0 1 | 2 0 1 2 | 3 0 0 0", 0, 5, {1, 0, 0, 1, 0}},
    {"a state that own rows reach and joint steps do not", "1 1 1 2 1 | 0 0 0 0 0 0", "1 1 1 | 0 0 0 0",
     "1 2 3 | 0 0 0 0 | 0 0 1 1 | 1 0 0 2 | 2 0 0 2", 0, 3, {1, 0, 0}},
    {"behind an empty set everything may stand", O_IS_V, NEVER_1, "1 2 3 | 0 0 0 0 | 1 0 1 2 | 2 0 1 1", 0, 3, {1, 0, 0}},
    /* 15 */
    {"leaves in the third controller state", O_IS_V, NEVER_1, "1 2 3 | 0 0 0 1 | 1 0 0 2 | 2 0 1 0", 15, 0, {1, 1, 1}},
    {"leaves by its second v", O_IS_V, NEVER_1, "1 2 1 | 0 0 0 0 | 0 0 1 0", 15, 0, {1}},
    {"leaves by its second v into another state", O_IS_V, NEVER_1, "1 2 2 | 0 0 0 0 | 0 0 1 1 | 1 0 0 1", 15, 0, {1, 0}},
    {"leaves in the specification's second state", "1 2 1 1 1 | 0 0 0 0 0 0", "1 2 2 | 0 0 0 1 | 1 0 1 0", LOOP, 15, 0, {3}},
    {"a row whose letter the controller lacks does not leave", O_IS_V, NEVER_1, "1 2 1 | 0 0 0 0", 0, 1, {1}},
    {"i and o are not exchanged: fits", "2 2 1 1 1 | 0 0 0 0 1 0 | 0 1 0 0 1 0", "2 2 1 | 0 0 1 0 | 0 1 1 0", LOOP, 0, 1, {1}},
    {"i and o are not exchanged: leaves", "2 2 1 1 1 | 0 0 0 0 1 0 | 0 1 0 0 1 0", "2 2 1 | 0 1 0 0 | 0 1 1 0", LOOP, 15, 0, {1}},
    {"u and v are not exchanged: fits", "1 2 2 2 1 | 0 0 0 1 0 0 | 0 0 1 0 1 0", NEVER_1, "2 2 1 | 0 0 0 0 | 0 1 0 0", 0, 1, {1}},
    {"u and v are not exchanged: leaves", "1 2 2 2 1 | 0 0 0 1 1 0 | 0 0 1 0 0 0", NEVER_1, "2 2 1 | 0 0 0 0 | 0 1 0 0", 15, 0, {1}},
    {"leaves in the third context state", "1 2 1 1 3 | 0 0 0 0 0 1 | 1 0 0 0 0 2 | 2 0 0 0 1 0", NEVER_1, LOOP, 15, 0, {7}},
    /* 15: what is reached after the first step that leaves, and what is not */
    {"the first row leaves, others go on",
     "2 2 1 1 4 | 0 0 0 0 1 0 | 0 1 0 0 0 1 | 1 0 0 0 0 2 | 1 1 0 0 0 2 | 2 0 0 0 0 3 | 2 1 0 0 0 3 | 3 0 0 0 0 3 | 3 1 0 0 0 3",
     O_IS_0, LOOP, 15, 0, {15}},
    {"each state has a row that leaves and one that goes on",
     "2 2 1 1 4 | 0 0 0 0 1 0 | 0 1 0 0 0 1 | 1 0 0 0 1 0 | 1 1 0 0 0 2 | 2 0 0 0 1 0 | 2 1 0 0 0 3 | 3 0 0 0 1 0 | 3 1 0 0 0 3",
     O_IS_0, LOOP, 15, 0, {15}},
    {"what a step that leaves leads to is not reached",
     "2 2 1 1 3 | 0 0 0 0 1 1 | 0 1 0 0 0 2 | 1 0 0 0 0 1 | 1 1 0 0 0 1 | 2 0 0 0 0 2 | 2 1 0 0 0 2",
     O_IS_0, LOOP, 15, 0, {1 + 4}},
    {"the first controller state leaves, the others go on", O_IS_V, NEVER_1, "1 2 4 | 0 0 0 1 | 0 0 1 0 | 1 0 0 2 | 2 0 0 3 | 3 0 0 3", 15, 0,
     {1, 1, 1, 1}},
    {"a controller state entered only by a step that leaves", O_IS_V, NEVER_1, "1 2 3 | 0 0 0 1 | 0 0 1 2 | 1 0 0 1 | 2 0 0 2", 15, 0, {1, 1, 0}},
    /* 15 before 16 */
    {"15 and 16 in one triple", "2 2 1 1 1 | 0 1 0 0 1 0", O_IS_0, LOOP, 15, 0, {1}},
    {"16 at the start, 15 later", "2 2 1 1 2 | 0 1 0 0 0 1 | 1 0 0 0 1 0", O_IS_0, LOOP, 15, 0, {3}},
    {"15 at the start, 16 later", "2 2 1 1 2 | 0 0 0 0 1 0 | 0 1 0 0 0 1", O_IS_0, LOOP, 15, 0, {3}},
    {"16 in controller state 0, 15 in controller state 1", "2 2 1 2 1 | 0 0 0 0 0 0 | 0 0 1 0 1 0 | 0 1 1 0 0 0", O_IS_0,
     "1 2 2 | 0 0 0 1 | 1 0 1 1", 15, 0, {1, 1}},
    /* 16 */
    {"an empty context", "3 2 1 1 2", "3 2 2 | 0 0 0 0", LOOP, 16, 0, {1}},
    {"an empty context, every step of the controller", "1 1 2 2 1", "1 1 1", "2 2 2 | 0 0 0 1 | 0 0 1 1 | 0 1 0 1 | 0 1 1 1 | 1 0 0 0 | 1 1 1 0", 16,
     0, {1, 0}},
    {"an empty context and an empty specification", "1 1 1 1 1", "1 1 1", LOOP, 16, 0, {1}},
    {"the first i lacks", "3 1 1 1 1 | 0 1 0 0 0 0 | 0 2 0 0 0 0", "3 1 1 | 0 0 0 0 | 0 1 0 0 | 0 2 0 0", LOOP, 16, 0, {1}},
    {"the middle i lacks", "3 1 1 1 1 | 0 0 0 0 0 0 | 0 2 0 0 0 0", "3 1 1 | 0 0 0 0 | 0 1 0 0 | 0 2 0 0", LOOP, 16, 0, {1}},
    {"the last i lacks", "3 1 1 1 1 | 0 0 0 0 0 0 | 0 1 0 0 0 0", "3 1 1 | 0 0 0 0 | 0 1 0 0 | 0 2 0 0", LOOP, 16, 0, {1}},
    {"no i lacks", "3 1 1 1 1 | 0 0 0 0 0 0 | 0 1 0 0 0 0 | 0 2 0 0 0 0", "3 1 1 | 0 0 0 0 | 0 1 0 0 | 0 2 0 0", LOOP, 0, 1, {1}},
    {"the specification lacks the i too: it still blocks", "2 1 1 1 1 | 0 0 0 0 0 0", "2 1 1 | 0 0 0 0", LOOP, 16, 0, {1}},
    {"blocks in the second controller state", "2 1 1 2 1 | 0 0 0 0 0 0 | 0 0 1 0 0 0 | 0 1 0 0 0 0", "2 1 1 | 0 0 0 0 | 0 1 0 0",
     "1 2 2 | 0 0 0 1 | 1 0 1 1", 16, 0, {1, 1}},
    {"the same, but nothing enters that state", "2 1 1 2 1 | 0 0 0 0 0 0 | 0 0 1 0 0 0 | 0 1 0 0 0 0", "2 1 1 | 0 0 0 0 | 0 1 0 0",
     "1 2 2 | 0 0 0 0 | 1 0 1 1", 0, 2, {1, 0}},
    {"blocks in a context state two steps away", "1 1 1 1 3 | 0 0 0 0 0 1 | 1 0 0 0 0 2", "1 1 1 | 0 0 0 0", LOOP, 16, 0, {7}},
    {"another row of the same i continues", "1 1 2 2 1 | 0 0 0 0 0 0 | 0 0 1 1 0 0", "1 1 1 | 0 0 0 0", "2 2 1 | 0 0 1 0 | 0 1 1 0", 0, 1, {1}},
    {"no row of this i has a letter of the controller", "1 1 2 2 1 | 0 0 0 0 0 0 | 0 0 1 1 0 0", "1 1 1 | 0 0 0 0", "2 2 1 | 0 0 1 0 | 0 1 0 0", 16,
     0, {1}},
    /* one key part, two next states: a context that sends either u, or does either o */
    {"one i and v, two u that lead apart", "1 1 2 1 3 | 0 0 0 0 0 1 | 0 0 0 1 0 2 | 1 0 0 0 0 1 | 2 0 0 1 0 2", "1 1 1 | 0 0 0 0",
     "2 1 3 | 0 0 0 1 | 0 1 0 2 | 1 0 0 1 | 1 1 0 1 | 2 0 0 2 | 2 1 0 2", 0, 3, {1, 2, 4}},
    {"one letter, two o that lead apart", "1 2 1 1 3 | 0 0 0 0 0 1 | 0 0 0 0 1 2 | 1 0 0 0 0 1 | 2 0 0 0 1 2", "1 2 2 | 0 0 0 0 | 0 0 1 1 | 1 0 1 1",
     LOOP, 0, 1, {1 + 4 + 32}},
    {"one letter, two o, one of which leaves", "1 2 1 1 2 | 0 0 0 0 0 1 | 0 0 0 0 1 0 | 1 0 0 0 0 1", NEVER_1, LOOP, 15, 0, {3}},
};

void test_reached(void) { check_all(cases, sizeof cases / sizeof cases[0]); }
