/* The skids of document 01, K1 to K12, with controllers of which the verdict follows from 01's words. With one specification state, bit a of a set
 * is context state a. */
#include "cases.h"

#define LOOP "1 1 1 | 0 0 0 0" /* the only controller of one state for U = V = 1 that has a row */

static const struct small_check skids[] = {
    {"K12: row 0 0 0 0 alone", K1_CONTEXT, K1_SPECIFICATION, "2 2 1 | 0 0 0 0", 14, 0, {0}},
    {"K12: always v=1", K1_CONTEXT, K1_SPECIFICATION, "2 2 1 | 0 0 1 0 | 0 1 1 0", 15, 0, {1}},
    {"K12: K1's answer", K1_CONTEXT, K1_SPECIFICATION, K1_ANSWER, 0, 1, {1}},
    {"K1: always v=0", K1_CONTEXT, K1_SPECIFICATION, "2 2 1 | 0 0 0 0 | 0 1 0 0", 15, 0, {1}},
    {"K1: v is the other one than u", K1_CONTEXT, K1_SPECIFICATION, "2 2 1 | 0 0 1 0 | 0 1 0 0", 15, 0, {1}},
    {"K1: every row", K1_CONTEXT, K1_SPECIFICATION, "2 2 1 | 0 0 0 0 | 0 0 1 0 | 0 1 0 0 | 0 1 1 0", 15, 0, {1}},
    {"K1: row 0 1 1 0 alone", K1_CONTEXT, K1_SPECIFICATION, "2 2 1 | 0 1 1 0", 14, 0, {0}},
    {"K1: no rows", K1_CONTEXT, K1_SPECIFICATION, "2 2 1", 14, 0, {0}},
    {"K1: its answer, told by two states", K1_CONTEXT, K1_SPECIFICATION, "2 2 2 | 0 0 0 1 | 0 1 1 0 | 1 0 0 0 | 1 1 1 1", 0, 2, {1, 1}},
    {"K1: wrong in its second state only", K1_CONTEXT, K1_SPECIFICATION, "2 2 2 | 0 0 0 1 | 0 1 1 0 | 1 0 1 0 | 1 1 1 1", 15, 0, {1, 1}},
    {"K2: v=0", K2_CONTEXT, FREE_2, "1 2 1 | 0 0 0 0", 0, 1, {1}},
    {"K2: v=1", K2_CONTEXT, FREE_2, "1 2 1 | 0 0 1 0", 16, 0, {3}},
    {"K2: v=0, then always v=1", K2_CONTEXT, FREE_2, "1 2 2 | 0 0 0 1 | 1 0 1 1", 16, 0, {1, 3}},
    {"K2: its plain answer", K2_CONTEXT, FREE_2, "1 2 2 | 0 0 0 0 | 0 0 1 1 | 1 0 0 1 | 1 0 1 1", 16, 0, {1, 2}},
    {"K3", K3_CONTEXT, K3_SPECIFICATION, LOOP, 15, 0, {1}},
    {"K3: its plain answer", K3_CONTEXT, K3_SPECIFICATION, "1 1 1", 14, 0, {0}},
    {"K4: its answer", K4_CONTEXT, FREE_1, "2 1 2 | 0 0 0 0 | 0 1 0 1 | 1 0 0 1 | 1 1 0 1", 0, 2, {1, 0}},
    {"K4: one state", K4_CONTEXT, FREE_1, "2 1 1 | 0 0 0 0 | 0 1 0 0", 0, 1, {1}},
    {"K4: its answer, but u=1 has no row in state 1", K4_CONTEXT, FREE_1, "2 1 2 | 0 0 0 0 | 0 1 0 1 | 1 0 0 1", 14, 0, {0}},
    {"K5: v=0", K5_CONTEXT, FREE_2, "1 2 1 | 0 0 0 0", 0, 1, {1}},
    {"K5: v=1", K5_CONTEXT, FREE_2, "1 2 1 | 0 0 1 0", 16, 0, {7}},
    {"K5: its plain answer", K5_CONTEXT, FREE_2, "1 2 3 | 0 0 0 0 | 0 0 1 1 | 1 0 0 2 | 1 0 1 2 | 2 0 0 2 | 2 0 1 2", 16, 0, {1, 2, 4}},
    {"K6: row 0 0 0 0 alone", K6_CONTEXT, FREE_2, "1 2 1 | 0 0 0 0", 16, 0, {1}},
    {"K6: row 0 0 1 0 alone", K6_CONTEXT, FREE_2, "1 2 1 | 0 0 1 0", 16, 0, {1}},
    {"K6: both v", K6_CONTEXT, FREE_2, "1 2 1 | 0 0 0 0 | 0 0 1 0", 0, 1, {1}},
    {"K6: both v in state 0, one in state 1", K6_CONTEXT, FREE_2, "1 2 2 | 0 0 0 0 | 0 0 1 1 | 1 0 0 0", 16, 0, {1, 1}},
    {"K7", K7_CONTEXT, K7_SPECIFICATION, LOOP, 15, 0, {1}},
    {"K8", K8_CONTEXT, K3_SPECIFICATION, LOOP, 15, 0, {1}},
    {"K9", K9_CONTEXT, K9_SPECIFICATION, LOOP, 16, 0, {1}},
    {"K10", K10_CONTEXT, FREE_1, LOOP, 16, 0, {1}},
    {"K10: its plain answer", K10_CONTEXT, FREE_1, "1 1 2 | 0 0 0 1 | 1 0 0 1", 16, 0, {1, 0}},
};

/* The builders write the bytes that document 01 has for K1. */
static void test_bytes(void) {
    static struct input in;
    input_from_rows(&in, K1_CONTEXT, K1_SPECIFICATION, K1_ANSWER);
    begin_case("the test itself", "K1 in bytes");
    same_record("context", &in.context, K1_CONTEXT_BYTES);
    same_record("specification", &in.specification, K1_SPECIFICATION_BYTES);
    same_record("controller", &in.controller, K1_ANSWER_BYTES);
    same("MORTARLEAF_SET_NUMBERS", MORTARLEAF_SET_NUMBERS, 512);
}

/* K11 with so many states. The last one has no rows, and each one before it is on the way to it: 16. */
static void test_k11(unsigned states) {
    static struct input in;
    uint64_t sets[SETS] = {(UINT64_C(1) << states) - 1};
    k11(&in.context, &in.specification, states);
    from_rows(&in.controller, CONTROLLER, "2 1 1 | 0 0 0 0 | 0 1 0 0");
    check_case("K11, a controller of one state", &in, reply(16, 0, 0, 0), sets);
}

/* "States 8 and 8 pass, 5 and 13 give 9": K1 as a ring of so many context states and so many specification states, both going on by every row. */
static void test_k12(unsigned context_states, unsigned specification_states, uint32_t number) {
    static struct input in;
    uint64_t sets[SETS] = {0};
    k1_rings_answered(&in, context_states, specification_states, 1, 1);
    if (number == 9) {
        refusal_case("K12, 5 and 13 states", &in, 9, 0, 0);
        return;
    }
    for (unsigned a = 0; a < 8; a++) sets[0] |= UINT64_C(1) << (8 * a + a); /* both rings have gone on equally often */
    check_case("K12, 8 and 8 states", &in, reply(0, 0, 0, 1), sets);
}

void test_known(void) {
    test_bytes();
    check_all(skids, sizeof skids / sizeof skids[0]);
    test_k11(10);
    test_k11(11);
    test_k12(8, 8, 0);
    test_k12(5, 13, 9);
    test_k12(13, 5, 9);
}
