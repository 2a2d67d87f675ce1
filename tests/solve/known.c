/* The skids of document 01, K1 to K12, in both modes. With one specification state, bit a of a set is context state a. */
#include "cases.h"
#include "known.h"

#include <stdio.h>
#include <string.h>

static const struct small_solve skids[] = {
    {"K1", K1_CONTEXT, K1_SPECIFICATION, {1, 0, {1}, "0 - - 0"}, {1, 0, {1}, "0 - - 0"}},
    {"K2", K2_CONTEXT, FREE_2, {2, 0, {1, 2}, "0 1 | 1 1"}, {1, 1, {1}, "0 -"}},
    {"K3", K3_CONTEXT, K3_SPECIFICATION, {1, 0, {1}, "-"}, NONE_AFTER(1)},
    {"K4", K4_CONTEXT, FREE_1, {2, 0, {1, 0}, "0 1 | 1 1"}, {2, 0, {1, 0}, "0 1 | 1 1"}},
    {"K5", K5_CONTEXT, FREE_2, {3, 0, {1, 2, 4}, "0 1 | 2 2 | 2 2"}, {1, 2, {1}, "0 -"}},
    {"K6", K6_CONTEXT, FREE_2, {1, 0, {1}, "0 0"}, {1, 0, {1}, "0 0"}},
    {"K7", K7_CONTEXT, K7_SPECIFICATION, {1, 0, {1}, "-"}, NONE_AFTER(1)}, /* u has no v that is present */
    {"K8", K8_CONTEXT, K3_SPECIFICATION, {1, 0, {1}, "-"}, NONE_AFTER(1)},
    {"K9", K9_CONTEXT, K9_SPECIFICATION, {1, 0, {1}, "0"}, NONE_AFTER(1)},
    {"K10", K10_CONTEXT, FREE_1, {2, 0, {1, 0}, "1 | 1"}, NONE_AFTER(1)},
};

static struct skid skid;
static struct table table;

/* The builders write the bytes that document 01 has for K1. */
static void test_bytes(void) {
    skid_from_rows(&skid, K1_CONTEXT, K1_SPECIFICATION);
    begin_case("the test itself", "K1 in bytes");
    same_record("context", &skid.context, K1_CONTEXT_BYTES);
    same_record("specification", &skid.specification, K1_SPECIFICATION_BYTES);
}

/* The sizes of the header are those of document 01. */
static void test_sizes(void) {
    begin_case("the header", "sizes");
    same("MORTARLEAF_STATES", MORTARLEAF_STATES, 512);
    same("MORTARLEAF_SET_NUMBERS", MORTARLEAF_SET_NUMBERS, 512);
    same("MORTARLEAF_NEXT_NUMBERS", MORTARLEAF_NEXT_NUMBERS, 8192);
    same("MORTARLEAF_ABSENT", MORTARLEAF_ABSENT, 65535);
    same("MORTARLEAF_CONTEXT_BYTES", MORTARLEAF_CONTEXT_BYTES, 2 + 7 + 6 * 4096);
    same("MORTARLEAF_SPECIFICATION_BYTES", MORTARLEAF_SPECIFICATION_BYTES, 2 + 5 + 4 * 1024);
    same("MORTARLEAF_CONTROLLER_BYTES", MORTARLEAF_CONTROLLER_BYTES, 2 + 6 + 6 * 8192);
    same("MORTARLEAF_PLAIN", MORTARLEAF_PLAIN, 0);
    same("MORTARLEAF_UNBLOCKED", MORTARLEAF_UNBLOCKED, 1);
}

/* K11: state 0 is in every set, and the others are a row of lights that goes on by one place at each step; u is the light that comes in at
 * state 1, and the last one falls out. Set n has the lights of the number n, so bit 0 and behind it n. By u it goes on to 2n + u without the light
 * that fell out: the sets are found as 1, then 2 and 3, then 4 to 7, and so on, each at its number.
 *
 * Unblocked: no light has a row on i=1, so every set with a light falls in the first round. What is left is state 0 alone; by u=1 it has only the
 * step to the set with light 1, and it falls in the second round. */
static void test_k11(unsigned states) {
    size_t count = (size_t)1 << (states - 1);
    char name[100];
    snprintf(name, sizeof name, "K11, %u states", states);
    k11(&skid.context, &skid.specification, states);
    memset(&table, 0, sizeof table);
    if (count > 512) {
        for (uint32_t mode = PLAIN; mode < MODES; mode++) solve_case(name, mode, &skid, reply(11, 0, 0, 0), &table);
        return;
    }
    none_case(name, &skid, 2);
    for (size_t n = 0; n < count; n++) table.sets[n] = 2 * n + 1;
    for (size_t place = 0; place < 2 * count; place++) table.next[place] = (uint16_t)(place % count);
    solve_case(name, PLAIN, &skid, reply(0, 0, 0, (uint32_t)count), &table);
}

/* "States 8 and 8 pass, 5 and 13 give 9": K1 as a ring of so many context states and so many specification states, both going on by every row. Where
 * they pass there are 8 states, each of them one pair of equal numbers, and the steps of K1 lead on; nothing is deleted. */
static void test_k12(void) {
    k1_rings(&skid.context, &skid.specification, 8, 8, 1);
    memset(&table, 0, sizeof table);
    for (unsigned n = 0; n < 8; n++) {
        uint16_t steps[] = {(uint16_t)((n + 1) % 8), ABSENT, ABSENT, (uint16_t)((n + 1) % 8)};
        table.sets[n] = UINT64_C(1) << (8 * n + n);
        memcpy(table.next + 4 * n, steps, sizeof steps);
    }
    same_case("K12, 8 and 8 states", &skid, 8, &table);
    k1_rings(&skid.context, &skid.specification, 5, 13, 1);
    refusal_case("K12, 5 and 13 states", &skid, 9, 0, 0);
    k1_rings(&skid.context, &skid.specification, 13, 5, 1);
    refusal_case("K12, 13 and 5 states", &skid, 9, 0, 0);
}

void test_known(void) {
    test_bytes();
    test_sizes();
    solve_all(skids, sizeof skids / sizeof skids[0]);
    for (unsigned states = 2; states <= 13; states++) test_k11(states); /* 10: "512 plain states"; 11: "11" */
    test_k11(64);
    test_k12();
}
