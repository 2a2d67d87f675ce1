/* Skids of many sizes whose sets and steps are told by a formula: tables that go round, sets that grow up to all 64 pairs, and steps of every U and
 * V. In those that go round every i has a step that is present, and every u a v: nothing is deleted. */
#include "cases.h"
#include "known.h"

#include <stdio.h>
#include <string.h>

static struct skid skid;
static struct table table;

static uint64_t pair(unsigned a, unsigned c, unsigned c_states) { return UINT64_C(1) << (a * c_states + c); }

static unsigned divisor(unsigned x, unsigned y) { return y == 0 ? x : divisor(y, x % y); }

/* The pairs (a, c) with a from `from` to `to` and c up to `most`. */
static uint64_t block(unsigned from, unsigned to, unsigned most, unsigned c_states) {
    uint64_t set = 0;
    for (unsigned a = from; a <= to; a++)
        for (unsigned c = 0; c <= most; c++) set |= pair(a, c, c_states);
    return set;
}

/* One letter, and the states in a row: each leads to the next one, the last one to `back`. */
static void chain_case(const char *name, unsigned states, unsigned back) {
    for (unsigned n = 0; n < states; n++) table.next[n] = (uint16_t)(n + 1 < states ? n + 1 : back);
    same_once(name, &skid, states, &table);
}

/* One letter, I = 2: the context goes round by each i, the specification by i=1. After n steps the context is at n, and the specification anywhere up
 * to n; when it is anywhere at all, only the context goes on. */
static void half_case(unsigned a_states, unsigned c_states) {
    char name[100];
    snprintf(name, sizeof name, "%u and %u states, the second anywhere", a_states, c_states);
    begin_context(&skid.context, 2, 1, 1, 1, a_states);
    for (unsigned k = 0; k < 2 * a_states; k++) context_row(&skid.context, k / 2, k % 2, 0, 0, 0, (k / 2 + 1) % a_states);
    begin_specification(&skid.specification, 2, 1, c_states);
    for (unsigned k = 0; k < 2 * c_states; k++) specification_row(&skid.specification, k / 2, k % 2, 0, (k / 2 + k % 2) % c_states);
    unsigned states = c_states - 1 + a_states;
    memset(&table, 0, sizeof table);
    for (unsigned n = 0; n < states; n++) table.sets[n] = block(n % a_states, n % a_states, n < c_states ? n : c_states - 1, c_states);
    chain_case(name, states, c_states - 1);
}

/* One letter, I = 4: the context goes round by i=1 and i=3, the specification by i=2 and i=3. After n steps both are anywhere up to n, each by
 * itself. */
static void both_case(unsigned a_states, unsigned c_states) {
    char name[100];
    snprintf(name, sizeof name, "%u and %u states, both anywhere", a_states, c_states);
    begin_context(&skid.context, 4, 1, 1, 1, a_states);
    for (unsigned k = 0; k < 4 * a_states; k++) context_row(&skid.context, k / 4, k % 4, 0, 0, 0, (k / 4 + k % 2) % a_states);
    begin_specification(&skid.specification, 4, 1, c_states);
    for (unsigned k = 0; k < 4 * c_states; k++) specification_row(&skid.specification, k / 4, k % 4, 0, (k / 4 + k % 4 / 2) % c_states);
    unsigned states = a_states > c_states ? a_states : c_states;
    memset(&table, 0, sizeof table);
    for (unsigned n = 0; n < states; n++) table.sets[n] = block(0, n < a_states ? n : a_states - 1, n < c_states ? n : c_states - 1, c_states);
    chain_case(name, states, states - 1);
}

/* K1 as rings. By every row both go on: n steps reach n modulo each ring. By i=1 alone the specification may be anywhere: every pair is a state. */
static void ring_case(unsigned a_states, unsigned c_states) {
    unsigned states = a_states / divisor(a_states, c_states) * c_states;
    char name[100];
    snprintf(name, sizeof name, "rings of %u and %u states", a_states, c_states);
    k1_rings(&skid.context, &skid.specification, a_states, c_states, 1);
    memset(&table, 0, sizeof table);
    for (unsigned n = 0; n < states; n++) {
        table.sets[n] = pair(n % a_states, n % c_states, c_states);
        table.next[4 * n] = table.next[4 * n + 3] = (uint16_t)((n + 1) % states);
        table.next[4 * n + 1] = table.next[4 * n + 2] = ABSENT;
    }
    same_once(name, &skid, states, &table);
    snprintf(name, sizeof name, "rings of %u and %u states, the second by i=1", a_states, c_states);
    k1_rings(&skid.context, &skid.specification, a_states, c_states, 0);
    states_case(name, &skid, a_states * c_states);
}

/* Every letter (u, v) leads from the start to a context state of its own, which has no rows: the states are found in the order of the letters,
 * u before v, and the empty set after them. The specification goes from 0 to 1. Unblocked, the states without rows fall in the first round, and the
 * start in the second; the empty set stays and is no answer. */
static void letters_case(unsigned u, unsigned v) {
    unsigned letters = u * v;
    char name[100];
    snprintf(name, sizeof name, "U %u, V %u, each letter to a state of its own", u, v);
    begin_context(&skid.context, 1, 1, u, v, 1 + letters);
    for (unsigned y = 0; y < v; y++)
        for (unsigned x = 0; x < u; x++) context_row(&skid.context, 0, 0, y, x, 0, 1 + x * v + y);
    from_rows(&skid.specification, SPECIFICATION, "1 1 2 | 0 0 0 1");
    memset(&table, 0, sizeof table);
    table.sets[0] = 1;
    for (unsigned n = 1; n <= letters; n++) table.sets[n] = pair(n, 1, 2);
    for (unsigned k = 0; k < letters; k++) table.next[k] = (uint16_t)(1 + k);
    for (unsigned k = letters; k < (letters + 2) * letters; k++) table.next[k] = (uint16_t)(1 + letters);
    solve_case(name, PLAIN, &skid, reply(0, 0, 0, letters + 2), &table);
    none_case(name, &skid, 2);
}

void test_chains(void) {
    static const unsigned sizes[][2] = {{1, 1},  {1, 2},  {2, 1},  {2, 2},  {2, 3},  {3, 2},  {3, 5},  {5, 3},  {7, 9},  {9, 7},  {8, 8},  {4, 16},
                                        {16, 4}, {2, 32}, {32, 2}, {1, 64}, {64, 1}, {1, 63}, {63, 1}, {21, 3}, {3, 21}, {5, 12}, {12, 5}, {6, 10}};
    for (size_t k = 0; k < sizeof sizes / sizeof sizes[0]; k++) {
        half_case(sizes[k][0], sizes[k][1]);
        both_case(sizes[k][0], sizes[k][1]);
        ring_case(sizes[k][0], sizes[k][1]);
    }
    for (unsigned k = 0; k < 16; k++) letters_case(k / 4 + 1, k % 4 + 1);
}
