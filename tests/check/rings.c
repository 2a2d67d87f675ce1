/* Tables that go round, of many sizes: what they reach is told by a formula. And counters, in which each triple has one triple before it, so that the
 * last one is as far from the start as there are triples.
 *
 * The skid of the rings is K1: u follows i, o follows v, the specification has o = i, and the controller replies v = u. */
#include "cases.h"

#include <stdio.h>
#include <string.h>

static struct input in;

static unsigned divisor(unsigned x, unsigned y) { return y == 0 ? x : divisor(y, x % y); }

static uint64_t pair(unsigned a, unsigned c, unsigned c_states) { return UINT64_C(1) << (a * c_states + c); }

/* By every row: n steps reach n modulo each ring. By i=1 alone: the specification is anywhere, while context and controller have gone on equally
 * often, so their states are equal modulo the divisor of both rings. */
static void ring_case(unsigned a_states, unsigned c_states, unsigned s_states) {
    uint64_t sets[SETS] = {0};
    char name[100];
    snprintf(name, sizeof name, "rings of %u, %u and %u states", a_states, c_states, s_states);
    k1_rings_answered(&in, a_states, c_states, s_states, 1);
    for (unsigned n = 0; n < a_states * c_states * s_states; n++) sets[n % s_states] |= pair(n % a_states, n % c_states, c_states);
    check_once(name, &in, reply(0, 0, 0, s_states), sets);

    snprintf(name, sizeof name, "rings of %u, %u and %u states, the second by i=1", a_states, c_states, s_states);
    k1_rings_answered(&in, a_states, c_states, s_states, 0);
    memset(sets, 0, sizeof sets);
    for (unsigned a = 0; a < a_states; a++)
        for (unsigned s = 0; s < s_states; s++)
            for (unsigned c = 0; c < c_states; c++)
                if (a % divisor(a_states, s_states) == s % divisor(a_states, s_states)) sets[s] |= pair(a, c, c_states);
    check_once(name, &in, reply(0, 0, 0, s_states), sets);
}

/* 8 and 8 states with a controller ring of 7: all 448 triples, by hand. */
static void all_triples(void) {
    uint64_t sets[SETS] = {0};
    for (unsigned s = 0; s < 7; s++) sets[s] = UINT64_MAX;
    k1_rings_answered(&in, 8, 8, 7, 0);
    check_case("8 and 8 states, 7 controller states: every triple", &in, reply(0, 0, 0, 7), sets);
}

/* A counter: the controller state is its lowest place, the context state the next, the specification state the highest. The controller replies v=0,
 * and v=1 in its last state; by v=1 the context goes on, and in its last state does o=1; by o=1 the specification goes on. At the end of all it
 * begins again, or the last specification state has no row for o=1, or the last context state none for v=1. */
enum end { BEGINS_AGAIN, LEAVES, BLOCKS };

static void counter_case(unsigned a_states, unsigned c_states, unsigned s_states, enum end end) {
    static const char *const ends[] = {"begins again", "leaves at its end", "blocks at its end"};
    static const uint32_t numbers[] = {0, 15, 16};
    uint64_t sets[SETS] = {0};
    char name[100];
    snprintf(name, sizeof name, "a counter of %u, %u and %u states that %s", a_states, c_states, s_states, ends[end]);
    begin_context(&in.context, 1, 2, 1, 2, a_states);
    for (unsigned a = 0; a < a_states; a++) {
        unsigned last = a == a_states - 1;
        context_row(&in.context, a, 0, 0, 0, 0, a);
        if (!(last && end == BLOCKS)) context_row(&in.context, a, 0, 1, 0, last, (a + 1) % a_states);
    }
    begin_specification(&in.specification, 1, 2, c_states);
    for (unsigned c = 0; c < c_states; c++) {
        specification_row(&in.specification, c, 0, 0, c);
        if (!(c == c_states - 1 && end == LEAVES)) specification_row(&in.specification, c, 0, 1, (c + 1) % c_states);
    }
    begin_controller(&in.controller, 1, 2, s_states);
    for (unsigned s = 0; s < s_states; s++) controller_row(&in.controller, s, 0, s == s_states - 1, (s + 1) % s_states);
    for (unsigned s = 0; s < s_states; s++)
        for (unsigned a = 0; a < a_states; a++)
            for (unsigned c = 0; c < (end == BLOCKS ? 1 : c_states); c++) sets[s] |= pair(a, c, c_states);
    check_once(name, &in, reply(numbers[end], 0, 0, end == BEGINS_AGAIN ? s_states : 0), sets);
}

void test_rings(void) {
    static const unsigned sizes[][3] = {{1, 1, 1},    {2, 3, 1},    {3, 2, 1},   {3, 5, 7},   {8, 8, 1},    {8, 8, 7},  {8, 8, 2},   {64, 1, 1},
                                        {1, 64, 1},   {32, 2, 9},   {2, 32, 5},  {16, 4, 3},  {4, 16, 3},   {21, 3, 4}, {7, 9, 511}, {63, 1, 512},
                                        {1, 63, 512}, {64, 1, 511}, {8, 8, 512}, {1, 1, 512}, {5, 12, 512}, {64, 1, 64}};
    static const unsigned counters[][3] = {{1, 1, 1},   {1, 1, 2},    {2, 1, 1},    {1, 2, 1},   {3, 4, 5},
                                           {1, 1, 512}, {64, 1, 512}, {1, 64, 512}, {8, 8, 512}, {4, 16, 512}};
    all_triples();
    for (size_t k = 0; k < sizeof sizes / sizeof sizes[0]; k++) ring_case(sizes[k][0], sizes[k][1], sizes[k][2]);
    for (size_t k = 0; k < sizeof counters / sizeof counters[0]; k++)
        for (enum end end = BEGINS_AGAIN; end <= BLOCKS; end++) counter_case(counters[k][0], counters[k][1], counters[k][2], end);
}
