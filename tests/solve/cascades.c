/* Deletion in hundreds of rounds, one state in each. What is left, and after how many rounds, is told by a formula. */
#include "cases.h"

#include <stdio.h>
#include <string.h>

static struct skid skid;
static struct table table;

/* Three rings side by side, behind a tail. I = 3, U = 1, V = 4, O = 2, and the specification has o=0 alone: a row with o=1 makes its letter absent.
 *
 * Context states 0 to tail - 1 stand in a row; 0 is the start. The last of them goes by i=0, i=1 and i=2 to the first place of ring 0, 1 and 2, by
 * v=0, v=1 and v=2 alike. In a ring every i and every v below 3 go on by one place. In the last place of ring k the rows of v=k have o=1.
 *
 * So the plain states are the tail, and then set n, which has place n of each ring, round and round: as many as the three lengths have for their
 * least common multiple. In set n, v=k is absent where ring k is in its last place. All three are in their last place in the last set alone: there no
 * v is present, and it falls in the first round. Of each other set and of the tail every step leads to the next one, which falls in the round before.
 * Without a way out all fall, one in each round, and the start last: there are as many rounds as plain states, and none is left.
 *
 * A way out is one more context state, which stays where it is by every row. By v=3 a single set leads there, or the start. All other rows of v=3
 * have o=1: the places of set m are met together in set m alone. What stands behind the way out falls, and what stands before it stays. */
struct rings {
    unsigned tail, length[3], sets;
    int out; /* the set with the way out; START: the start has it; NOWHERE: there is none */
};
enum { NOWHERE = -2, START = -1 };

static unsigned divisor(unsigned x, unsigned y) { return y == 0 ? x : divisor(y, x % y); }
static unsigned multiple(unsigned x, unsigned y) { return x / divisor(x, y) * y; }

/* The context state at place p of ring k; the way out. */
static unsigned place(const struct rings *r, unsigned k, unsigned p) {
    return r->tail + (k > 0 ? r->length[0] : 0) + (k > 1 ? r->length[1] : 0) + p % r->length[k];
}
static unsigned way_out(const struct rings *r) { return place(r, 2, 0) + r->length[2]; }

/* All rows of a state: by i and a v below 3 it goes on to next[i], with o=1 where v is `absent`; by v=3 to the way out, or with o=1. */
static void state_rows(const struct rings *r, unsigned state, const unsigned next[3], unsigned absent, int is_out) {
    for (unsigned i = 0; i < 3; i++) {
        for (unsigned v = 0; v < 3; v++) context_row(&skid.context, state, i, v, 0, v == absent, next[i]);
        context_row(&skid.context, state, i, 3, 0, !is_out, way_out(r));
    }
}

static void build_rings(const struct rings *r) {
    begin_context(&skid.context, 3, 2, 1, 4, way_out(r) + 1);
    for (unsigned a = 0; a < r->tail; a++) {
        unsigned row[] = {a + 1, a + 1, a + 1}, branches[] = {place(r, 0, 0), place(r, 1, 0), place(r, 2, 0)};
        state_rows(r, a, a + 1 < r->tail ? row : branches, 3, r->out == START && a == 0);
    }
    for (unsigned k = 0; k < 3; k++)
        for (unsigned p = 0; p < r->length[k]; p++) {
            unsigned to = place(r, k, p + 1), next[] = {to, to, to};
            state_rows(r, place(r, k, p), next, p + 1 == r->length[k] ? k : 3, r->out >= 0 && p == (unsigned)r->out % r->length[k]);
        }
    for (unsigned k = 0; k < 12; k++) context_row(&skid.context, way_out(r), k / 4, k % 4, 0, 0, way_out(r));
    from_rows(&skid.specification, SPECIFICATION, "3 2 1 | 0 0 0 0 | 0 1 0 0 | 0 2 0 0");
}

static uint64_t bit(unsigned state) { return UINT64_C(1) << state; }

/* The state that is n steps behind the start; before the end it goes on by each v below 3 that is present there. */
static void put_state(const struct rings *r, unsigned n, unsigned end) {
    for (unsigned v = 0; v < 4; v++) table.next[4 * n + v] = (uint16_t)(v < 3 && n < end ? n + 1 : ABSENT);
    table.sets[n] = n < r->tail ? bit(n) : 0;
    for (unsigned k = 0; k < 3 && n >= r->tail; k++) {
        unsigned p = (n - r->tail) % r->length[k];
        table.sets[n] |= bit(place(r, k, p));
        if (p + 1 == r->length[k]) table.next[4 * n + k] = ABSENT;
    }
}

/* What is left: the states up to the one with the way out, and behind them the way out itself. Their number. */
static uint32_t put_left(const struct rings *r) {
    unsigned last = r->out == START ? 0 : r->tail + (unsigned)r->out;
    memset(&table, 0, sizeof table);
    for (unsigned n = 0; n <= last; n++) put_state(r, n, last);
    table.next[4 * last + 3] = (uint16_t)(last + 1);
    table.sets[last + 1] = bit(way_out(r));
    for (unsigned v = 0; v < 4; v++) table.next[4 * (last + 1) + v] = (uint16_t)(last + 1);
    return last + 2;
}

/* The last set goes nowhere by itself; with a way out there is one plain state more. Where there are too many of them, both modes say 11. */
static void rings_case(unsigned tail, unsigned one, unsigned two, unsigned three, int out) {
    struct rings r = {tail, {one, two, three}, multiple(one, multiple(two, three)), out};
    unsigned plain = tail + r.sets + (out != NOWHERE);
    char name[150], way[40] = "no way out";
    if (out == START) snprintf(way, sizeof way, "a way out at the start");
    if (out >= 0) snprintf(way, sizeof way, "a way out in set %d", out);
    snprintf(name, sizeof name, "a tail of %u, rings of %u, %u and %u, %s", tail, one, two, three, way);
    build_rings(&r);
    states_case(name, &skid, plain);
    if (plain > 512) return;
    if (out == NOWHERE) {
        none_once(name, &skid, plain);
        return;
    }
    uint32_t left = put_left(&r);
    solve_once(name, UNBLOCKED, &skid, kept(left, plain - left), &table);
}

void test_cascades(void) {
    static const unsigned lengths[][3] = {{1, 1, 1}, {1, 1, 2}, {2, 1, 1}, {1, 2, 3}, {2, 3, 5},
                                          {5, 3, 2}, {4, 6, 9}, {4, 5, 7}, {5, 7, 8}, {9, 8, 7}};
    static const int outs[] = {START, 0, 1, 6, 7, 8, 62, 63, 71, 250, 300, 501, 502};
    for (unsigned tail = 1; tail <= 10; tail++) {
        rings_case(tail, 7, 8, 9, NOWHERE); /* 505 and more: 8 has 512 states and rounds, 9 too many */
        rings_case(tail, 7, 8, 9, START);
    }
    for (size_t k = 0; k < sizeof outs / sizeof outs[0]; k++) rings_case(1, 7, 8, 9, outs[k]);
    for (size_t k = 0; k < sizeof lengths / sizeof lengths[0]; k++) {
        const unsigned *l = lengths[k];
        int last = (int)multiple(l[0], multiple(l[1], l[2])) - 1;
        rings_case(2, l[0], l[1], l[2], NOWHERE);
        rings_case(3, l[0], l[1], l[2], START);
        rings_case(1, l[0], l[1], l[2], last / 2);
        rings_case(4, l[0], l[1], l[2], last); /* the last set has the way out: nothing is deleted */
    }
}
