/* Rounds that delete several states each, and rounds that delete by (i) alone or by (ii) alone. What is left, and after how many rounds, is told by a
 * formula. */
#include "cases.h"

#include <stdio.h>
#include <string.h>

static struct skid skid;
static struct table table;

static uint64_t bit(unsigned state) { return UINT64_C(1) << state; }

/* Columns side by side, V of them: by v=k the start goes to the top of column k, and each state of a column to the one below it by every v. The
 * bottom has no rows, so the columns fall from below, one state of each in a round: as many rounds as the longest has states. In one round more the
 * start falls, unless one column is endless: its bottom stays where it is. The plain states are the single context states, and the empty set where a
 * bottom has no rows. */
struct columns {
    unsigned count, endless, length[4], top[4], states, longest; /* endless: the column's number; `count` if there is none */
};

static struct columns columns_of(unsigned count, const unsigned *lengths, unsigned endless) {
    struct columns c = {.count = count, .endless = endless, .states = 1};
    for (unsigned k = 0; k < count; k++) {
        c.length[k] = lengths[k], c.top[k] = c.states, c.states += lengths[k];
        if (k != endless && lengths[k] > c.longest) c.longest = lengths[k];
    }
    return c;
}

static void build_columns(const struct columns *c) {
    begin_context(&skid.context, 1, 1, 1, c->count, c->states);
    for (unsigned v = 0; v < c->count; v++) context_row(&skid.context, 0, 0, v, 0, 0, c->top[v]);
    for (unsigned k = 0; k < c->count; k++)
        for (unsigned n = 0; n < c->length[k]; n++) {
            int bottom = n + 1 == c->length[k];
            if (bottom && k != c->endless) continue;
            for (unsigned v = 0; v < c->count; v++) context_row(&skid.context, c->top[k] + n, 0, v, 0, 0, c->top[k] + n + !bottom);
        }
    from_rows(&skid.specification, SPECIFICATION, "1 1 1 | 0 0 0 0");
}

/* What is left: the start and the endless column. */
static uint32_t put_column(const struct columns *c) {
    unsigned length = c->length[c->endless];
    memset(&table, 0, sizeof table);
    table.sets[0] = 1;
    for (unsigned v = 0; v < c->count; v++) table.next[v] = v == c->endless ? 1 : ABSENT;
    for (unsigned n = 1; n <= length; n++) {
        table.sets[n] = bit(c->top[c->endless] + n - 1);
        for (unsigned v = 0; v < c->count; v++) table.next[n * c->count + v] = (uint16_t)(n < length ? n + 1 : n);
    }
    return length + 1;
}

static void columns_case(unsigned count, const unsigned *lengths, unsigned endless) {
    struct columns c = columns_of(count, lengths, endless);
    char name[100];
    snprintf(name, sizeof name, "%u columns, %u context states, column %u endless", count, c.states, endless);
    build_columns(&c);
    states_case(name, &skid, c.states + (c.longest > 0));
    if (endless == count)
        none_once(name, &skid, c.longest + 1);
    else {
        uint32_t left = put_column(&c);
        solve_once(name, UNBLOCKED, &skid, kept(left, c.longest), &table);
    }
}

static void test_columns(void) {
    static const unsigned lengths[][4] = {{15, 15, 15, 15}, {1, 1, 1, 1}, {3, 1, 4, 2}, {5, 9, 2, 6}, {20, 10, 30, 1}};
    for (size_t k = 0; k < sizeof lengths / sizeof lengths[0]; k++)
        for (unsigned count = 1; count <= 4; count++)
            for (unsigned endless = 0; endless <= count; endless++) columns_case(count, lengths[k], endless);
    columns_case(1, (const unsigned[]){63}, 1);
    columns_case(2, (const unsigned[]){31, 32}, 2);
}

/* A row of n context states, which falls by (ii) alone: by v=0 and i=0 each stays, by v=1 and i=1 it goes on; the last has no row for i=1. So v=0
 * always leads to a kept state, but i=1 has no way on. The last one's v=1 leads to the empty set.
 *
 * And one that falls by (i) alone: I = 1; by u=0 each stays, by u=1 it goes on; the last one's row by u=1 has o=1, which the specification lacks. So
 * its i always has a way on, but u=1 has none.
 *
 * They fall one by one, from the last. Before the one that stays, nothing falls: there i=1 has a row by v=0 too, or the row by u=1 and v=0 leads back
 * to it. `stays` may be n: then there is none such. (Where the last one stays, nothing falls, and the reference alone says what is left.) */
static void by_input(unsigned n, unsigned stays) {
    begin_context(&skid.context, 2, 1, 1, 2, n);
    for (unsigned a = 0; a < n; a++) {
        context_row(&skid.context, a, 0, 0, 0, 0, a);
        if (a == stays) context_row(&skid.context, a, 1, 0, 0, 0, a);
        if (a + 1 < n) context_row(&skid.context, a, 1, 1, 0, 0, a + 1);
    }
    from_rows(&skid.specification, SPECIFICATION, "2 1 1 | 0 0 0 0 | 0 1 0 0");
}

static void by_signal(unsigned n, unsigned stays) {
    begin_context(&skid.context, 1, 2, 2, 2, n);
    for (unsigned a = 0; a < n; a++)
        for (unsigned v = 0; v < 2; v++) {
            context_row(&skid.context, a, 0, v, 0, 0, a);
            context_row(&skid.context, a, 0, v, 1, a + 1 == n && !(v == 0 && a == stays), v == 0 && a == stays ? a : (a + 1) % n);
        }
    from_rows(&skid.specification, SPECIFICATION, "1 2 1 | 0 0 0 0");
}

/* The states up to the one that stays, which leads to itself and no further. */
static void put_row(unsigned letters, unsigned stays, unsigned to_next) {
    memset(&table, 0, sizeof table);
    for (unsigned a = 0; a <= stays; a++) {
        table.sets[a] = bit(a);
        for (unsigned letter = 0; letter < letters; letter++) {
            uint16_t on = (uint16_t)(a < stays ? a + 1 : ABSENT);
            table.next[letters * a + letter] = (to_next >> letter & 1) ? on : (uint16_t)a;
        }
    }
}

static void row_case(unsigned n, unsigned stays) {
    char name[100];
    snprintf(name, sizeof name, "a row of %u that falls by its inputs, %u stays", n, stays);
    by_input(n, stays);
    states_case(name, &skid, n + 1);
    if (stays == n) none_once(name, &skid, n);
    if (stays + 1 < n) {
        put_row(2, stays, 2); /* v=1 goes on */
        solve_once(name, UNBLOCKED, &skid, kept(stays + 1, n - 1 - stays), &table);
    }

    snprintf(name, sizeof name, "a row of %u that falls by its signals, %u stays", n, stays);
    by_signal(n, stays);
    states_case(name, &skid, n);
    if (stays == n) none_once(name, &skid, n);
    if (stays < n) {
        put_row(4, stays, 12);                       /* u=1 goes on by each v .. */
        table.next[4 * stays + 2] = (uint16_t)stays; /* .. but v=0 keeps the one that stays */
        solve_once(name, UNBLOCKED, &skid, kept(stays + 1, n - 1 - stays), &table);
    }
}

static void test_rows(void) {
    static const unsigned sizes[] = {1, 2, 3, 10, 63, 64};
    for (size_t k = 0; k < sizeof sizes / sizeof sizes[0]; k++) {
        row_case(sizes[k], sizes[k]);
        row_case(sizes[k], 0);
        row_case(sizes[k], sizes[k] / 2);
        row_case(sizes[k], sizes[k] - 1);
    }
}

void test_falls(void) {
    test_columns();
    test_rows();
}
