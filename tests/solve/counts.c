/* What solving asks of the counts: 8 where the records do not belong together, 9 by the product of the states, 10 by the lent numbers. */
#include "cases.h"
#include "counts.h"
#include "known.h"

#include <stdio.h>
#include <string.h>

static struct skid skid;
static struct table table;
static const struct table zeros;

/* A skid of these counts without rows: by every step the start leads to the empty set, which stays. Unblocked there is none, after one round: the
 * start has no row for any i. */
static void begin_skid(unsigned i, unsigned o, unsigned u, unsigned v, unsigned a, unsigned c) {
    begin_context(&skid.context, i, o, u, v, a);
    begin_specification(&skid.specification, i, o, c);
    memset(&table, 0, sizeof table);
    table.sets[0] = 1;
    for (size_t place = 0; place < 2 * u * v; place++) table.next[place] = 1;
}

/* Solve with exactly 512 and 8,192 numbers. 0 stands for "nothing is wrong with the counts". */
static void counts_case(const char *name, uint32_t number, uint32_t record) {
    static const struct lent lent = {512, 8192};
    if (number == 0) {
        solve_lent(name, PLAIN, &skid, lent, reply(0, 0, 0, 2), &table);
        solve_lent(name, UNBLOCKED, &skid, lent, none(1), &zeros);
    } else
        for (uint32_t mode = PLAIN; mode < MODES; mode++) solve_lent(name, mode, &skid, lent, reply(number, record, 0, 0), NULL);
}

/* The same, compared with the reference too, and with every count of lent numbers. */
static void closer_case(const char *name, uint32_t number, uint32_t record) {
    if (number == 0) {
        solve_case(name, PLAIN, &skid, reply(0, 0, 0, 2), &table);
        none_case(name, &skid, 1);
    } else
        refusal_case(name, &skid, number, record, 0);
}

static void outside_case(const char *name, unsigned i, unsigned o, unsigned other_i, unsigned other_o) {
    begin_skid(i, o, 2, 3, 1, 1);
    begin_specification(&skid.specification, other_i, other_o, 1);
    counts_case(name, i != other_i || o != other_o ? 8 : 0, 2);
}

/* By hand, with every count of lent numbers. */
static void test_differences(void) {
    static const char *const specifications[] = {"1 2 1", "3 2 1", "2 1 1", "2 3 1", "1 4 1", "4 1 1", "8 8 1"};
    char name[100];
    for (size_t k = 0; k < sizeof specifications / sizeof specifications[0]; k++) {
        snprintf(name, sizeof name, "K1 with a specification of %s", specifications[k]);
        skid_from_rows(&skid, K1_CONTEXT, specifications[k]);
        refusal_case(name, &skid, 8, 2, 0);
    }
    skid_from_rows(&skid, "2 3 1 1 1", "3 2 1");
    refusal_case("I and O exchanged", &skid, 8, 2, 0);
}

/* Every U and V. */
static void test_letters(void) {
    char name[100];
    for (unsigned k = 0; k < 16; k++) {
        unsigned u = k / 4 + 1, v = k % 4 + 1;
        snprintf(name, sizeof name, "U %u, V %u, no rows", u, v);
        begin_skid(2, 3, u, v, 1, 1);
        closer_case(name, 0, 0);
    }
}

/* Every count of lent numbers that is too small, beside enough of the other kind; and every count that is enough. */
static void test_lent(uint32_t mode, struct mortarleaf_reply wanted, const struct table *written) {
    struct mortarleaf_reply few = reply(10, 0, 0, 0);
    begin_skid(1, 1, 1, 1, 1, 1);
    for (size_t sets = 0; sets < 512 && !hopeless(); sets++) solve_lent("no rows", mode, &skid, (struct lent){sets, 8192}, few, NULL);
    for (size_t next = 0; next < 8192 && !hopeless(); next++) solve_lent("no rows", mode, &skid, (struct lent){512, next}, few, NULL);
    for (size_t sets = 512; sets <= 700; sets++) solve_lent("no rows", mode, &skid, (struct lent){sets, 8192}, wanted, written);
    for (size_t next = 8192; next <= 8300; next++) solve_lent("no rows", mode, &skid, (struct lent){512, next}, wanted, written);
}

void test_counts(void) {
    test_differences();
    each_outside(outside_case);
    test_letters();
    each_product(begin_skid, counts_case);
    edge_products(begin_skid, closer_case);
    test_lent(PLAIN, reply(0, 0, 0, 2), &table);
    test_lent(UNBLOCKED, none(1), &zeros);
}
