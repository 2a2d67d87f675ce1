/* "Order for solving: 13; context 1 to 4, then rows ..; the same for the specification; 8; 9; 10; 11; 12". Twenty-two faults that one input can have
 * all at once, in this order; in plain mode the last is none.
 *
 * The skid is K11 with more rows, with two context states and three specification states that nothing leads to. Their rows hold the faults of rows.
 */
#include "cases.h"
#include "faults.h"
#include "known.h"

#include <stdio.h>

static const struct fault faults[] = {
    {"mode", 13, 0, 0},      RECORD_FAULTS("context", 1, 30), RECORD_FAULTS("specification", 2, 2),
    {"I differs", 8, 2, 0},  {"O differs", 8, 2, 0},          {"product of states", 9, 0, 0},
    {"sets lent", 10, 0, 0}, {"next states lent", 10, 0, 0},  {"plain states", 11, 0, 0},
    {"none", 12, 0, 0},
};
enum { FAULTS = sizeof faults / sizeof faults[0] };

/* The faults in their order: the mode, those of the records by themselves, and the others. */
enum { MODE, RECORDS, I_DIFFERS = RECORDS + OF_OTHERS, O_DIFFERS, PRODUCT, SETS_LENT, NEXT_LENT, STATES, NONE };

/* "13 | mode unknown": every number but 0 and 1. Some of these have 0 or 1 in their lowest bytes. */
static const uint32_t unknown[] = {2,          3,          4,          127,        128,        254,        255,        256,        257,
                                   258,        511,        512,        65535,      65536,      65537,      0x00FFFFFF, 0x01000000, 0x01000001,
                                   0x7FFFFFFF, 0x80000000, 0x80000001, 0xFFFF0000, 0xFFFF0001, 0xFFFFFFFE, 0xFFFFFFFF};
enum { UNKNOWN = sizeof unknown / sizeof unknown[0] };

static struct skid skid;
static char has[FAULTS];
static uint32_t mode; /* the one that is asked for where it is not at fault */

/* K11 with 11 states: 1,024 plain states or more, which are too many. Otherwise what comes to state 3 stays there, and there are 8: whether 1,
 * whether 2, and whether 3 is in the set. A light goes on by i=1 and u=0 as by i=0, so each i has a step, and nothing is deleted.
 *
 * None: by i=1 and u=0 the lights go to state 10, which has no rows. The sets with 10 fall first, then those with another light, for u=0 leads them
 * there, and then the start, which u=1 leads to a light: three rounds. */
static void build_context(void) {
    struct record *r = &skid.context;
    begin_context(r, 2, 2, 2, 1, 13);
    context_row(r, 0, 0, 0, 0, 0, 0);
    context_row(r, 0, 0, 0, 1, 0, 0);
    context_row(r, 0, 1, 0, 1, 0, 1);
    for (unsigned a = 1; a < 10; a++) {
        unsigned next = has[STATES] || a < 3 ? a + 1 : 3;
        for (unsigned u = 0; u < 2; u++) context_row(r, a, 0, 0, u, 0, next);
        context_row(r, a, 1, 0, 0, 0, has[NONE] ? 10 : next);
    }
    end_context(r, has + RECORDS + OF_CONTEXT);
}

/* 13 times 4 is 52, 13 times 5 is 65. */
static void build_specification(void) {
    faulty_specification(&skid.specification, has[I_DIFFERS] ? 3 : 2, has[O_DIFFERS] ? 3 : 2, has[PRODUCT] ? 5 : 4, 0,
                         has + RECORDS + OF_SPECIFICATION);
}

/* The first fault decides. */
static void order_case(const char *name) {
    static const struct table zeros;
    static struct table found;
    static size_t turn;
    uint32_t asked = has[MODE] ? unknown[turn++ % UNKNOWN] : mode;
    struct mortarleaf_reply wanted = first_fault(faults, FAULTS, has, reply(0, 0, 0, 8));
    if (wanted.number == 12) wanted = none(3);
    struct lent lent = {has[SETS_LENT] ? 511 : 514, has[NEXT_LENT] ? 8191 : 8195};
    build_context();
    build_specification();
    begin_case("the reference", name);
    same_reply(reference(asked, &skid, lent, &found), wanted);
    solve_lent(name, asked, &skid, lent, wanted, wanted.number == 0 ? &found : writes(wanted.number) ? &zeros : NULL);
}

/* Of row faults the row that decides. */
static void test_rows(void) {
    static const struct {
        const char *name, *context;
        uint32_t number, row;
    } rows[] = {
        {"5 in a row, 6 in the next", "1 1 1 2 2 | 0 0 0 0 0 0 | 0 0 1 0 1 0 | 0 0 1 0 1 0", 5, 1},
        {"6 in a row, 5 in the next", "1 1 1 2 2 | 0 0 0 0 0 0 | 0 0 0 0 0 0 | 0 0 1 0 1 0", 6, 1},
        {"7 in a row, 5 in the next", "1 1 1 2 2 | 0 0 1 0 0 0 | 0 0 0 0 0 0 | 0 0 1 0 1 0", 7, 1},
        {"5 and 6 in one row", "1 1 1 2 2 | 0 0 0 0 0 0 | 0 0 0 0 0 2", 5, 1},
        {"5 and 7 in one row", "1 1 1 2 2 | 0 0 1 0 0 0 | 0 0 0 0 0 2", 5, 1},
        {"5 in the first row", "1 1 1 2 2 | 2 0 0 0 0 0 | 0 0 0 0 0 0", 5, 0},
    };
    for (size_t k = 0; k < sizeof rows / sizeof rows[0]; k++) {
        skid_from_rows(&skid, rows[k].context, "2 1 1 | 0 1 0 1");
        refusal_case(rows[k].name, &skid, rows[k].number, 1, rows[k].row);
    }
}

/* Each unknown mode: with K1, where nothing else is wrong, with every count of lent numbers; with no bytes at all; and with every fault at once. */
static void test_modes(void) {
    for (size_t k = 0; k < UNKNOWN; k++) {
        skid_from_rows(&skid, K1_CONTEXT, K1_SPECIFICATION);
        solve_case("K1", unknown[k], &skid, reply(13, 0, 0, 0), NULL);
        skid.context.size = skid.specification.size = 0;
        solve_case("no bytes", unknown[k], &skid, reply(13, 0, 0, 0), NULL);
        for (size_t fault = 0; fault < FAULTS; fault++) has[fault] = 1;
        build_context();
        build_specification();
        solve_case("every fault", unknown[k], &skid, reply(13, 0, 0, 0), NULL);
    }
}

/* Every pair of faults, in both modes. */
void test_order(void) {
    mode = PLAIN;
    each_order(faults, NONE, has, order_case);
    mode = UNBLOCKED;
    each_order(faults, FAULTS, has, order_case);
    test_rows();
    test_modes();
}
