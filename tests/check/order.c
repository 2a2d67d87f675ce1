/* "For the check: the three records, 8 (record 2 first), 9, 10, 14, 15, 16." Thirty faults that one input can have all at once, in this order.
 *
 * The skid is K1 with a second context state, entered by i=1, and a second controller state beside it. What holds the faults
 * of rows stands in states that nothing reaches. */
#include "cases.h"
#include "faults.h"

static const struct fault faults[] = {
    RECORD_FAULTS("context", 1, 8),
    RECORD_FAULTS("specification", 2, 2),
    RECORD_FAULTS("controller", 3, 4),
    {"I differs", 8, 2, 0},
    {"O differs", 8, 2, 0},
    {"U differs", 8, 3, 0},
    {"V differs", 8, 3, 0},
    {"product of states", 9, 0, 0},
    {"numbers lent", 10, 0, 0},
    {"incomplete", 14, 0, 0},
    {"leaves", 15, 0, 0},
    {"blocks", 16, 0, 0},
};
enum { FAULTS = sizeof faults / sizeof faults[0] };

/* The faults in their order; those of a record by itself begin at the record's first one. */
enum { OF_CONTROLLER = OF_OTHERS, I_DIFFERS = OF_OTHERS + OF_RECORD, O_DIFFERS, U_DIFFERS, V_DIFFERS, PRODUCT, LENT, INCOMPLETE, LEAVES, BLOCKS };

static struct input in;
static char has[FAULTS];

static void build_context(void) {
    struct record *r = &in.context;
    begin_context(r, 2, 2, 2, 2, 5);
    for (unsigned a = 0; a < 2; a++)
        for (unsigned i = 0; i < 2; i++)
            for (unsigned v = 0; v < 2; v++)
                context_row(r, has[BLOCKS] && a == 1 && i == 1 ? 2 : a, i, v, i, v, i); /* without i=1 in state 1 it blocks there */
    end_context(r, has + OF_CONTEXT);
}

/* 5 times 12 is 60, 5 times 13 is 65. */
static void build_specification(void) {
    faulty_specification(&in.specification, has[I_DIFFERS] ? 3 : 2, has[O_DIFFERS] ? 3 : 2, has[PRODUCT] ? 13 : 12, 1, has + OF_SPECIFICATION);
}

/* Controller state 1 is entered by u=1. Without its row for u=1 it is incomplete; its row for u=0 leaves if it has v=1. */
static void build_controller(void) {
    struct record *r = &in.controller;
    const char *of = has + OF_CONTROLLER;
    begin_controller(r, of[COUNT] ? 5 : has[U_DIFFERS] ? 3 : 2, has[V_DIFFERS] ? 3 : 2, 4);
    controller_row(r, 0, 0, 0, 0);
    controller_row(r, 0, 1, 1, 1);
    controller_row(r, 1, 0, has[LEAVES] ? 1 : 0, 0);
    controller_row(r, has[INCOMPLETE] ? 2 : 1, 1, 1, 1);
    controller_row(r, 3, 0, 0, of[NEXT] ? 4 : 0);
    controller_row(r, 3, 0, of[EQUAL] ? 0 : 1, 0);
    controller_row(r, of[LOWER] ? 2 : 3, 1, 0, 0);
    spoil_bytes(r, of);
}

/* The first fault decides. Reached are (0, 0) with controller state 0 and (1, 0) with controller state 1, whatever of 15 and 16 there is. */
static void order_case(const char *name) {
    static const uint64_t none[SETS], reached[SETS] = {1, UINT64_C(1) << 12};
    struct mortarleaf_reply wanted = first_fault(faults, FAULTS, has, reply(0, 0, 0, 4));
    uint64_t unused[SETS];
    size_t lent = has[LENT] ? 511 : 600;
    build_context();
    build_specification();
    build_controller();
    begin_case("the reference", name);
    same_reply(reference(&in, lent, unused), wanted);
    check_lent(name, &in, lent, wanted, !writes(wanted.number) ? NULL : wanted.number == 14 ? none : reached);
}

void test_order(void) { each_order(faults, FAULTS, has, order_case); }
