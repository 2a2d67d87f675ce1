/* What the check asks of the counts: 8 where the records do not belong together, 9 by the product of the states, 10 by the lent numbers. */
#include "cases.h"
#include "counts.h"

#include <stdio.h>

static struct input in;

/* A skid of these counts, without rows in context and specification: a controller of one state that has a row for each u blocks. */
static void begin_input(unsigned i, unsigned o, unsigned u, unsigned v, unsigned a, unsigned c) {
    begin_context(&in.context, i, o, u, v, a);
    begin_specification(&in.specification, i, o, c);
    begin_controller(&in.controller, u, v, 1);
    for (unsigned x = 0; x < u; x++) controller_row(&in.controller, 0, x, v - 1, 0);
}

/* Check with 512 numbers. 0 stands for "nothing is wrong with the counts": it blocks at the start. */
static void counts_case(const char *name, uint32_t number, uint32_t record) {
    static const uint64_t start[SETS] = {1};
    if (number == 0)
        check_lent(name, &in, 512, reply(16, 0, 0, 0), start);
    else
        check_lent(name, &in, 512, reply(number, record, 0, 0), NULL);
}

/* The same, compared with the reference too; a refusal with every count of lent numbers. */
static void closer_case(const char *name, uint32_t number, uint32_t record) {
    if (number == 0)
        verdict_case(name, &in, 16);
    else
        refusal_case(name, &in, number, record, 0);
}

/* A controller that differs too does not count before a specification that differs. */
static void outside_case(const char *name, unsigned i, unsigned o, unsigned other_i, unsigned other_o) {
    int differ = i != other_i || o != other_o;
    begin_input(i, o, 2, 3, 1, 1);
    begin_specification(&in.specification, other_i, other_o, 1);
    counts_case(name, differ ? 8 : 0, 2);
    from_rows(&in.controller, CONTROLLER, "3 2 1");
    counts_case(name, 8, differ ? 2 : 3);
}

/* Every U and V of the context with every U and V of the controller. */
static void test_inside_counts(void) {
    char name[100];
    for (unsigned k = 0; k < 16 * 16; k++) {
        unsigned u = k % 4 + 1, v = k / 4 % 4 + 1, other_u = k / 16 % 4 + 1, other_v = k / 64 + 1;
        snprintf(name, sizeof name, "U %u, V %u, controller's U %u, V %u", u, v, other_u, other_v);
        begin_input(2, 3, other_u, other_v, 1, 1);
        begin_context(&in.context, 2, 3, u, v, 1);
        counts_case(name, u != other_u || v != other_v ? 8 : 0, 3);
    }
}

/* Each of the four by hand, alone and together. */
static void test_differences(void) {
    static const struct {
        const char *name, *specification, *controller;
        uint32_t record;
    } cases[] = {
        {"I is smaller", "1 2 1", K1_ANSWER, 2},
        {"I is larger", "3 2 1", K1_ANSWER, 2},
        {"O is smaller", "2 1 1", K1_ANSWER, 2},
        {"O is larger", "2 3 1", K1_ANSWER, 2},
        {"U is smaller", K1_SPECIFICATION, "1 2 1", 3},
        {"U is larger", K1_SPECIFICATION, "3 2 1", 3},
        {"V is smaller", K1_SPECIFICATION, "2 1 1", 3},
        {"V is larger", K1_SPECIFICATION, "2 3 1", 3},
        {"I and U differ", "1 2 1", "1 2 1", 2},
        {"O and V differ", "2 1 1", "2 1 1", 2},
        {"all differ", "3 3 1", "3 3 1", 2},
        {"I and O differ, their product does not", "1 4 1", K1_ANSWER, 2},
        {"U and V differ, their product does not", K1_SPECIFICATION, "4 1 1", 3},
    };
    for (size_t k = 0; k < sizeof cases / sizeof cases[0]; k++) {
        input_from_rows(&in, K1_CONTEXT, cases[k].specification, cases[k].controller);
        refusal_case(cases[k].name, &in, 8, cases[k].record, 0);
    }
    input_from_rows(&in, "2 3 1 1 1", "3 2 1", "1 1 1 | 0 0 0 0");
    refusal_case("I and O exchanged", &in, 8, 2, 0);
    input_from_rows(&in, "1 1 2 3 1", "1 1 1", "3 2 1 | 0 0 0 0 | 0 1 0 0 | 0 2 0 0");
    refusal_case("U and V exchanged", &in, 8, 3, 0);
}

/* The states of the controller are no part of the product. */
static void test_many_controller_states(void) {
    begin_input(1, 1, 1, 1, 8, 8);
    begin_controller(&in.controller, 1, 1, 512);
    for (unsigned s = 0; s < 512; s++) controller_row(&in.controller, s, 0, 0, (s + 1) % 512);
    verdict_case("8 context states, 8 specification states, 512 controller states", &in, 16);
}

/* Every count of lent numbers around 512, and all below it. */
static void test_lent(void) {
    static const uint64_t sets[SETS] = {1};
    input_from_rows(&in, K1_CONTEXT, K1_SPECIFICATION, K1_ANSWER);
    for (size_t lent = 0; lent < 512; lent++) check_lent("K1's answer", &in, lent, reply(10, 0, 0, 0), NULL);
    for (size_t lent = 512; lent <= 700; lent++) check_lent("K1's answer", &in, lent, reply(0, 0, 0, 1), sets);
}

void test_counts(void) {
    test_differences();
    each_outside(outside_case);
    test_inside_counts();
    each_product(begin_input, counts_case);
    edge_products(begin_input, closer_case);
    test_many_controller_states();
    test_lent();
}
