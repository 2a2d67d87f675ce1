/* The largest tables: I = O = 8, U = V = 4, the product of the states 64, up to 4,096 context rows and 1,024 specification rows. Then one of the
 * tables loses rows. */
#include "cases.h"
#include "largest.h"

#include <stdio.h>

static struct skid skid;

/* Context states, the u and o of each state, i and v; specification states. With few rows to a letter there are many sets. */
static void largest_case(unsigned a_states, unsigned us, unsigned os, unsigned c_states, int loss) {
    static const char *const losses[] = {"complete", "a context state without i=7", "a specification row less"};
    static struct outcome wanted[MODES];
    char name[150];
    size_t context_rows = largest_context(&skid.context, a_states, us, os, loss == 1);
    size_t specification_rows = largest_specification(&skid.specification, c_states, os, loss == 2);
    snprintf(name, sizeof name, "%u and %u states, %zu context rows, %zu specification rows: %s", a_states, c_states, context_rows,
             specification_rows, losses[loss]);
    compared_both(name, &skid, (struct lent){514, 8195}, wanted);
}

/* So many rows: every row of a state, then those of the next one. Too many are refused with 4; this record has them. */
static void rows_case(unsigned a_states, unsigned context_rows, unsigned c_states, unsigned specification_rows, uint32_t record) {
    static struct outcome wanted[MODES];
    char name[100];
    begin_context(&skid.context, 8, 8, 4, 4, a_states);
    for (unsigned k = 0; k < context_rows; k++) context_row(&skid.context, k / 1024, k / 128 % 8, k / 32 % 4, k / 8 % 4, k % 8, k / 3 % a_states);
    begin_specification(&skid.specification, 8, 8, c_states);
    for (unsigned k = 0; k < specification_rows; k++) specification_row(&skid.specification, k / 64, k / 8 % 8, k % 8, k / 7 % c_states);
    snprintf(name, sizeof name, "%u context rows and %u specification rows", context_rows, specification_rows);
    if (record != 0) {
        refusal_case(name, &skid, 4, record, 0);
        return;
    }
    compared_both(name, &skid, (struct lent){514, 8195}, wanted);
    same("number", wanted[PLAIN].reply.number, 0);
}

void test_limits(void) {
    for (int loss = 0; loss < 3; loss++) {
        largest_case(64, 2, 1, 1, loss); /* 4,096 context rows */
        largest_case(1, 4, 2, 64, loss); /* 1,024 specification rows */
        largest_case(8, 4, 4, 8, loss);  /* 4,096 context rows */
        largest_case(4, 4, 8, 16, loss); /* every row that there can be, of each table */
        largest_case(32, 2, 2, 2, loss);
        largest_case(64, 1, 1, 1, loss);
        largest_case(8, 1, 1, 8, loss);
        largest_case(1, 1, 1, 64, loss);
    }
    rows_case(5, 4096, 12, 768, 0);
    rows_case(5, 4097, 12, 768, 1);
    rows_case(3, 3072, 17, 1024, 0);
    rows_case(3, 3072, 17, 1025, 2);
    rows_case(5, 4097, 17, 1025, 1);
}
