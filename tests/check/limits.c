/* The largest tables: I = O = 8, U = V = 4, the product of the states 64, up to 4,096 context rows, 1,024 specification rows and
 * 8,192 controller rows. Then one of the tables loses rows. */
#include "cases.h"
#include "largest.h"

#include <stdio.h>

static struct input in;

/* What is left out: nothing; controller state 511's rows for u=3; the last specification state's row for i=7 with its last o; the last
 * context state's rows for i=7. */
enum loss { NOTHING, OF_CONTROLLER, OF_SPECIFICATION, OF_CONTEXT };
static const char *const losses[] = {"complete", "a state without u=3", "a specification row less", "a context state without i=7"};
static const uint32_t numbers[] = {0, 14, 15, 16};

static size_t build_controller(enum loss loss) {
    size_t rows = 0;
    begin_controller(&in.controller, 4, 4, 512);
    for (unsigned k = 0; k < 8192; k++) {
        if (loss == OF_CONTROLLER && k / 4 == 511 * 4 + 3) continue;
        controller_row(&in.controller, k / 16, k / 4 % 4, k % 4, (37 * k + k / 11 + 5) % 512);
        rows++;
    }
    return rows;
}

/* Context states, the u and o of each state, i and v; specification states. */
static void largest_case(unsigned a_states, unsigned us, unsigned os, unsigned c_states, enum loss loss) {
    char name[150];
    size_t context_rows = largest_context(&in.context, a_states, us, os, loss == OF_CONTEXT);
    size_t specification_rows = largest_specification(&in.specification, c_states, os, loss == OF_SPECIFICATION);
    size_t controller_rows = build_controller(loss);
    snprintf(name, sizeof name, "%u and %u states, %zu context rows, %zu specification rows, %zu controller rows: %s", a_states, c_states,
             context_rows, specification_rows, controller_rows, losses[loss]);
    verdict_case(name, &in, numbers[loss]);
}

void test_limits(void) {
    for (enum loss loss = NOTHING; loss <= OF_CONTEXT; loss++) {
        largest_case(64, 2, 1, 1, loss); /* 4,096 context rows */
        largest_case(1, 4, 2, 64, loss); /* 1,024 specification rows */
    }
    largest_case(8, 4, 4, 8, OF_SPECIFICATION); /* 4,096 context rows */
    largest_case(4, 4, 8, 16, NOTHING);         /* every row that there can be, of each table */
}
