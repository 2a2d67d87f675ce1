/* The counts, one combination after another. */
#include "counts.h"

#include "checks.h"

#include <stdio.h>

void each_outside(void (*run)(const char *name, unsigned i, unsigned o, unsigned other_i, unsigned other_o)) {
    char name[100];
    for (unsigned k = 0; k < 64 * 64 && !hopeless(); k++) {
        unsigned i = k % 8 + 1, o = k / 8 % 8 + 1, other_i = k / 64 % 8 + 1, other_o = k / 512 + 1;
        snprintf(name, sizeof name, "I %u, O %u, specification's I %u, O %u", i, o, other_i, other_o);
        run(name, i, o, other_i, other_o);
    }
}

static void product(unsigned a_states, unsigned c_states, begin_counts *begin, run_counts *run) {
    char name[100];
    snprintf(name, sizeof name, "%u context states, %u specification states", a_states, c_states);
    begin(2, 2, 2, 2, a_states, c_states);
    run(name, a_states * c_states > 64 ? 9 : 0, 0);
}

void each_product(begin_counts *begin, run_counts *run) {
    for (unsigned k = 0; k < 64 * 64 && !hopeless(); k++) product(k % 64 + 1, k / 64 + 1, begin, run);
}

void edge_products(begin_counts *begin, run_counts *run) {
    product(64, 2, begin, run);
    product(64, 64, begin, run);
    product(64, 1, begin, run);
    product(1, 64, begin, run);
}
