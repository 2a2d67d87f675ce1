/* The largest tables, row by row. */
#include "largest.h"

size_t largest_context(struct record *r, unsigned states, unsigned us, unsigned os, int loses) {
    size_t rows = 0;
    begin_context(r, 8, 8, 4, 4, states);
    for (unsigned k = 0; k < states * 8 * 4 * us * os; k++) {
        unsigned o = k % os, u = k / os % us, v = k / (os * us) % 4, i = k / (os * us * 4) % 8, state = k / (os * us * 32);
        if (loses && state == states - 1 && i == 7) continue;
        context_row(r, state, i, v, u * 4 / us + (state + i + v) % (4 / us), o * 8 / os + 8 / os - 1, (5 * k + k / 7 + 3) % states);
        rows++;
    }
    return rows;
}

size_t largest_specification(struct record *r, unsigned states, unsigned os, int loses) {
    size_t rows = 0;
    begin_specification(r, 8, 8, states);
    for (unsigned k = 0; k < states * 8 * os; k++) {
        unsigned o = k % os, i = k / os % 8, state = k / (os * 8);
        if (loses && state == states - 1 && i == 7 && o == os - 1) continue;
        specification_row(r, state, i, o * 8 / os + 8 / os - 1, (5 * k + k / 9 + 1) % states);
        rows++;
    }
    return rows;
}
