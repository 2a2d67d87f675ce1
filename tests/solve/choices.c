/* Skids with a choice, row by row. */
#include "choices.h"

static void choice_context(struct record *r, unsigned i, unsigned o, unsigned u, unsigned v, unsigned states) {
    unsigned lacking = below(3) * 15, wrong = below(3) * 8;
    begin_context(r, i, o, u, v, states);
    for (unsigned state = 0; state < states; state++) {
        unsigned lost = chance(lacking) ? below(i) : i;
        for (unsigned k = 0; k < i * v; k++)
            if (k / v != lost && chance(95))
                context_row(r, state, k / v, k % v, chance(60) ? k / v % u : below(u), chance(wrong) ? o - 1 : below(o), below(states));
    }
}

static void choice_specification(struct record *r, unsigned i, unsigned o, unsigned states) {
    begin_specification(r, i, o, states);
    for (unsigned k = 0; k < states * i * o; k++)
        if (k % o + 1 < o || o == 1 || chance(30)) specification_row(r, k / (i * o), k / o % i, k % o, below(states));
}

void choice_skid(struct skid *skid, struct most most) {
    unsigned i = below(most.i) + 1, o = below(most.o) + 1, u = below(most.u) + 1, v = most.v > 1 ? below(most.v - 1) + 2 : 1, a, c;
    do a = below(most.a) + 1, c = below(most.c) + 1;
    while (a * c > 64);
    choice_context(&skid->context, i, o, u, v, a);
    choice_specification(&skid->specification, i, o, c);
}
