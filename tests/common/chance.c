/* Random numbers by a shift register of 64 bits, and skids made of them. */
#include "chance.h"

static uint64_t drawn;

static uint64_t draw(void) {
    drawn ^= drawn << 13;
    drawn ^= drawn >> 7;
    drawn ^= drawn << 17;
    return drawn;
}

void seed(uint64_t number) {
    drawn = (number + 1) * UINT64_C(0x9E3779B97F4A7C15);
    for (int k = 0; k < 8; k++) draw();
}

unsigned below(unsigned count) { return (unsigned)((draw() >> 33) % count); }

int chance(unsigned percent) { return below(100) < percent; }

unsigned one_of(const unsigned *list, unsigned count) { return list[below(count)]; }

static void random_context(struct record *r, unsigned i, unsigned o, unsigned u, unsigned v, unsigned states) {
    static const unsigned full[] = {2, 8, 20, 50, 100};
    unsigned percent = one_of(full, 5), rows = 0;
    int each_i = chance(75); /* a row at least for each state and i */
    begin_context(r, i, o, u, v, states);
    for (unsigned x = 0; x < states * i; x++) {
        unsigned sure = each_i ? below(v * u * o) : v * u * o;
        for (unsigned y = 0; y < v * u * o; y++)
            if ((y == sure || chance(percent)) && rows++ < 4096) context_row(r, x / i, x % i, y / (u * o), y / o % u, y % o, below(states));
    }
}

static void random_specification(struct record *r, unsigned i, unsigned o, unsigned states) {
    static const unsigned full[] = {50, 80, 95, 100, 100};
    unsigned percent = one_of(full, 5), rows = 0;
    begin_specification(r, i, o, states);
    for (unsigned x = 0; x < states * i * o; x++)
        if (chance(percent) && rows++ < 1024) specification_row(r, x / (i * o), x / o % i, x % o, below(states));
}

unsigned perhaps(unsigned count, unsigned most) { return chance(2) ? below(most) + 1 : count; }

void random_skid(struct record *context, struct record *specification, struct most most) {
    unsigned i = below(most.i) + 1, o = below(most.o) + 1, u = below(most.u) + 1, v = below(most.v) + 1;
    unsigned a = below(most.a) + 1, c = below(most.c) + 1;
    while (a * c > 64) a = below(most.a) + 1, c = below(most.c) + 1;
    if (chance(2)) a = below(64) + 1, c = below(64) + 1;
    random_context(context, i, o, u, v, a);
    random_specification(specification, perhaps(i, most.i), perhaps(o, most.o), c);
}
