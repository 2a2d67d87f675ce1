/* Random numbers that are the same in every run, and random skids. */
#ifndef CHANCE_H
#define CHANCE_H

#include "skids.h"

void seed(uint64_t number);
unsigned below(unsigned count); /* from 0 to count - 1 */
int chance(unsigned percent);
unsigned one_of(const unsigned *list, unsigned count);

/* Another count now and then. */
unsigned perhaps(unsigned count, unsigned most);

/* Counts are from 1 to these; the product of context and specification states is at most 64. `s` is for whoever draws a controller too. */
struct most {
    unsigned i, o, u, v, a, c, s;
};

/* Two legal records. Mostly they belong together; some differ in a count, some have too many states. How full the tables are differs from case to
 * case: some specifications lack rows, some contexts leave inputs out. */
void random_skid(struct record *context, struct record *specification, struct most most);

#endif
