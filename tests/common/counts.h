/* Counts of context and specification: all that there can be. */
#ifndef COUNTS_H
#define COUNTS_H

#include <stdint.h>

/* Every I and O of the context with every I and O of the specification: run each. */
void each_outside(void (*run)(const char *name, unsigned i, unsigned o, unsigned other_i, unsigned other_o));

/* What a test has to begin its input, a skid of these counts, and to run it with the refusal that is wanted; 0: nothing is wrong with the counts. */
typedef void begin_counts(unsigned i, unsigned o, unsigned u, unsigned v, unsigned a_states, unsigned c_states);
typedef void run_counts(const char *name, uint32_t number, uint32_t record);

/* Every number of context states with every number of specification states: 9 where the product is over 64. */
void each_product(begin_counts *begin, run_counts *run);

/* Four of them, for a closer look: the most of one beside few of the other, and the most of both. */
void edge_products(begin_counts *begin, run_counts *run);

#endif
