/* The largest tables: I = O = 8, U = V = 4. */
#ifndef LARGEST_H
#define LARGEST_H

#include "skids.h"

/* For each state, i and v so many u and so many o, spread evenly. States times u times o is at most 128: then there are 4,096 rows. How many there
 * are. Where something is lost, the last state has no row on i=7. */
size_t largest_context(struct record *r, unsigned states, unsigned us, unsigned os, int loses);

/* Each i with the o that such a context has. States times o is at most 128: then there are 1,024 rows. Where something is lost, the last state has
 * no row for i=7 with its last o. */
size_t largest_specification(struct record *r, unsigned states, unsigned os, int loses);

#endif
