/* The three records that a check takes. */
#ifndef INPUTS_H
#define INPUTS_H

#include "chance.h"
#include "known.h"

struct input {
    struct record context, specification, controller;
};
void input_from_rows(struct input *in, const char *context, const char *specification, const char *controller);

/* K1 and its answer as rings of so many context, specification and controller states. Context and controller go on by every row; the specification
 * goes on by every row, or by i=1 alone. */
void k1_rings_answered(struct input *in, unsigned a_states, unsigned c_states, unsigned s_states, int by_every_row);

/* A random skid with a random controller; in some its counts differ from the context's. How full the tables are differs from case to case, so that
 * each verdict is common. */
void random_input(struct input *in, struct most most);

#endif
