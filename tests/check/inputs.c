/* Skids with a controller. */
#include "inputs.h"

void input_from_rows(struct input *in, const char *context, const char *specification, const char *controller) {
    from_rows(&in->context, CONTEXT, context);
    from_rows(&in->specification, SPECIFICATION, specification);
    from_rows(&in->controller, CONTROLLER, controller);
}

void k1_rings_answered(struct input *in, unsigned a_states, unsigned c_states, unsigned s_states, int by_every_row) {
    k1_rings(&in->context, &in->specification, a_states, c_states, by_every_row);
    begin_controller(&in->controller, 2, 2, s_states);
    for (unsigned s = 0; s < s_states; s++)
        for (unsigned u = 0; u < 2; u++) controller_row(&in->controller, s, u, u, (s + 1) % s_states);
}

static void random_controller(struct record *r, unsigned u, unsigned v, unsigned states) {
    static const unsigned full[] = {0, 20, 50, 90};
    unsigned percent = one_of(full, 4);
    int each_u = chance(85); /* a row at least for each state and u */
    begin_controller(r, u, v, states);
    for (unsigned x = 0; x < states * u; x++) {
        unsigned sure = each_u ? below(v) : v;
        for (unsigned y = 0; y < v; y++)
            if (y == sure || chance(percent)) controller_row(r, x / u, x % u, y, below(states));
    }
}

void random_input(struct input *in, struct most most) {
    random_skid(&in->context, &in->specification, most);
    unsigned u = in->context.bytes[6], v = in->context.bytes[7];
    random_controller(&in->controller, perhaps(u, most.u), perhaps(v, most.v), below(most.s) + 1);
}
