/* Skids of document 01: the list of the small ones, and those that have many states. */
#include "known.h"

const struct known_skid known_skids[] = {
    {"K1", K1_CONTEXT, K1_SPECIFICATION}, {"K2", K2_CONTEXT, FREE_2},           {"K3", K3_CONTEXT, K3_SPECIFICATION},
    {"K4", K4_CONTEXT, FREE_1},           {"K5", K5_CONTEXT, FREE_2},           {"K6", K6_CONTEXT, FREE_2},
    {"K7", K7_CONTEXT, K7_SPECIFICATION}, {"K8", K8_CONTEXT, K3_SPECIFICATION}, {"K9", K9_CONTEXT, K9_SPECIFICATION},
    {"K10", K10_CONTEXT, FREE_1},
};
const size_t known_skids_count = sizeof known_skids / sizeof known_skids[0];

void k1_rings(struct record *context, struct record *specification, unsigned a_states, unsigned c_states, int by_every_row) {
    begin_context(context, 2, 2, 2, 2, a_states);
    for (unsigned a = 0; a < a_states; a++)
        for (unsigned i = 0; i < 2; i++)
            for (unsigned v = 0; v < 2; v++) context_row(context, a, i, v, i, v, (a + 1) % a_states);
    begin_specification(specification, 2, 2, c_states);
    for (unsigned c = 0; c < c_states; c++)
        for (unsigned i = 0; i < 2; i++) specification_row(specification, c, i, i, (c + (by_every_row ? 1 : i)) % c_states);
}

/* "State 0 loops on i=0 with each u, goes to 1 on i=1, u=1; state k goes to k+1 on i=0 with each u, the last has no rows." */
void k11(struct record *context, struct record *specification, unsigned states) {
    begin_context(context, 2, 1, 2, 1, states);
    context_row(context, 0, 0, 0, 0, 0, 0);
    context_row(context, 0, 0, 0, 1, 0, 0);
    context_row(context, 0, 1, 0, 1, 0, 1);
    for (unsigned state = 1; state + 1 < states; state++)
        for (unsigned u = 0; u < 2; u++) context_row(context, state, 0, 0, u, 0, state + 1);
    from_rows(specification, SPECIFICATION, FREE_2);
}
