/* The inputs. Every builder adds its rows in the order of their keys. */
#include "skids.h"

#include <stdio.h>
#include <stdlib.h>

static void need(bool enough, const char *what) {
    if (enough) return;
    fprintf(stderr, "bench: %s\n", what);
    exit(2);
}

/* ---- Records ---- */

/* The length counts all bytes after itself, the low byte first. */
static void set_length(struct record *r) {
    r->bytes[0] = (uint8_t)(r->size - 2);
    r->bytes[1] = (uint8_t)((r->size - 2) >> 8);
}

static void add_bytes(struct record *r, const uint8_t *bytes, size_t count) {
    need(r->size + count <= sizeof r->bytes, "a record is longer than any can be");
    for (size_t k = 0; k < count; k++) r->bytes[r->size++] = bytes[k];
    set_length(r);
}

static void begin_context(struct record *r, unsigned i, unsigned o, unsigned u, unsigned v, unsigned states) {
    const uint8_t front[] = {0x43, 0x58, (uint8_t)i, (uint8_t)o, (uint8_t)u, (uint8_t)v, (uint8_t)states};
    r->size = 2;
    add_bytes(r, front, sizeof front);
}

static void context_row(struct record *r, unsigned state, unsigned i, unsigned v, unsigned u, unsigned o, unsigned next) {
    const uint8_t row[] = {(uint8_t)state, (uint8_t)i, (uint8_t)v, (uint8_t)u, (uint8_t)o, (uint8_t)next};
    add_bytes(r, row, sizeof row);
}

static void begin_specification(struct record *r, unsigned i, unsigned o, unsigned states) {
    const uint8_t front[] = {0x53, 0x50, (uint8_t)i, (uint8_t)o, (uint8_t)states};
    r->size = 2;
    add_bytes(r, front, sizeof front);
}

static void specification_row(struct record *r, unsigned state, unsigned i, unsigned o, unsigned next) {
    const uint8_t row[] = {(uint8_t)state, (uint8_t)i, (uint8_t)o, (uint8_t)next};
    add_bytes(r, row, sizeof row);
}

static void begin_controller(struct record *r, unsigned u, unsigned v, unsigned states) {
    const uint8_t front[] = {0x43, 0x54, (uint8_t)u, (uint8_t)v, (uint8_t)states, (uint8_t)(states >> 8)};
    r->size = 2;
    add_bytes(r, front, sizeof front);
}

static void controller_row(struct record *r, unsigned state, unsigned u, unsigned v, unsigned next) {
    const uint8_t row[] = {(uint8_t)state, (uint8_t)(state >> 8), (uint8_t)u, (uint8_t)v, (uint8_t)next, (uint8_t)(next >> 8)};
    add_bytes(r, row, sizeof row);
}

/* One state that allows each i with each o below `legal`. With all of them it is document 01's "free" specification. */
static void one_state_specification(struct record *r, unsigned i, unsigned o, unsigned legal) {
    begin_specification(r, i, o, 1);
    for (unsigned x = 0; x < i; x++)
        for (unsigned y = 0; y < legal; y++) specification_row(r, 0, x, y, 0);
}

/* ---- Controllers ---- */

/* 512 states with a row for each (u, v), spread so that all states are reached. */
static void full_controller(struct record *r, unsigned u, unsigned v) {
    begin_controller(r, u, v, MORTARLEAF_STATES);
    for (unsigned state = 0; state < MORTARLEAF_STATES; state++)
        for (unsigned x = 0; x < u; x++)
            for (unsigned y = 0; y < v; y++) controller_row(r, state, x, y, (state + 1 + 37 * (x * v + y)) % MORTARLEAF_STATES);
}

/* The answer to the input's own skid in this mode, as a controller. */
static void answer_controller(struct input *in, enum work mode) {
    static uint64_t sets[MORTARLEAF_SET_NUMBERS];
    static uint16_t next[MORTARLEAF_NEXT_NUMBERS];
    const struct record *x = &in->context, *s = &in->specification;
    struct record *r = &in->controller;
    struct mortarleaf_reply answer =
        mortarleaf_solve(mode, x->bytes, x->size, s->bytes, s->size, sets, MORTARLEAF_SET_NUMBERS, next, MORTARLEAF_NEXT_NUMBERS);
    need(answer.number == 0, "a skid has no answer to make its controller of");
    unsigned u = x->bytes[6], v = x->bytes[7];
    struct mortarleaf_reply written =
        mortarleaf_write_controller(u, v, answer.states, next, MORTARLEAF_NEXT_NUMBERS, r->bytes, sizeof r->bytes, 0);
    need(written.number == 0, "an answer cannot be written");
    r->size = 2 + r->bytes[0] + 256u * r->bytes[1];
}

/* ---- Small skids ---- */

static void k1_skid(struct input *in) {
    begin_context(&in->context, 2, 2, 2, 2, 1);
    for (unsigned i = 0; i < 2; i++)
        for (unsigned v = 0; v < 2; v++) context_row(&in->context, 0, i, v, i, v, 0);
    begin_specification(&in->specification, 2, 2, 1);
    for (unsigned i = 0; i < 2; i++) specification_row(&in->specification, 0, i, i, 0);
}

static void k1(struct input *in) {
    k1_skid(in);
    answer_controller(in, UNBLOCKED);
}

/* K12: K1 with the row 0 0 0 0 alone, and with v=1 always. */
static void k12_incomplete(struct input *in) {
    k1_skid(in);
    begin_controller(&in->controller, 2, 2, 1);
    controller_row(&in->controller, 0, 0, 0, 0);
}

static void k12_leaves(struct input *in) {
    k1_skid(in);
    begin_controller(&in->controller, 2, 2, 1);
    for (unsigned u = 0; u < 2; u++) controller_row(&in->controller, 0, u, 1, 0);
}

/* State 0 of K2 and K5: v=0 stays, v=1 goes to 1. */
static void k2_start(struct input *in, unsigned states) {
    begin_context(&in->context, 2, 1, 1, 2, states);
    for (unsigned i = 0; i < 2; i++)
        for (unsigned v = 0; v < 2; v++) context_row(&in->context, 0, i, v, 0, 0, v);
    one_state_specification(&in->specification, 2, 1, 1);
}

static void k2(struct input *in) {
    k2_start(in, 2);
    for (unsigned v = 0; v < 2; v++) context_row(&in->context, 1, 0, v, 0, 0, 1);
    answer_controller(in, UNBLOCKED);
}

static void k5(struct input *in) {
    k2_start(in, 3);
    for (unsigned i = 0; i < 2; i++)
        for (unsigned v = 0; v < 2; v++) context_row(&in->context, 1, i, v, 0, 0, 2);
    for (unsigned v = 0; v < 2; v++) context_row(&in->context, 2, 0, v, 0, 0, 2);
    answer_controller(in, PLAIN);
}

static void k6(struct input *in) {
    begin_context(&in->context, 2, 1, 1, 2, 1);
    for (unsigned i = 0; i < 2; i++) context_row(&in->context, 0, i, i, 0, 0, 0);
    one_state_specification(&in->specification, 2, 1, 1);
    begin_controller(&in->controller, 1, 2, 1);
    controller_row(&in->controller, 0, 0, 0, 0);
}

/* ---- Many sets ---- */

static void k11_skid(struct input *in, unsigned states) {
    begin_context(&in->context, 2, 1, 2, 1, states);
    for (unsigned u = 0; u < 2; u++) context_row(&in->context, 0, 0, 0, u, 0, 0);
    context_row(&in->context, 0, 1, 0, 1, 0, 1);
    for (unsigned state = 1; state + 1 < states; state++)
        for (unsigned u = 0; u < 2; u++) context_row(&in->context, state, 0, 0, u, 0, state + 1);
    one_state_specification(&in->specification, 2, 1, 1);
}

static void k11_10(struct input *in) {
    k11_skid(in, 10);
    answer_controller(in, PLAIN);
}

static void k11_11(struct input *in) { k11_skid(in, 11); }

/* A ring of 64 context states with 64 rows each. The step (u, v) turns it by a multiple of 4, and by 0, 1 or 2 more as i says: so a set is an arc,
 * which begins at one of 16 places and grows by 2 with each step until it is the whole ring. */
static void wide_context(struct record *r) {
    begin_context(r, 8, 1, 4, 4, 64);
    for (unsigned state = 0; state < 64; state++)
        for (unsigned i = 0; i < 8; i++)
            for (unsigned v = 0; v < 4; v++)
                for (unsigned u = i % 2; u < 4; u += 2) context_row(r, state, i, v, u, 0, (state + 4 * (4 * u + v) + i / 2 % 3) % 64);
}

static void wide(struct input *in) {
    wide_context(&in->context);
    one_state_specification(&in->specification, 8, 1, 1);
    full_controller(&in->controller, 4, 4);
}

/* Both tables have all rows that there can be: 4 context states with 1,024 each, and 16 specification states with 64 each. The specification is a
 * ring that i and o turn by 0 to 3. Where they turn it by an even number, the context's ring turns by u, else by v: so sets grow in 16 ways. */
static void deep(struct input *in) {
    begin_context(&in->context, 8, 8, 4, 4, 4);
    for (unsigned state = 0; state < 4; state++)
        for (unsigned i = 0; i < 8; i++)
            for (unsigned v = 0; v < 4; v++)
                for (unsigned u = 0; u < 4; u++)
                    for (unsigned o = 0; o < 8; o++) context_row(&in->context, state, i, v, u, o, (state + ((i + o) % 2 ? v : u)) % 4);
    begin_specification(&in->specification, 8, 8, 16);
    for (unsigned state = 0; state < 16; state++)
        for (unsigned i = 0; i < 8; i++)
            for (unsigned o = 0; o < 8; o++) specification_row(&in->specification, state, i, o, (state + (i + o) % 4) % 16);
    full_controller(&in->controller, 4, 4);
}

/* ---- Long cascades of deletion ---- */

/* Rings of context states that turn by one with every step, and further states that stay: v=0 leads from the start into all of them at once, any
 * other v stays there. In the last state of ring r, the reply v=r lets the pump act as the specification forbids (with the highest o). So a step is
 * absent in many sets, but only the set of all last states has none at all. With lengths that have no common divisor it comes last of all sets; it
 * falls in the first round, and in each further round the set before falls. */
struct cascade {
    unsigned i, o, u, v, rings, lengths[3], further;
};

static unsigned states_of(const struct cascade *c) {
    unsigned states = 1 + c->further;
    for (unsigned r = 0; r < c->rings; r++) states += c->lengths[r];
    return states;
}

/* Where the start leads to by (i, o): the first states of the rings, then the further states, then those again. */
static unsigned entered(const struct cascade *c, unsigned place) {
    unsigned first = 1;
    place %= c->rings + c->further;
    for (unsigned r = 0; r < c->rings; first += c->lengths[r++])
        if (place == r) return first;
    return first + place - c->rings;
}

static void cascade_start(const struct cascade *c, struct record *r) {
    unsigned legal = c->o - 1;
    for (unsigned i = 0; i < c->i; i++)
        for (unsigned v = 0; v < c->v; v++)
            for (unsigned u = 0; u < c->u; u++)
                for (unsigned o = 0; o < (v == 0 ? legal : 1); o++) context_row(r, 0, i, v, u, o, v == 0 ? entered(c, i * legal + o) : 0);
}

/* The rows of a state that goes on to `next`; the reply `forbidden` is none of the codes where all may be given. */
static void cascade_state(const struct cascade *c, struct record *r, unsigned state, unsigned next, unsigned forbidden) {
    for (unsigned i = 0; i < c->i; i++)
        for (unsigned v = 0; v < c->v; v++)
            for (unsigned u = 0; u < c->u; u++) context_row(r, state, i, v, u, v == forbidden ? c->o - 1 : 0, next);
}

static void cascade(struct input *in, const struct cascade *c) {
    struct record *r = &in->context;
    unsigned state = 1;
    begin_context(r, c->i, c->o, c->u, c->v, states_of(c));
    cascade_start(c, r);
    for (unsigned ring = 0; ring < c->rings; ring++) {
        unsigned first = state, last = first + c->lengths[ring] - 1;
        for (; state < last; state++) cascade_state(c, r, state, state + 1, c->v);
        cascade_state(c, r, state++, first, ring);
    }
    for (; state < states_of(c); state++) cascade_state(c, r, state, state, c->v);
    one_state_specification(&in->specification, c->i, c->o, c->o - 1);
    full_controller(&in->controller, c->u, c->v);
}

static void cascade_of_small_sets(struct input *in) {
    const struct cascade c = {.i = 2, .o = 2, .u = 1, .v = 2, .rings = 2, .lengths = {22, 23}, .further = 0};
    cascade(in, &c);
}

static void cascade_of_large_sets(struct input *in) {
    const struct cascade c = {.i = 8, .o = 8, .u = 2, .v = 3, .rings = 3, .lengths = {7, 8, 9}, .further = 39};
    cascade(in, &c);
}

/* ---- Damaged records ---- */

/* Refused at its first bytes. */
static void damaged_length(struct input *in) {
    wide(in);
    in->context.bytes[0] ^= 1;
}

/* The last row's key is that of the row before: all rows are read until then. */
static void repeat_last_key(struct record *r, size_t row_size, size_t key_size) {
    for (size_t k = 0; k < key_size; k++) r->bytes[r->size - row_size + k] = r->bytes[r->size - 2 * row_size + k];
}

static void damaged_context(struct input *in) {
    wide(in);
    repeat_last_key(&in->context, 6, 5);
}

static void damaged_controller(struct input *in) {
    wide(in);
    repeat_last_key(&in->controller, 6, 4);
}

/* ---- The list ---- */

#define ASKED(number, states, rounds)                                                                                                                \
    { true, number, states, rounds }
#define NOT_ASKED                                                                                                                                    \
    { false, 0, 0, 0 }

static const struct {
    const char *name;
    void (*build)(struct input *in);
    struct wanted wanted[WORKS]; /* plain, unblocked, check */
} list[] = {
    {"K1", k1, {ASKED(0, 1, 0), ASKED(0, 1, 0), ASKED(0, 1, 0)}},
    {"K2", k2, {ASKED(0, 2, 0), ASKED(0, 1, 1), ASKED(0, 1, 0)}},
    {"K5", k5, {ASKED(0, 3, 0), ASKED(0, 1, 2), ASKED(16, 0, 0)}},
    {"K6", k6, {ASKED(0, 1, 0), ASKED(0, 1, 0), ASKED(16, 0, 0)}},
    {"K12 incomplete", k12_incomplete, {NOT_ASKED, NOT_ASKED, ASKED(14, 0, 0)}},
    {"K12 leaves", k12_leaves, {NOT_ASKED, NOT_ASKED, ASKED(15, 0, 0)}},
    {"K11, 10 states", k11_10, {ASKED(0, 512, 0), ASKED(12, 0, 2), ASKED(16, 0, 0)}},
    {"K11, 11 states", k11_11, {ASKED(11, 0, 0), ASKED(11, 0, 0), NOT_ASKED}},
    {"64 by 1 states", wide, {ASKED(0, 498, 0), ASKED(0, 498, 0), ASKED(0, 512, 0)}},
    {"4 by 16 states", deep, {ASKED(0, 506, 0), ASKED(0, 506, 0), ASKED(0, 512, 0)}},
    {"cascade, small sets", cascade_of_small_sets, {ASKED(0, 507, 0), ASKED(0, 1, 506), ASKED(15, 0, 0)}},
    {"cascade, large sets", cascade_of_large_sets, {ASKED(0, 505, 0), ASKED(0, 1, 504), ASKED(15, 0, 0)}},
    {"damaged length", damaged_length, {ASKED(1, 0, 0), ASKED(1, 0, 0), ASKED(1, 0, 0)}},
    {"damaged context", damaged_context, {ASKED(6, 0, 0), ASKED(6, 0, 0), ASKED(6, 0, 0)}},
    {"damaged controller", damaged_controller, {NOT_ASKED, NOT_ASKED, ASKED(6, 0, 0)}},
};

enum { INPUTS = sizeof list / sizeof list[0] };

const struct input *build_inputs(size_t *count) {
    static struct input inputs[INPUTS];
    for (size_t k = 0; k < INPUTS; k++) {
        struct input *in = &inputs[k];
        in->name = list[k].name;
        for (int w = 0; w < WORKS; w++) in->wanted[w] = list[k].wanted[w];
        list[k].build(in);
    }
    *count = INPUTS;
    return inputs;
}
