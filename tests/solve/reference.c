/* The order of the refusals, and what is written. Bits occur only here, where the wanted numbers are written. */
#include "reference.h"

#include "reading.h"
#include "second.h"

#include <string.h>

void skid_from_rows(struct skid *skid, const char *context_rows, const char *specification_rows) {
    from_rows(&skid->context, CONTEXT, context_rows);
    from_rows(&skid->specification, SPECIFICATION, specification_rows);
}

struct mortarleaf_reply kept(uint32_t states, uint32_t rounds) {
    return (struct mortarleaf_reply){.states = states, .rounds = rounds};
}

struct mortarleaf_reply none(uint32_t rounds) {
    return (struct mortarleaf_reply){.number = 12, .rounds = rounds};
}

int writes(uint32_t number) { return number == 0 || number == 11 || number == 12; }

/* "pair a, c at bit a times specification states plus c" */
static uint64_t bits_of(const struct list *set) {
    uint64_t bits = 0;
    for (size_t k = 0; k < set->count; k++) bits |= UINT64_C(1) << (set->pairs[k].a * specification.states + set->pairs[k].c);
    return bits;
}

static void put_answer(const struct answer *answer, struct table *table) {
    for (size_t state = 0; state < answer->states; state++) table->sets[state] = bits_of(&answer->set[state]);
    memcpy(table->next, answer->next, answer->states * context.u * context.v * sizeof answer->next[0]);
}

/* The skid that was taken; only zeros stand in the table so far. "11; 12" */
static struct mortarleaf_reply solved(uint32_t mode, struct table *table) {
    static struct answer plain, unblocked;
    if (!plain_answer(&plain)) return reply(11, 0, 0, 0);
    if (mode == PLAIN) {
        put_answer(&plain, table);
        return reply(0, 0, 0, (uint32_t)plain.states);
    }
    uint32_t rounds = unblocked_answer(&plain, &unblocked);
    if (unblocked.states == 0) return none(rounds);
    put_answer(&unblocked, table);
    return kept((uint32_t)unblocked.states, rounds);
}

/* "13; context 1 to 4, then rows ..; the same for the specification; 8; 9; 10; 11; 12" */
struct mortarleaf_reply reference(uint32_t mode, const struct skid *skid, struct lent lent, struct table *table) {
    if (mode != PLAIN && mode != UNBLOCKED) return reply(13, 0, 0, 0);
    struct mortarleaf_reply first = reading(CONTEXT, &skid->context), second = reading(SPECIFICATION, &skid->specification);
    if (first.number != 0) return first;
    if (second.number != 0) return second;
    take_skid(skid);
    if (context.i != specification.i || context.o != specification.o) return reply(8, 2, 0, 0);
    if (context.states * specification.states > 64) return reply(9, 0, 0, 0);
    if (lent.sets < SETS || lent.next < NEXTS) return reply(10, 0, 0, 0);
    memset(table, 0, sizeof *table);
    return solved(mode, table);
}
