/* Answers as tables of controllers: written, read again, and checked. */
#include "cases.h"

#include <string.h>

static uint8_t record[MORTARLEAF_CONTROLLER_BYTES];

/* The record of this table; its bytes. */
static size_t written(const struct skid *skid, uint32_t states, const uint16_t *next) {
    const uint8_t *counts = skid->context.bytes + 4; /* I O U V states */
    struct mortarleaf_reply got = mortarleaf_write_controller(counts[2], counts[3], states, next, NEXTS, record, sizeof record, 0);
    same_reply(got, reply(0, 0, 0, states));
    return got.number == 0 ? 2 + record[0] + 256u * record[1] : 0;
}

static struct mortarleaf_reply checked(const struct skid *skid, size_t size, uint64_t *reached) {
    const struct record *c = &skid->context, *p = &skid->specification;
    return mortarleaf_check(c->bytes, c->size, p->bytes, p->size, record, size, reached, SETS);
}

static void reads_again(const struct skid *skid, uint32_t states, size_t size, const uint16_t *next) {
    static uint16_t read[NEXTS];
    struct mortarleaf_controller got = mortarleaf_read_controller(record, size, read, NEXTS);
    same("number of the record that was written", got.number, 0);
    same("states of the record that was written", got.states, states);
    same("U of the record that was written", got.u, skid->context.bytes[6]);
    same("V of the record that was written", got.v, skid->context.bytes[7]);
    same("the record that was written has the answer's next states", memcmp(read, next, sizeof read) == 0, 1);
}

/* What a controller word reaches does not depend on the way by which the check finds it, so the pairs reached with a state are its set. */
void fits_as_it_is(const struct skid *skid, uint32_t states, const uint64_t *sets, const uint16_t *next) {
    static uint64_t reached[SETS];
    size_t size = written(skid, states, next);
    reads_again(skid, states, size, next);
    same_reply(checked(skid, size, reached), reply(0, 0, 0, states));
    same("the check reaches the pairs of the answer's sets", memcmp(reached, sets, sizeof reached) == 0, 1);
}

void deleted_or_fits(const char *name, const struct skid *skid, const struct outcome wanted[MODES]) {
    static uint64_t reached[SETS];
    begin_case("the plain answer as a table", name);
    uint32_t number = checked(skid, written(skid, wanted[PLAIN].reply.states, wanted[PLAIN].table.next), reached).number;
    same("it fits, or it is incomplete, or it blocks", number == 0 || number == 14 || number == 16, 1);
    same("it fits where nothing is deleted", number == 0, wanted[UNBLOCKED].reply.number == 0 && wanted[UNBLOCKED].reply.rounds == 0);
}
