/* Next tables of controllers: "next states at place state·U·V + u·V + v, 65535 where absent, then zeros up to 8,192". */
#include "cases.h"

#include <stdio.h>
#include <string.h>

/* Read a record; the front of the table must be these numbers. */
static void table_case(const char *name, const uint8_t *bytes, size_t size, size_t lent, uint32_t states, const uint16_t *front, size_t count) {
    static struct bytes record;
    static struct numbers next;
    begin_case("mortarleaf_read_controller", name);
    hold_bytes(&record, bytes, size);
    fill_numbers(&next, lent);
    memset(wanted_numbers(&next), 0, 8192 * sizeof *front);
    memcpy(wanted_numbers(&next), front, count * sizeof *front);
    struct mortarleaf_controller got = mortarleaf_read_controller(lent_bytes(&record), size, lent_numbers(&next), lent);
    same_reply((struct mortarleaf_reply){got.number, got.record, got.row, got.states, got.rounds}, reply(0, 0, 0, states));
    same("u", got.u, bytes[4]);
    same("v", got.v, bytes[5]);
    same_numbers("next table", &next);
    same_bytes("the record's bytes", &record);
}

/* Written out by hand. */
#define X MORTARLEAF_ABSENT
static const struct {
    const char *name, *bytes;
    uint32_t states;
    uint16_t next[12];
    size_t count;
} tables[] = {
    {"1 state, U 1, V 1, no rows", "06 00 43 54 01 01 01 00", 1, {X}, 1},
    {"1 state, U 1, V 1, one row", "0C 00 43 54 01 01 01 00 | 00 00 00 00 00 00", 1, {0}, 1},
    {"3 states, U 2, V 1, no rows", "06 00 43 54 02 01 03 00", 3, {X, X, X, X, X, X}, 6},
    {"K1's answer", "12 00 43 54 02 02 01 00 | 00 00 00 00 00 00 | 00 00 01 01 00 00", 1, {0, X, X, 0}, 4},
    {"1 state, U 1, V 4", "0C 00 43 54 01 04 01 00 | 00 00 00 02 00 00", 1, {X, X, 0, X}, 4},
    {"1 state, U 4, V 1", "0C 00 43 54 04 01 01 00 | 00 00 02 00 00 00", 1, {X, X, 0, X}, 4},
    {"2 states, U 2, V 3", "1E 00 43 54 02 03 02 00 | 00 00 00 01 01 00 | 00 00 01 02 00 00 | 01 00 00 00 01 00 | 01 00 01 01 00 00", 2,
     {X, 1, X, X, X, 0, 1, X, X, X, 0, X}, 12},
    {"2 states, U 3, V 2", "18 00 43 54 03 02 02 00 | 00 00 00 01 01 00 | 00 00 02 00 00 00 | 01 00 01 01 01 00", 2,
     {X, 1, X, X, 0, X, X, X, X, 1, X, X}, 12},
    {"4 states, U 1, V 3, only the last state has rows", "12 00 43 54 01 03 04 00 | 03 00 00 00 02 00 | 03 00 00 02 03 00", 4,
     {X, X, X, X, X, X, X, X, X, 2, X, 3}, 12},
};
#undef X

/* Of every size: each step present, a mixed table, no step. */
static void built(uint32_t u, uint32_t v, uint32_t states, int filling) {
    static uint8_t record[MORTARLEAF_CONTROLLER_BYTES];
    uint16_t next[MORTARLEAF_NEXT_NUMBERS];
    size_t count = (size_t)states * u * v;
    char name[100];
    snprintf(name, sizeof name, "built: %u states, U %u, V %u, filling %d", states, u, v, filling);
    for (size_t k = 0; k < count; k++) {
        uint16_t to = (uint16_t)((k * k + 41 * k + 7) % states);
        next[k] = filling == 0 || (filling == 1 && k * 7 % 5 < 2) ? to : MORTARLEAF_ABSENT;
    }
    size_t size = encode(u, v, states, next, record);
    table_case(name, record, size, 8192, states, next, count);
    table_case(name, record, size, 8300, states, next, count);
}

void test_tables(void) {
    static const uint32_t states[] = {1, 2, 3, 17, 256, 300, 511, 512};
    uint8_t bytes[100];
    for (size_t k = 0; k < sizeof tables / sizeof tables[0]; k++) {
        size_t size = from_text(tables[k].bytes, bytes);
        table_case(tables[k].name, bytes, size, 8192, tables[k].states, tables[k].next, tables[k].count);
        table_case(tables[k].name, bytes, size, 8193, tables[k].states, tables[k].next, tables[k].count);
    }
    for (uint32_t u = 1; u <= 4; u++)
        for (uint32_t v = 1; v <= 4; v++)
            for (size_t k = 0; k < sizeof states / sizeof states[0]; k++)
                for (int filling = 0; filling < 3; filling++) built(u, v, states[k], filling);
}
