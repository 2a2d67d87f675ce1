/* The rules of document 01 for large tables, and the reading of one record. */
#include "cases.h"

#include <stdio.h>

static size_t put_two(uint8_t *out, size_t at, uint32_t number) {
    out[at] = number & 0xFF;
    out[at + 1] = number >> 8 & 0xFF;
    return at + 2;
}

/* A row (state, u, v, next) for each present step, keys rising; the length is known at the end. */
size_t encode(uint32_t u, uint32_t v, uint32_t states, const uint16_t *next, uint8_t *out) {
    size_t at = 2;
    out[at++] = 0x43;
    out[at++] = 0x54;
    out[at++] = (uint8_t)u;
    out[at++] = (uint8_t)v;
    at = put_two(out, at, states);
    for (uint32_t state = 0; state < states; state++)
        for (uint32_t x = 0; x < u; x++)
            for (uint32_t y = 0; y < v; y++) {
                uint16_t to = next[state * u * v + x * v + y];
                if (to == MORTARLEAF_ABSENT) continue;
                at = put_two(out, at, state);
                out[at++] = (uint8_t)x;
                out[at++] = (uint8_t)y;
                at = put_two(out, at, to);
            }
    put_two(out, 0, (uint32_t)(at - 2));
    return at;
}

/* Keys rise, so one walk over the places meets the rows in their order. */
void decode(const uint8_t *bytes, size_t size, uint16_t *next) {
    unsigned u = bytes[4], v = bytes[5], states = bytes[6] + 256u * bytes[7];
    size_t at = 8, place = 0;
    for (unsigned state = 0; state < states; state++)
        for (unsigned x = 0; x < u; x++)
            for (unsigned y = 0; y < v; y++) {
                int here = at < size && bytes[at] + 256u * bytes[at + 1] == state && bytes[at + 2] == x && bytes[at + 3] == y;
                next[place++] = here ? (uint16_t)(bytes[at + 4] + 256u * bytes[at + 5]) : MORTARLEAF_ABSENT;
                if (here) at += 6;
            }
    need(at == size, "rows that no place has");
    while (place < MORTARLEAF_NEXT_NUMBERS) next[place++] = 0;
}

/* A table of so many numbers is lent. 01: "Reading: the record, then 10 for a controller"; "on refusal nothing, and 0 for both". */
static void read_controller_into(const char *name, const uint8_t *bytes, size_t size, struct mortarleaf_reply wanted, size_t lent) {
    static struct bytes record;
    static struct numbers next;
    char title[200];
    snprintf(title, sizeof title, "%s (%zu numbers lent)", name, lent);
    begin_case("mortarleaf_read_controller", title);
    if (wanted.number == 0 && lent < 8192) wanted = reply(10, 0, 0, 0);
    hold_bytes(&record, bytes, size);
    fill_numbers(&next, lent);
    uint32_t u = 0, v = 0;
    if (wanted.number == 0) {
        u = bytes[4];
        v = bytes[5];
        decode(bytes, size, wanted_numbers(&next));
    }
    struct mortarleaf_controller got = mortarleaf_read_controller(lent_bytes(&record), size, lent_numbers(&next), lent);
    same_reply((struct mortarleaf_reply){got.number, got.record, got.row, got.states, got.rounds}, wanted);
    same("u", got.u, u);
    same("v", got.v, v);
    same_numbers("next table", &next);
    same_bytes("the record's bytes", &record);
}

void read_case(const char *name, enum kind kind, const uint8_t *bytes, size_t size, struct mortarleaf_reply wanted) {
    static struct bytes record;
    if (kind == CONTROLLER) {
        read_controller_into(name, bytes, size, wanted, 8192);
        read_controller_into(name, bytes, size, wanted, 8300);
        read_controller_into(name, bytes, size, wanted, 8191);
        read_controller_into(name, bytes, size, wanted, 0);
        return;
    }
    begin_case(kind == CONTEXT ? "mortarleaf_read_context" : "mortarleaf_read_specification", name);
    hold_bytes(&record, bytes, size);
    if (kind == CONTEXT)
        same_reply(mortarleaf_read_context(lent_bytes(&record), size), wanted);
    else
        same_reply(mortarleaf_read_specification(lent_bytes(&record), size), wanted);
    same_bytes("the record's bytes", &record);
}

void read_all(enum kind kind, const struct small *cases, size_t count) {
    uint8_t bytes[200];
    for (size_t k = 0; k < count; k++) {
        size_t size = from_text(cases[k].bytes, bytes);
        read_case(cases[k].name, kind, bytes, size, reply(cases[k].number, cases[k].record, cases[k].row, cases[k].states));
    }
}
