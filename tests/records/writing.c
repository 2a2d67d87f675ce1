/* Writing of controllers, "from a start place in the caller's buffer onwards; all other bytes stay", and both round trips. */
#include "cases.h"

#include <stdio.h>
#include <string.h>

enum { X = MORTARLEAF_ABSENT };

/* A controller that is to be written. */
struct table {
    uint32_t u, v, states;
    const uint16_t *next;
    size_t count;
};

/* The buffer has `size` bytes. On success the record stands from `start` on, and nothing else has changed; on a refusal nothing has. */
static void write_case(const char *name, struct table t, size_t size, size_t start, struct mortarleaf_reply wanted, const uint8_t *record,
                       size_t length) {
    static struct numbers next;
    static struct bytes out;
    char title[200];
    snprintf(title, sizeof title, "%s (%zu bytes lent, start %zu)", name, size, start);
    begin_case("mortarleaf_write_controller", title);
    hold_numbers(&next, t.next, t.count);
    fill_bytes(&out, size);
    if (wanted.number == 0) memcpy(wanted_bytes(&out) + start, record, length);
    same_reply(mortarleaf_write_controller(t.u, t.v, t.states, lent_numbers(&next), t.count, lent_bytes(&out), size, start), wanted);
    same_bytes("the buffer", &out);
    same_numbers("the next table stays", &next);
}

static void refused_case(const char *name, struct table t, size_t size, size_t start, struct mortarleaf_reply wanted) {
    write_case(name, t, size, start, wanted, NULL, 0);
}

/* Written out by hand: the places of the table, and the record. */
static const struct {
    const char *name;
    uint32_t u, v, states;
    uint16_t next[13];
    size_t count;
    const char *record;
} written[] = {
    {"no step", 1, 1, 1, {X}, 1, "06 00 43 54 01 01 01 00"},
    {"one step", 1, 1, 1, {0}, 1, "0C 00 43 54 01 01 01 00 | 00 00 00 00 00 00"},
    {"K1's answer", 2, 2, 1, {0, X, X, 0}, 4, "12 00 43 54 02 02 01 00 | 00 00 00 00 00 00 | 00 00 01 01 00 00"},
    {"3 states, U 2, V 2", 2, 2, 3, {X, 1, 2, X, 0, X, X, X, X, X, X, 2}, 12,
     "1E 00 43 54 02 02 03 00 | 00 00 00 01 01 00 | 00 00 01 00 02 00 | 01 00 00 00 00 00 | 02 00 01 01 02 00"},
    {"2 states, U 3, V 2", 3, 2, 2, {X, 1, X, X, 0, X, X, X, X, 1, X, X}, 12,
     "18 00 43 54 03 02 02 00 | 00 00 00 01 01 00 | 00 00 02 00 00 00 | 01 00 01 01 01 00"},
    {"2 states, U 2, V 3", 2, 3, 2, {X, 1, X, X, X, 0, 1, X, X, X, 0, X}, 12,
     "1E 00 43 54 02 03 02 00 | 00 00 00 01 01 00 | 00 00 01 02 00 00 | 01 00 00 00 01 00 | 01 00 01 01 00 00"},
    {"1 state, U 1, V 4", 1, 4, 1, {X, X, 0, X}, 4, "0C 00 43 54 01 04 01 00 | 00 00 00 02 00 00"},
    {"1 state, U 4, V 1", 4, 1, 1, {X, X, 0, X}, 4, "0C 00 43 54 04 01 01 00 | 00 00 02 00 00 00"},
    {"every step of 3 states", 2, 1, 3, {0, 1, 2, 0, 1, 2}, 6,
     "2A 00 43 54 02 01 03 00 | 00 00 00 00 00 00 | 00 00 01 00 01 00 | 01 00 00 00 02 00 | 01 00 01 00 00 00 | "
     "02 00 00 00 01 00 | 02 00 01 00 02 00"},
    {"numbers behind the places are not looked at", 1, 1, 2, {1, X, 7, 0, 65534}, 5, "0C 00 43 54 01 01 02 00 | 00 00 00 00 01 00"},
};

/* Each at several start places, in buffers with nothing and with something behind it, and one byte short. */
static void test_written(void) {
    static const size_t starts[] = {0, 1, 2, 7, 8, 255, 1000}, behind[] = {0, 1, 50};
    uint8_t record[100];
    for (size_t k = 0; k < sizeof written / sizeof written[0]; k++) {
        struct table t = {written[k].u, written[k].v, written[k].states, written[k].next, written[k].count};
        size_t length = from_text(written[k].record, record);
        for (size_t s = 0; s < sizeof starts / sizeof starts[0]; s++) {
            for (size_t b = 0; b < sizeof behind / sizeof behind[0]; b++)
                write_case(written[k].name, t, starts[s] + length + behind[b], starts[s], reply(0, 0, 0, t.states), record, length);
            refused_case(written[k].name, t, starts[s] + length - 1, starts[s], reply(10, 0, 0, 0));
        }
    }
}

/* States and next states of two bytes. */
static void test_two_bytes(void) {
    uint16_t next[300];
    uint8_t record[100];
    size_t length = from_text("18 00 43 54 01 01 2C 01 | FF 00 00 00 00 01 | 00 01 00 00 2B 01 | 2B 01 00 00 FF 00", record);
    struct table t = {1, 1, 300, next, 300};
    for (size_t k = 0; k < 300; k++) next[k] = X;
    next[255] = 256;
    next[256] = 299;
    next[299] = 255;
    write_case("300 states", t, 100, 3, reply(0, 0, 0, 300), record, length);
    write_case("300 states", t, length, 0, reply(0, 0, 0, 300), record, length);
}

/* 4: a count of 0 or over its limit; before 10 and before 5. */
static void test_counts(void) {
    static const uint32_t counts[][3] = {
        {0, 1, 1}, {1, 0, 1}, {1, 1, 0}, {0, 0, 0},
        {5, 1, 1}, {1, 5, 1}, {1, 1, 513},
        {256, 1, 1}, {1, 256, 1}, {257, 1, 1}, {1, 257, 1}, {1, 1, 1024},
        {65536, 1, 1}, {1, 65536, 1}, {1, 1, 65536}, {65537, 1, 1}, {1, 65537, 1}, {1, 1, 65537},
        {65536, 65536, 1}, {65536, 65536, 65536}, {0, 4294967295, 4294967295},
        {2147483648, 1, 1}, {1, 2147483648, 1}, {1, 1, 2147483648},
        {4294967295, 1, 1}, {1, 4294967295, 1}, {1, 1, 4294967295}, {4294967295, 4294967295, 4294967295},
        {4294967292, 4, 512}, {4, 4294967292, 512}, {4, 4, 4294967284},
    };
    static uint16_t fine[8192], bad[8192];
    for (size_t k = 0; k < 8192; k++) {
        fine[k] = X;
        bad[k] = 65534;
    }
    for (size_t k = 0; k < sizeof counts / sizeof counts[0]; k++) {
        uint32_t u = counts[k][0], v = counts[k][1], states = counts[k][2];
        char name[100];
        snprintf(name, sizeof name, "U %u, V %u, states %u", u, v, states);
        refused_case(name, (struct table){u, v, states, fine, 8192}, 50000, 0, reply(4, 3, 0, 0));
        refused_case(name, (struct table){u, v, states, fine, 0}, 50000, 0, reply(4, 3, 0, 0));
        refused_case(name, (struct table){u, v, states, fine, 8192}, 0, 0, reply(4, 3, 0, 0));
        refused_case(name, (struct table){u, v, states, fine, 8192}, 50000, SIZE_MAX, reply(4, 3, 0, 0));
        refused_case(name, (struct table){u, v, states, bad, 8192}, 50000, 0, reply(4, 3, 0, 0));
        refused_case(name, (struct table){u, v, states, bad, 1}, 5, 9, reply(4, 3, 0, 0));
    }
}

/* 10: "the table lacks places, or too few bytes from the start place on, which may itself be past the end". */
static void test_too_short(void) {
    static const uint16_t places[12] = {X, 1, 2, X, 0, X, X, X, X, X, X, 2}, bad[12] = {X, 3, 2, X, 0, X, X, X, X, X, X, 2};
    static uint16_t large[8192];
    const struct table t = {2, 2, 3, places, 12};
    const struct mortarleaf_reply ten = reply(10, 0, 0, 0);
    /* the record of t has 8 + 4 * 6 = 32 bytes; from SIZE_MAX - 31 on, start plus size would go round to 0 and up */
    static const size_t past[] = {
        1, 8, 32, 33, 40, 41, 60, 65536, SIZE_MAX / 2, SIZE_MAX / 2 + 1, SIZE_MAX - 40, SIZE_MAX - 32, SIZE_MAX - 31, SIZE_MAX - 30,
        SIZE_MAX - 8, SIZE_MAX - 7, SIZE_MAX - 6, SIZE_MAX - 3, SIZE_MAX - 1, SIZE_MAX,
    };
    refused_case("no numbers", (struct table){2, 2, 3, places, 0}, 100, 0, ten);
    refused_case("one place short", (struct table){2, 2, 3, places, 11}, 100, 0, ten);
    refused_case("one place short, the only one", (struct table){1, 1, 1, places, 0}, 100, 0, ten);
    refused_case("one place short, and a bad place: 10 before 5", (struct table){2, 2, 3, bad, 11}, 100, 0, ten);
    refused_case("largest table, one place short", (struct table){4, 4, 512, large, 8191}, 60000, 0, ten);
    refused_case("no bytes", t, 0, 0, ten);
    refused_case("no room for the counts", t, 7, 0, ten);
    refused_case("room for the counts only", t, 8, 0, ten);
    refused_case("room for three rows", t, 26, 0, ten);
    refused_case("one byte short", t, 31, 0, ten);
    refused_case("one byte short, and a bad place: 10 before 5", (struct table){2, 2, 3, bad, 12}, 31, 0, ten);
    refused_case("start past the end, and a bad place: 10 before 5", (struct table){2, 2, 3, bad, 12}, 40, 41, ten);
    refused_case("a last start, and a bad place: 10 before 5", (struct table){2, 2, 3, bad, 12}, 40, SIZE_MAX, ten);
    for (size_t k = 0; k < sizeof past / sizeof past[0]; k++) {
        refused_case("too few bytes from the start place on", t, 32, past[k], ten);
        if (past[k] > 8) refused_case("too few bytes from the start place on", t, 40, past[k], ten);
        refused_case("no bytes", t, 0, past[k], ten);
        refused_case("too few bytes for no rows", (struct table){1, 1, 1, (const uint16_t[]){X}, 1}, 8, past[k], ten);
    }
    /* a bad place counts as a row */
    const struct table second = {1, 1, 2, (const uint16_t[]){0, 7}, 2}, first = {1, 1, 2, (const uint16_t[]){7, X}, 2};
    for (size_t size = 0; size < 20; size++) refused_case("two rows, one of them bad", second, size, 0, ten);
    refused_case("two rows, one of them bad", second, 20, 0, reply(5, 3, 1, 0));
    for (size_t size = 0; size < 14; size++) refused_case("one row, which is bad", first, size, 0, ten);
    refused_case("one row, which is bad", first, 14, 0, reply(5, 3, 0, 0));
}

/* 5: "gives as row the first place whose number is neither 65535 nor below states". */
static void test_bad_places(void) {
    static const uint16_t numbers[] = {3, 4, 255, 256, 511, 512, 65534};
    uint16_t next[13] = {X, 1, 2, X, 0, X, X, 1, X, X, X, 2, 3};
    for (uint32_t place = 0; place < 12; place++)
        for (size_t k = 0; k < sizeof numbers / sizeof numbers[0]; k++) {
            char name[60];
            uint16_t before = next[place];
            snprintf(name, sizeof name, "%u at place %u", numbers[k], place);
            next[place] = numbers[k];
            refused_case(name, (struct table){2, 2, 3, next, 13}, 100, 5, reply(5, 3, place, 0));
            if (place < 11) {
                uint16_t last = next[11];
                next[11] = 65534;
                refused_case(name, (struct table){2, 2, 3, next, 13}, 100, 5, reply(5, 3, place, 0));
                next[11] = last;
            }
            next[place] = before;
        }
    refused_case("state 1 of 1", (struct table){1, 1, 1, (const uint16_t[]){1}, 1}, 14, 0, reply(5, 3, 0, 0));
    refused_case("state 0 of 1, then state 1", (struct table){2, 1, 1, (const uint16_t[]){0, 1}, 2}, 20, 0, reply(5, 3, 1, 0));
}

/* 512 states with U = V = 4: every step present, then a mixed table. */
static void test_largest(void) {
    static uint16_t next[8192];
    static uint8_t record[MORTARLEAF_CONTROLLER_BYTES];
    static const uint32_t places[] = {0, 1, 255, 256, 4097, 8190, 8191};
    const struct table t = {4, 4, 512, next, 8192};
    for (size_t k = 0; k < 8192; k++) next[k] = (uint16_t)((k * 131 + k / 512) % 512);
    size_t length = encode(4, 4, 512, next, record);
    begin_case("the longest record", "every step");
    same("its bytes", length, 49160);
    write_case("every step of 512 states", t, 49160, 0, reply(0, 0, 0, 512), record, length);
    write_case("every step of 512 states", t, 50000, 840, reply(0, 0, 0, 512), record, length);
    write_case("every step of 512 states", t, 60000, 1, reply(0, 0, 0, 512), record, length);
    refused_case("every step of 512 states, one byte short", t, 49159, 0, reply(10, 0, 0, 0));
    refused_case("every step of 512 states, one byte short", t, 50000, 841, reply(10, 0, 0, 0));
    for (size_t k = 0; k < sizeof places / sizeof places[0]; k++) {
        uint16_t before = next[places[k]];
        next[places[k]] = 512;
        refused_case("512 at one place", t, 49160, 0, reply(5, 3, places[k], 0));
        refused_case("512 at one place, one byte short", t, 49159, 0, reply(10, 0, 0, 0));
        next[places[k]] = before;
    }
    for (size_t k = 0; k < 8192; k++)
        if (k % 3 == 1 || k / 16 % 5 == 2) next[k] = X;
    length = encode(4, 4, 512, next, record);
    write_case("a mixed table of 512 states", t, length, 0, reply(0, 0, 0, 512), record, length);
    write_case("a mixed table of 512 states", t, 60000, 777, reply(0, 0, 0, 512), record, length);
    refused_case("a mixed table of 512 states, one byte short", t, length - 1, 0, reply(10, 0, 0, 0));
    for (size_t k = 0; k < 8192; k++) next[k] = X;
    length = encode(4, 4, 512, next, record);
    write_case("512 states without a step", t, 8, 0, reply(0, 0, 0, 512), record, length);
    refused_case("512 states without a step, one byte short", t, 7, 0, reply(10, 0, 0, 0));
}

/* What was written reads back; what was read writes back. */
static void round_trip(uint32_t u, uint32_t v, uint32_t states, size_t start) {
    static struct bytes out, again;
    static struct numbers next;
    uint16_t table[8192];
    size_t count = (size_t)states * u * v;
    char name[100];
    snprintf(name, sizeof name, "%u states, U %u, V %u, start %zu", states, u, v, start);
    for (size_t k = 0; k < count; k++) table[k] = k * 5 % 7 < 4 ? (uint16_t)((k * 3 + k / 7) % states) : X;

    begin_case("write, then read", name);
    fill_bytes(&out, start + MORTARLEAF_CONTROLLER_BYTES + 9);
    encode(u, v, states, table, wanted_bytes(&out) + start);
    same_reply(mortarleaf_write_controller(u, v, states, table, count, lent_bytes(&out), out.size, start), reply(0, 0, 0, states));
    same_bytes("the buffer", &out);
    const uint8_t *record = lent_bytes(&out) + start;
    size_t size = 2u + record[0] + 256u * record[1];
    fill_numbers(&next, 8300);
    memset(wanted_numbers(&next), 0, 8192 * sizeof table[0]);
    memcpy(wanted_numbers(&next), table, count * sizeof table[0]);
    struct mortarleaf_controller got = mortarleaf_read_controller(record, size, lent_numbers(&next), 8300);
    same_reply((struct mortarleaf_reply){got.number, got.record, got.row, got.states, got.rounds}, reply(0, 0, 0, states));
    same("u", got.u, u);
    same("v", got.v, v);
    same_numbers("next table", &next);

    begin_case("read, then write", name);
    fill_bytes(&again, 12 + size + 3);
    memcpy(wanted_bytes(&again) + 12, record, size);
    same_reply(mortarleaf_write_controller(got.u, got.v, got.states, lent_numbers(&next), 8192, lent_bytes(&again), again.size, 12),
               reply(0, 0, 0, states));
    same_bytes("the record", &again);
}

void test_writing(void) {
    static const uint32_t states[] = {1, 2, 5, 64, 257, 512};
    test_written();
    test_two_bytes();
    test_counts();
    test_too_short();
    test_bad_places();
    test_largest();
    for (uint32_t u = 1; u <= 4; u++)
        for (uint32_t v = 1; v <= 4; v++)
            for (size_t k = 0; k < sizeof states / sizeof states[0]; k++) round_trip(u, v, states[k], k * 31 + u);
}
