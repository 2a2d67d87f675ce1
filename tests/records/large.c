/* Records at their limits and over them, built row by row. All counts are at their limits, and keys rise with the row's number. */
#include "cases.h"

#include <stdio.h>
#include <string.h>

/* What document 01 says of a kind: the most rows, the bytes before the rows, of a row and of its key, the most states. */
struct shape {
    enum kind kind;
    const char *head;
    size_t limit, before, row, key;
    uint32_t states;
};

static const struct shape shapes[] = {
    {CONTEXT, "00 00 43 58 08 08 04 04 40", 4096, 9, 6, 5, 64},
    {SPECIFICATION, "00 00 53 50 08 08 40", 1024, 7, 4, 3, 64},
    {CONTROLLER, "00 00 43 54 04 04 00 02", 8192, 8, 6, 4, 512},
};

/* The record that is built. */
static uint8_t record[MOST_BYTES];
static size_t size;

static void add(unsigned byte) { record[size++] = (uint8_t)byte; }

/* "length first, two bytes, counting all bytes after itself" */
static void set_length(void) {
    record[0] = (size - 2) & 0xFF;
    record[1] = (size - 2) >> 8 & 0xFF;
}

/* state, i, v, u (1 or 3), o, next: 64 states with 64 rows each. One row more goes to o = 7 after the last, whose o is 3. */
static void add_context_row(size_t k) {
    size_t state = k / 64;
    if (k >= 4096) {
        add(63), add(7), add(3), add(3), add(7), add(0);
        return;
    }
    add(state), add(k / 8 % 8), add(k / 2 % 4), add(k % 2 ? 3 : 1), add(5 * k % 8), add(63 - state);
}

/* state, i, o (2 or 5), next: 64 states with 16 rows each. One row more goes to o = 6. */
static void add_specification_row(size_t k) {
    size_t state = k / 16;
    if (k >= 1024) {
        add(63), add(7), add(6), add(0);
        return;
    }
    add(state), add(k / 2 % 8), add(k % 2 ? 5 : 2), add(63 - state);
}

/* state, u, v, next: every step of 512 states. A row more cannot have a higher key. */
static void add_controller_row(size_t k) {
    size_t place = k < 8192 ? k : 8191, state = place / 16, next = (37 * place + 11) % 512;
    add(state & 0xFF), add(state >> 8), add(place / 4 % 4), add(place % 4), add(next & 0xFF), add(next >> 8);
}

static void build(const struct shape *s, size_t rows) {
    size = from_text(s->head, record);
    for (size_t k = 0; k < rows; k++)
        if (s->kind == CONTEXT)
            add_context_row(k);
        else if (s->kind == SPECIFICATION)
            add_specification_row(k);
        else
            add_controller_row(k);
    set_length();
}

static uint8_t *row(const struct shape *s, size_t k) { return record + s->before + k * s->row; }

/* Damage of row k: next becomes the states; its key becomes that of the row before, or of the one before that. */
static void bad_next(const struct shape *s, size_t k) {
    if (s->kind == CONTROLLER)
        row(s, k)[4] = 0, row(s, k)[5] = 2;
    else
        row(s, k)[s->key] = 64;
}
static void equal_key(const struct shape *s, size_t k) { memcpy(row(s, k), row(s, k - 1), s->key); }
static void lower_key(const struct shape *s, size_t k) { memcpy(row(s, k), row(s, k - 2), s->key); }

static void expect(const struct shape *s, const char *name, uint32_t number, size_t at) {
    uint32_t of = number == 0 ? 0 : s->kind;
    read_case(name, s->kind, record, size, reply(number, of, (uint32_t)at, number == 0 ? s->states : 0));
}

static void at_the_limit(const struct shape *s) {
    static const size_t counts[] = {1, 2, 255, 256, 257, 1023};
    for (size_t j = 0; j < sizeof counts / sizeof counts[0]; j++) {
        char name[40];
        snprintf(name, sizeof name, "%zu rows", counts[j]);
        build(s, counts[j]);
        expect(s, name, 0, 0);
    }
    build(s, s->limit);
    expect(s, "as many rows as the limit", 0, 0);
    size--;
    expect(s, "the last of its bytes lost", 1, 0);
    size += 2;
    expect(s, "a byte behind the end of the last row", 1, 0);
    set_length();
    expect(s, "1 byte of a row behind the last row", 3, 0);
}

static void over_the_limit(const struct shape *s) {
    build(s, s->limit + 1);
    expect(s, "one row over the limit", 4, 0);
    bad_next(s, 0);
    expect(s, "4 before 5 in the first row", 4, 0);
    memset(row(s, 0), 0, s->row * (s->limit + 1));
    expect(s, "4 before 6 in the second row", 4, 0);
    build(s, s->limit + 1);
    lower_key(s, 2);
    expect(s, "4 before 7 in the third row", 4, 0);
    add(0);
    set_length();
    expect(s, "3 before too many rows", 3, 0);
    build(s, (65535 + 2 - s->before) / s->row);
    expect(s, "the most rows that a length can count", 4, 0);
    while (size < 65535 + 2) add(0);
    set_length();
    expect(s, "the longest length, a broken last row", 3, 0);
    add(0);
    set_length();
    expect(s, "65,536 bytes, and a length that has gone round to 0", 1, 0);
    build(s, 0);
    while (size < s->before + 65536) add(0);
    set_length();
    expect(s, "65,536 bytes behind a record of no rows", 1, 0);
}

static void damaged(const struct shape *s) {
    const size_t rows[] = {2, 255, 256, 257, 700, s->limit - 1};
    char name[80];
    for (size_t j = 0; j < sizeof rows / sizeof rows[0]; j++) {
        size_t k = rows[j];
        snprintf(name, sizeof name, "as many rows as the limit, bad next in row %zu", k);
        build(s, s->limit);
        bad_next(s, k);
        expect(s, name, 5, k);
        snprintf(name, sizeof name, "as many rows as the limit, equal key in row %zu", k);
        build(s, s->limit);
        equal_key(s, k);
        expect(s, name, 6, k);
        bad_next(s, k);
        expect(s, "the same, and a bad next in this row", 5, k);
        snprintf(name, sizeof name, "as many rows as the limit, lower key in row %zu", k);
        build(s, s->limit);
        lower_key(s, k);
        expect(s, name, 7, k);
        bad_next(s, k);
        expect(s, "the same, and a bad next in this row", 5, k);
    }
    build(s, s->limit);
    bad_next(s, 600);
    expect(s, "bad next in row 600", 5, 600);
    equal_key(s, 500);
    expect(s, "and an equal key in row 500", 6, 500);
    lower_key(s, 400);
    expect(s, "and a lower key in row 400", 7, 400);
    bad_next(s, 300);
    expect(s, "and a bad next in row 300", 5, 300);
    record[s->before - 1] = 0xFF;
    expect(s, "and states out of their limit", 4, 0);
    add(0);
    set_length();
    expect(s, "and a broken last row", 3, 0);
    record[3]++;
    expect(s, "and another kind", 2, 0);
    record[0]++;
    expect(s, "and another length", 1, 0);
}

void test_large(void) {
    for (size_t k = 0; k < sizeof shapes / sizeof shapes[0]; k++) {
        at_the_limit(&shapes[k]);
        over_the_limit(&shapes[k]);
        damaged(&shapes[k]);
    }
}
