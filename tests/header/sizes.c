/* mortarleaf_controller_size: 8 bytes and 6 for each place that is not 65535; and what writing says to a buffer of this size, and to one less. */
#include "cases.h"

enum { X = MORTARLEAF_ABSENT };

/* The size was put down by hand: 8 for length, kind and counts, 6 for each row. */
static const struct {
    const char *name;
    uint32_t u, v, states;
    uint16_t next[13];
    size_t count, size;
    uint32_t number; /* what writing replies where the buffer has this size */
} sizes[] = {
    {"no step", 1, 1, 1, {X}, 1, 8, 0},
    {"one step", 1, 1, 1, {0}, 1, 14, 0},
    {"K1's answer", 2, 2, 1, {0, X, X, 0}, 4, 20, 0},
    {"3 states, U 2, V 2", 2, 2, 3, {X, 1, 2, X, 0, X, X, X, X, X, X, 2}, 12, 32, 0},
    {"every step of 3 states", 2, 1, 3, {0, 1, 2, 0, 1, 2}, 6, 44, 0},
    {"numbers behind the places do not count", 1, 1, 2, {1, X, 7, 0, 65534}, 5, 14, 0},
    {"a place that is refused as 5 counts", 2, 2, 1, {0, X, 1, 65534}, 4, 26, 5},
};

/* Nothing can be written, whatever is lent. */
static const struct {
    const char *name;
    uint32_t u, v, states;
    size_t count;
    uint32_t number;
} refused[] = {
    {"no u", 0, 1, 1, 8192, 4},
    {"5 codes u", 5, 1, 1, 8192, 4},
    {"no v", 1, 0, 1, 8192, 4},
    {"5 codes v", 1, 5, 1, 8192, 4},
    {"no states", 1, 1, 0, 8192, 4},
    {"513 states", 1, 1, 513, 8192, 4},
    {"counts whose product is small again", 1u << 31, 2, 1, 8192, 4},
    {"one place is missing", 4, 4, 512, 8191, 10},
    {"no places", 1, 1, 1, 0, 10},
};

static uint32_t written(uint32_t u, uint32_t v, uint32_t states, const uint16_t *next, size_t count, size_t size) {
    static uint8_t out[MORTARLEAF_CONTROLLER_BYTES];
    return mortarleaf_write_controller(u, v, states, next, count, out, size, 0).number;
}

void test_sizes(void) {
    static uint16_t next[MORTARLEAF_NEXT_NUMBERS]; /* zeros: every step leads to state 0 */
    for (size_t k = 0; k < sizeof sizes / sizeof sizes[0]; k++) {
        uint32_t u = sizes[k].u, v = sizes[k].v, states = sizes[k].states;
        begin_case("mortarleaf_controller_size", sizes[k].name);
        same("size", mortarleaf_controller_size(u, v, states, sizes[k].next, sizes[k].count), sizes[k].size);
        same("writing into it", written(u, v, states, sizes[k].next, sizes[k].count, sizes[k].size), sizes[k].number);
        same("writing into one byte less", written(u, v, states, sizes[k].next, sizes[k].count, sizes[k].size - 1), 10);
    }
    for (size_t k = 0; k < sizeof refused / sizeof refused[0]; k++) {
        uint32_t u = refused[k].u, v = refused[k].v, states = refused[k].states;
        begin_case("mortarleaf_controller_size", refused[k].name);
        same("size", mortarleaf_controller_size(u, v, states, next, refused[k].count), 0);
        same("writing", written(u, v, states, next, refused[k].count, MORTARLEAF_CONTROLLER_BYTES), refused[k].number);
    }
    begin_case("mortarleaf_controller_size", "the longest record");
    same("size", mortarleaf_controller_size(4, 4, 512, next, MORTARLEAF_NEXT_NUMBERS), MORTARLEAF_CONTROLLER_BYTES);
    same("writing", written(4, 4, 512, next, MORTARLEAF_NEXT_NUMBERS, MORTARLEAF_CONTROLLER_BYTES), 0);
}
