/* K1 and K12 of document 01 from C: solve, write the answer, check it and two other tables. answers.txt is what this prints. */
#include <mortarleaf.h>

#include <stdio.h>

static const uint8_t context[] = {0x1F, 0, 0x43, 0x58, 2, 2, 2, 2, 1, 0, 0, 0, 0, 0, 0, 0, 0, 1, 0, 1, 0, 0, 1, 0, 1, 0, 0, 0, 1, 1, 1, 1, 0};
static const uint8_t specification[] = {0x0D, 0, 0x53, 0x50, 2, 2, 1, 0, 0, 0, 0, 0, 1, 1, 0};
static const uint8_t one_row[] = {0x0C, 0, 0x43, 0x54, 2, 2, 1, 0, 0, 0, 0, 0, 0, 0};
static const uint8_t always_1[] = {0x12, 0, 0x43, 0x54, 2, 2, 1, 0, 0, 0, 0, 1, 0, 0, 0, 0, 1, 1, 0, 0};

static uint64_t sets[MORTARLEAF_SET_NUMBERS];
static uint16_t next[MORTARLEAF_NEXT_NUMBERS];

static void check(const char *what, const uint8_t *controller, size_t length) {
    struct mortarleaf_reply reply = mortarleaf_check(context, sizeof context, specification, sizeof specification, controller, length, sets,
                                                     MORTARLEAF_SET_NUMBERS);
    printf("check of %s: %u, states %u\n", what, (unsigned)reply.number, (unsigned)reply.states);
}

int main(void) {
    static uint8_t record[MORTARLEAF_CONTROLLER_BYTES];
    size_t size;
    struct mortarleaf_reply reply = mortarleaf_solve(MORTARLEAF_UNBLOCKED, context, sizeof context, specification, sizeof specification, sets,
                                                     MORTARLEAF_SET_NUMBERS, next, MORTARLEAF_NEXT_NUMBERS);
    printf("solve: %u, states %u, rounds %u\n", (unsigned)reply.number, (unsigned)reply.states, (unsigned)reply.rounds);
    for (unsigned place = 0; place < 4 * reply.states; place++)
        if (next[place] != MORTARLEAF_ABSENT) printf("%u %u %u %u\n", place / 4, place / 2 % 2, place % 2, (unsigned)next[place]);
    printf("set of state 0: %u\n", (unsigned)sets[0]);
    size = mortarleaf_controller_size(2, 2, reply.states, next, MORTARLEAF_NEXT_NUMBERS);
    if (mortarleaf_write_controller(2, 2, reply.states, next, MORTARLEAF_NEXT_NUMBERS, record, size, 0).number != 0) return 1;
    printf("record:");
    for (size_t k = 0; k < size; k++) printf(" %02X", record[k]);
    printf("\n");
    check("the answer", record, size);
    check("row 0 0 0 0 alone", one_row, sizeof one_row);
    check("always 1", always_1, sizeof always_1);
    return 0;
}
