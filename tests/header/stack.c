/* The stack that a call takes. Each call runs on a stack of its own that was painted before; what is no longer painted was taken. It is measured for the
 * skids of document 01 and for the largest, in every entry, with the answer of each skid as its controller. */
#define _XOPEN_SOURCE 700
#include "cases.h"
#include "largest.h"

#include <stdio.h>
#include <string.h>
#include <ucontext.h>

enum { PAINT = 0xA5, STACK_BYTES = 256 * 1024 };
static uint8_t stack[STACK_BYTES];
static ucontext_t caller, callee;

/* What the calls take and leave. */
static struct record context, specification;
static uint64_t sets[MORTARLEAF_SET_NUMBERS];
static uint16_t next[MORTARLEAF_NEXT_NUMBERS];
static uint8_t controller[MORTARLEAF_CONTROLLER_BYTES];
static size_t length;
static uint32_t u, v, mode;
static struct mortarleaf_reply last;

static void nothing(void) {}
static void read_context(void) { last = mortarleaf_read_context(context.bytes, context.size); }
static void read_specification(void) { last = mortarleaf_read_specification(specification.bytes, specification.size); }
static void read_controller(void) { last.number = mortarleaf_read_controller(controller, length, next, MORTARLEAF_NEXT_NUMBERS).number; }
static void write_controller(void) {
    last = mortarleaf_write_controller(u, v, last.states, next, MORTARLEAF_NEXT_NUMBERS, controller, sizeof controller, 0);
}
static void check(void) {
    last = mortarleaf_check(context.bytes, context.size, specification.bytes, specification.size, controller, length, sets, MORTARLEAF_SET_NUMBERS);
}
static void solve(void) {
    last = mortarleaf_solve(mode, context.bytes, context.size, specification.bytes, specification.size, sets, MORTARLEAF_SET_NUMBERS, next,
                            MORTARLEAF_NEXT_NUMBERS);
}

/* The bytes that are no longer painted, from the lowest one on: a stack grows downward. */
static size_t painted_over(void (*call)(void)) {
    size_t lowest;
    memset(stack, PAINT, sizeof stack);
    need(getcontext(&callee) == 0, "getcontext");
    callee.uc_stack.ss_sp = stack;
    callee.uc_stack.ss_size = sizeof stack;
    callee.uc_link = &caller;
    makecontext(&callee, call, 0);
    need(swapcontext(&caller, &callee) == 0, "swapcontext");
    lowest = 0;
    while (lowest < sizeof stack && stack[lowest] == PAINT) lowest++;
    need(lowest > 0, "the stack is too short");
    return sizeof stack - lowest;
}

/* The most that each kind of call has taken so far. */
static size_t reading, writing, checking, solving;

static void take(size_t *most, void (*call)(void)) {
    size_t taken = painted_over(call) - painted_over(nothing);
    if (taken > *most) *most = taken;
}

/* Every entry, on this skid. Where there is an answer it is written, read and checked. */
static void measure(void) {
    take(&reading, read_context);
    take(&reading, read_specification);
    u = context.bytes[6];
    v = context.bytes[7];
    for (mode = 0; mode <= 2; mode++) { /* 2 is refused as 13 */
        take(&solving, solve);
        if (last.number != 0) continue;
        take(&writing, write_controller);
        length = mortarleaf_controller_size(u, v, last.states, next, MORTARLEAF_NEXT_NUMBERS);
        take(&reading, read_controller);
        take(&checking, check);
    }
}

/* Less than what the header says, and no small part of it. */
static void within(const char *what, size_t taken, size_t said, size_t least) {
    printf("%s takes %zu bytes of stack\n", what, taken);
    begin_case("stack", what);
    same("less than the header says", taken < said, 1);
    same("measured at all", taken >= least, 1);
}

void test_stack(void) {
    for (size_t k = 0; k < known_skids_count; k++) {
        from_rows(&context, CONTEXT, known_skids[k].context);
        from_rows(&specification, SPECIFICATION, known_skids[k].specification);
        measure();
    }
    for (unsigned states = 10; states <= 11; states++) {
        k11(&context, &specification, states);
        measure();
    }
    largest_context(&context, 64, 2, 1, 0);
    largest_specification(&specification, 1, 1, 0);
    measure();
    within("reading", reading, MORTARLEAF_READ_STACK, 100);
    within("writing", writing, MORTARLEAF_WRITE_STACK, 50);
    within("the check", checking, MORTARLEAF_CHECK_STACK, MORTARLEAF_CHECK_STACK / 2);
    within("solving", solving, MORTARLEAF_SOLVE_STACK, MORTARLEAF_SOLVE_STACK / 2);
}
