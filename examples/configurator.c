/* A configurator: it builds the two tables of a dosing skid in memory, asks Mortarleaf for everything that a controller may do there, prints this as
 * a table in words, and says in words what is wrong where there is no answer.
 *
 *   rt staticlib solver && rt staticlib fit
 *   gcc -std=c11 -Iinclude examples/configurator.c target/staticlib/libsolver.a target/staticlib/libfit.a -o configurator
 *
 * The skid. The irrigation signal is WATER or FEED. The pump HOLDS or DOSES. The interlock tells the controller IDLE on water; on feed it tells OPEN,
 * or RETRY if the valve sticks. The controller replies HOLD or RUN. To hold on RETRY lets the valve try again: it is open at the next feed. To run
 * against a stuck valve jams it: then the interlock takes water and never again a feed. The specification wants a dose on each feed, and none on
 * water; one feed may be held, but not the next one too. */
#include "mortarleaf.h"

#include <stdio.h>

/* The codes of the signals, as on the card, and the states of the two tables. */
enum { WATER, FEED, INPUTS };
enum { HOLDS, DOSES, ACTIONS };
enum { IDLE, OPEN, RETRY, SIGNALS };
enum { HOLD, RUN, REPLIES };
enum { READY, RETRYING, JAMMED, CONTEXT_STATES };
enum { FED, HELD, SPECIFICATION_STATES };

static const char *const signals[] = {"idle", "open", "retry"};
static const char *const replies[] = {"hold", "run"};

/* A record: length, kind, counts, rows. 1,000 bytes are enough here; the longest there can be have MORTARLEAF_CONTEXT_BYTES and
 * MORTARLEAF_SPECIFICATION_BYTES. */
struct record {
    size_t size;
    uint8_t bytes[1000];
};

/* The length counts all bytes after itself, the low byte first. */
static void add_bytes(struct record *r, const uint8_t *bytes, size_t count) {
    for (size_t k = 0; k < count && r->size < sizeof r->bytes; k++) r->bytes[r->size++] = bytes[k];
    r->bytes[0] = (uint8_t)((r->size - 2) & 0xFF);
    r->bytes[1] = (uint8_t)((r->size - 2) >> 8);
}

/* I, O, U, V and states; then rows, whose keys (all fields but the next state) rise. */
static void begin_context(struct record *r) {
    const uint8_t head[] = {0x43, 0x58, INPUTS, ACTIONS, SIGNALS, REPLIES, CONTEXT_STATES};
    r->size = 2;
    add_bytes(r, head, sizeof head);
}

static void context_row(struct record *r, int state, int input, int reply, int signal, int action, int next) {
    const uint8_t row[] = {(uint8_t)state, (uint8_t)input, (uint8_t)reply, (uint8_t)signal, (uint8_t)action, (uint8_t)next};
    add_bytes(r, row, sizeof row);
}

/* I, O and states; then rows. */
static void begin_specification(struct record *r) {
    const uint8_t head[] = {0x53, 0x50, INPUTS, ACTIONS, SPECIFICATION_STATES};
    r->size = 2;
    add_bytes(r, head, sizeof head);
}

static void specification_row(struct record *r, int state, int input, int action, int next) {
    const uint8_t row[] = {(uint8_t)state, (uint8_t)input, (uint8_t)action, (uint8_t)next};
    add_bytes(r, row, sizeof row);
}

/* The three manifolds that are tried differ in what a valve does that is trying again. */
enum manifold {
    GOOD,     /* at the next feed it is open */
    MISTYPED, /* the same, but in one row the card has a state that there is not */
    STUCK_ON  /* it sticks again, each time */
};

static void build_context(struct record *r, enum manifold manifold) {
    begin_context(r);
    context_row(r, READY, WATER, HOLD, IDLE, HOLDS, READY);
    context_row(r, READY, WATER, RUN, IDLE, DOSES, READY);
    context_row(r, READY, FEED, HOLD, OPEN, HOLDS, READY);
    context_row(r, READY, FEED, HOLD, RETRY, HOLDS, manifold == MISTYPED ? 9 : RETRYING);
    context_row(r, READY, FEED, RUN, OPEN, DOSES, READY);
    context_row(r, READY, FEED, RUN, RETRY, HOLDS, JAMMED); /* the interlock stops the pump */
    context_row(r, RETRYING, WATER, HOLD, IDLE, HOLDS, RETRYING);
    context_row(r, RETRYING, WATER, RUN, IDLE, DOSES, RETRYING);
    if (manifold == STUCK_ON) {
        context_row(r, RETRYING, FEED, HOLD, RETRY, HOLDS, RETRYING);
        context_row(r, RETRYING, FEED, RUN, RETRY, HOLDS, JAMMED);
    } else {
        context_row(r, RETRYING, FEED, HOLD, OPEN, HOLDS, READY);
        context_row(r, RETRYING, FEED, RUN, OPEN, DOSES, READY);
    }
    context_row(r, JAMMED, WATER, HOLD, IDLE, HOLDS, JAMMED);
    context_row(r, JAMMED, WATER, RUN, IDLE, HOLDS, JAMMED);
}

static void build_specification(struct record *r) {
    begin_specification(r);
    specification_row(r, FED, WATER, HOLDS, FED);
    specification_row(r, FED, FEED, HOLDS, HELD);
    specification_row(r, FED, FEED, DOSES, FED);
    specification_row(r, HELD, WATER, HOLDS, HELD);
    specification_row(r, HELD, FEED, DOSES, FED);
}

/* What a reply says, in words; the numbers are those of document 01. */
static const char *words_for(uint32_t number) {
    static const char *const words[] = {
        "done",
        "the record's length is wrong, or it has fewer than 4 bytes",
        "this is a record of another kind",
        "the record's counts are cut short, or its last row is broken",
        "a count, or the number of rows, is outside its limit",
        "the row has a code or a state that is not below its count",
        "the row is there twice",
        "the row stands before a row that it should come after",
        "the record has other counts of signals than the context",
        "context and specification have too many states together",
        "the program lent too little memory",
        "the skid is too large: its plain answer has more than 512 states",
        "no table at all is right for this skid and this specification",
        "there is no such mode",
        "the table lacks a reply to some signal",
        "the table lets a pump act against the specification",
        "the table can leave the skid stuck",
    };
    return number < sizeof words / sizeof words[0] ? words[number] : "an unknown reply";
}

/* Number, record and row are what the crew finds the place by; rounds tell how far the search went before it ended with "none". */
static void print_refusal(struct mortarleaf_reply reply) {
    static const char *const records[] = {"", "context", "specification", "controller"};
    printf("refused, number %u", (unsigned)reply.number);
    if (reply.record != 0) printf(", in the %s record", records[reply.record]);
    if (reply.number >= 5 && reply.number <= 7) printf(", row %u", (unsigned)reply.row);
    if (reply.number == 12) printf(", after %u rounds", (unsigned)reply.rounds);
    printf(": %s\n", words_for(reply.number));
}

/* One line for each step. A state whose set is empty stands for what the interlock never does: it does not matter what the table says there. */
static void print_table(struct mortarleaf_reply reply, const uint64_t *sets, const uint16_t *next) {
    printf("%u states, %u round(s) of deletion\n", (unsigned)reply.states, (unsigned)reply.rounds);
    for (unsigned state = 0; state < reply.states; state++)
        for (unsigned signal = 0; signal < SIGNALS; signal++)
            for (unsigned v = 0; v < REPLIES; v++) {
                uint16_t to = next[state * SIGNALS * REPLIES + signal * REPLIES + v];
                if (to == MORTARLEAF_ABSENT) continue;
                printf("state %u, signal %s: reply %s, next state %u", state, signals[signal], replies[v], (unsigned)to);
                printf(sets[to] == 0 ? " (never sent)\n" : "\n");
            }
}

/* The record to load. The answer as it stands always fits; a table that is made from it by hand, say with one reply for each signal, need not, and
 * goes through this same check before it is loaded. */
static void write_and_check(struct mortarleaf_reply answer, const uint16_t *next, const struct record *context, const struct record *specification) {
    static uint8_t controller[MORTARLEAF_CONTROLLER_BYTES];
    static uint64_t reached[MORTARLEAF_SET_NUMBERS];
    struct mortarleaf_reply written =
        mortarleaf_write_controller(SIGNALS, REPLIES, answer.states, next, MORTARLEAF_NEXT_NUMBERS, controller, sizeof controller, 0);
    if (written.number != 0) {
        print_refusal(written);
        return;
    }
    size_t size = 2 + controller[0] + 256u * controller[1];
    struct mortarleaf_reply checked =
        mortarleaf_check(context->bytes, context->size, specification->bytes, specification->size, controller, size, reached, MORTARLEAF_SET_NUMBERS);
    if (checked.number != 0)
        print_refusal(checked);
    else
        printf("controller record of %zu bytes: the table fits\n", size);
}

static void configure(const char *name, enum manifold manifold) {
    static struct record context, specification;
    static uint64_t sets[MORTARLEAF_SET_NUMBERS];
    static uint16_t next[MORTARLEAF_NEXT_NUMBERS];
    printf("%s:\n", name);
    build_context(&context, manifold);
    build_specification(&specification);
    struct mortarleaf_reply reply = mortarleaf_solve(MORTARLEAF_UNBLOCKED, context.bytes, context.size, specification.bytes, specification.size, sets,
                                                     MORTARLEAF_SET_NUMBERS, next, MORTARLEAF_NEXT_NUMBERS);
    if (reply.number != 0) {
        print_refusal(reply);
        return;
    }
    print_table(reply, sets, next);
    write_and_check(reply, next, &context, &specification);
}

int main(void) {
    configure("A valve that opens after one retry", GOOD);
    configure("The same, mistyped", MISTYPED);
    configure("A valve that sticks again and again", STUCK_ON);
    return 0;
}
