/* Mortarleaf for C: reading of the three table records, writing of the controller record, the fit check of a controller, and solving. The rules are
 * those of docs/document-01.md, called document 01 below. C99 or later, C++11 or later.
 *
 * There are two archives (x86-64 Linux). A program that uses entries of both links both, or the shared library libmortarleaf.so, which has them all:
 *
 *   libfit.a     for the panel: mortarleaf_read_context, mortarleaf_read_specification, mortarleaf_read_controller, mortarleaf_write_controller,
 *                mortarleaf_check
 *   libsolver.a  for the configurator: mortarleaf_solve */
#ifndef MORTARLEAF_H
#define MORTARLEAF_H

#include <stddef.h>
#include <stdint.h>

/* The version of this header and of what was installed with it. Where the first number is another one, a program is compiled anew. */
#define MORTARLEAF_VERSION_MAJOR 1
#define MORTARLEAF_VERSION_MINOR 0
#define MORTARLEAF_VERSION_PATCH 0
#define MORTARLEAF_VERSION "1.0.0"

/* No pointer that is handed over is NULL. A compiler that knows how to say so warns of a call that breaks this. */
#if defined(__GNUC__)
#define MORTARLEAF_NONNULL __attribute__((nonnull))
#else
#define MORTARLEAF_NONNULL
#endif

#ifdef __cplusplus
extern "C" {
#endif

/* Sizes. */
enum {
    MORTARLEAF_STATES = 512,               /* the most states of a controller, and of an answer */
    MORTARLEAF_NEXT_NUMBERS = 8192,        /* the numbers of a next table that solving and reading a controller fill: 512 states, U = V = 4 */
    MORTARLEAF_SET_NUMBERS = 512,          /* the numbers of 64 bits that solving and the fit check fill: one set of pairs for each state */
    MORTARLEAF_ABSENT = 65535,             /* in a next table: there is no such step */
    MORTARLEAF_CONTEXT_BYTES = 24585,      /* the longest context record: 2 of length, 7 of kind and counts, 6 for each of 4,096 rows */
    MORTARLEAF_SPECIFICATION_BYTES = 4103, /* the longest specification record: 2 of length, 5 of kind and counts, 4 for each of 1,024 rows */
    MORTARLEAF_CONTROLLER_BYTES = 49160    /* the longest controller record: 2 of length, 6 of kind and counts, 6 for each of 8,192 rows */
};

/* Modes of solving. */
enum {
    MORTARLEAF_PLAIN = 0,    /* all that never takes the skid outside the specification; it may leave the skid stuck */
    MORTARLEAF_UNBLOCKED = 1 /* all of that which never leaves the skid stuck either */
};

/* A reply.
 *
 *   number   0 is success; every other number is a refusal:
 *            1  fewer than 4 bytes, or the length is not the bytes that follow it
 *            2  the kind is not the one expected
 *            3  the counts are cut short, or the last row is broken
 *            4  a count or the number of rows is outside its limit
 *            5  a code or state is not below its count (in writing: a place is neither MORTARLEAF_ABSENT nor below the states)
 *            6  a row's key is equal to that of the row before
 *            7  a row's key is below that of the row before
 *            8  I or O of context and specification differ (record 2): from solving and the check; or U or V of context and controller differ
 *               (record 3): only from the check
 *            9  the states of the context times the states of the specification are over 64: from solving and the check
 *            10 a lent buffer is too short: from reading a controller, writing, solving and the check
 *            11 the plain answer has more than MORTARLEAF_STATES states: from solving, in both modes
 *            12 the unblocked answer is none: no controller at all is right for this skid; only from solving, in mode MORTARLEAF_UNBLOCKED
 *            13 the mode is unknown: only from solving
 *            14 the controller is incomplete: a state that its own rows reach lacks a row for some u; only from the check
 *            15 the controller leaves: it lets the skid make a step that the specification does not have; only from the check
 *            16 the controller blocks: it can bring the skid to where some i has no step; only from the check
 *            1 to 3, 6 and 7 come from reading, solving and the check; 4 and 5 from writing too.
 *            If several would fit, reading gives the first of 1, 2, 3, 4; then the first faulty row decides, and within it 5, 6, 7; then 10.
 *            Writing gives 4, then 10, then 5. For the check and for solving see there.
 *   record   for 1 to 8 the record refused: 1 context, 2 specification, 3 controller; else 0
 *   row      for 5 to 7 the row refused, from 0 (in writing, for 5: the first bad place of the next table); else 0
 *   states   on success the states of the table read, written or checked, or of the answer; else 0
 *   rounds   on 0 and 12 from solving in mode MORTARLEAF_UNBLOCKED, how many rounds deleted states; else 0 */
struct mortarleaf_reply {
    uint32_t number, record, row, states, rounds;
};

/* The same for a controller that was read, with its counts U and V; both are 0 on a refusal. */
struct mortarleaf_controller {
    uint32_t number, record, row, states, rounds, u, v;
};

/* What a reply number says, in the words of docs/FORMAT.md, for a crew. The text stays for as long as the program runs. */
static inline const char *mortarleaf_words(uint32_t number) {
    static const char *const words[] = {
        "done; the table fits",
        "fewer than 4 bytes, or the length is not the bytes that follow it",
        "the kind is not the one expected",
        "the counts are cut short, or the last row is broken",
        "a count is 0 or too large, or there are too many rows",
        "a code or a state in this row is not below its count",
        "the key of this row is that of the row before",
        "the key of this row is below that of the row before",
        "I or O of context and specification differ, or U or V of context and controller",
        "context states times specification states are over 64",
        "a lent buffer is too short",
        "the plain answer has more than 512 states",
        "there is no right controller at all",
        "the mode is unknown",
        "the controller is incomplete: a state that its rows reach has no row for some u",
        "the controller leaves: it lets a pump act against the specification",
        "the controller blocks: it can bring the skid to where an irrigation signal has no step",
    };
    return number < sizeof words / sizeof words[0] ? words[number] : "no reply has this number";
}

/* Lent memory. A buffer is a pointer and the count of what it points to: bytes, or numbers of 16 or of 64 bits. The pointer is aligned for these
 * and is not NULL, not even where the count is 0. A buffer that is written overlaps no other one of the same call. Every content and every
 * count is answered. Nothing is kept after the call.
 *
 * Threads. The entries have no memory of their own but the stack. So every entry may be called from several threads at once, as long as no
 * thread writes into a buffer, or has a call write into it, that a call of another thread is using. Buffers that are only read may be shared.
 *
 * Stack. A call takes less than this many bytes of it, on x86-64; nothing is allocated. Measured on the archives of version 1.0.0: reading 280,
 * writing 112, the check 33,896, solving 33,000; and up to 3,000 more where a program that binds functions late makes its first call. */
enum {
    MORTARLEAF_READ_STACK = 4096,   /* mortarleaf_read_context, mortarleaf_read_specification, mortarleaf_read_controller */
    MORTARLEAF_WRITE_STACK = 4096,  /* mortarleaf_write_controller */
    MORTARLEAF_CHECK_STACK = 40960, /* mortarleaf_check */
    MORTARLEAF_SOLVE_STACK = 40960  /* mortarleaf_solve, in both modes */
};

/* Read a context record, or a specification record, of exactly `size` bytes. Nothing is written. */
MORTARLEAF_NONNULL
struct mortarleaf_reply mortarleaf_read_context(const uint8_t *bytes, size_t size);
MORTARLEAF_NONNULL
struct mortarleaf_reply mortarleaf_read_specification(const uint8_t *bytes, size_t size);

/* Read a controller record of exactly `size` bytes into a next table of `count` numbers, at least MORTARLEAF_NEXT_NUMBERS.
 * On 0 the next state of the step (u, v) of a state stands at place state*U*V + u*V + v, MORTARLEAF_ABSENT where the record has no such row;
 * then zeros up to MORTARLEAF_NEXT_NUMBERS; numbers beyond these do not change. On a refusal nothing is written. A record that is refused gets
 * its own number whatever the count is; a legal record with too few numbers gets 10. */
MORTARLEAF_NONNULL
struct mortarleaf_controller mortarleaf_read_controller(const uint8_t *bytes, size_t size, uint16_t *next, size_t count);

/* Write the record of a controller with `u` and `v` codes (1 to 4 each), `states` states (1 to MORTARLEAF_STATES) and this next table, from
 * out[start] on. It has a row for each of the first states*u*v places that is not MORTARLEAF_ABSENT, so it takes 8 bytes and 6 for each of
 * these; MORTARLEAF_CONTROLLER_BYTES are always enough. What stands behind those places is not looked at. On 0 all other bytes of `out` stay.
 * 10: fewer than states*u*v numbers, or too few of the `size` bytes from `start` on; `start` may be any number. On a refusal nothing is written. */
MORTARLEAF_NONNULL
struct mortarleaf_reply mortarleaf_write_controller(uint32_t u, uint32_t v, uint32_t states, const uint16_t *next, size_t count, uint8_t *out,
                                                    size_t size, size_t start);

/* The bytes that this record takes, for a buffer to lend: with that many from `start` on, writing does not reply 10. As in writing, each of the first
 * states*u*v places that is not MORTARLEAF_ABSENT counts as a row, also one that is then refused as 5. The answer is 0 where no buffer would do: a
 * count is outside its limit (4), or the table has fewer than states*u*v numbers (10). Else it is at least 8. */
MORTARLEAF_NONNULL
static inline size_t mortarleaf_controller_size(uint32_t u, uint32_t v, uint32_t states, const uint16_t *next, size_t count) {
    size_t places, size = 8, k;
    if (u < 1 || u > 4 || v < 1 || v > 4 || states < 1 || states > MORTARLEAF_STATES) return 0;
    places = (size_t)states * u * v;
    if (count < places) return 0;
    for (k = 0; k < places; k++)
        if (next[k] != MORTARLEAF_ABSENT) size += 6;
    return size;
}

/* The fit check: is this controller right for this context and this specification? Load no controller table that has not been through the fit
 * check.
 *
 * The records have exactly `context_length`, `specification_length` and `controller_length` bytes. `sets_length` counts numbers of 64 bits; at
 * least MORTARLEAF_SET_NUMBERS are needed.
 *
 * A joint step is a row of the context whose u and v the controller has a row for. Both go on by these rows, and the specification by its row for
 * the i and o of the context's row. Context, specification and controller begin in state 0, and what joint steps reach while the
 * specification has a row for each of them is reached.
 *
 * If several of these replies would fit, the first is given:
 *
 *   1 to 7  the context record is refused as in reading it (record 1)
 *   1 to 7  the specification record is refused as in reading it (record 2)
 *   1 to 7  the controller record is refused as in reading it (record 3)
 *   8       I or O of context and specification differ (record 2)
 *   8       U or V of context and controller differ (record 3)
 *   9       the states of the context times the states of the specification are over 64
 *   10      `sets_length` is below MORTARLEAF_SET_NUMBERS
 *   14      incomplete: a state that the controller's own rows reach from state 0, whatever the context does, has no row for some u
 *   15      leaves: from something reached there is a joint step that the specification has no row for
 *   16      blocks: something reached has an i, below I, with no joint step
 *   0       it fits; `states` is the count in the controller record, states that are not reached included
 *
 * On 0, 15 and 16, sets[s] holds the pairs reached with controller state s: bit a*C + c is 1 exactly if context state a, specification
 * state c and controller state s are reached together, where C is the states of the specification. On 15 too these are all that are reached,
 * not only those found before a step that leaves. The numbers of states not reached are 0, and so are those behind the last state, up to
 * MORTARLEAF_SET_NUMBERS. On 14 all MORTARLEAF_SET_NUMBERS numbers are 0. On every other reply nothing is written. Numbers beyond
 * MORTARLEAF_SET_NUMBERS never change. */
MORTARLEAF_NONNULL
struct mortarleaf_reply mortarleaf_check(const uint8_t *context, size_t context_length, const uint8_t *specification, size_t specification_length,
                                         const uint8_t *controller, size_t controller_length, uint64_t *sets, size_t sets_length);

/* Solving: what may a controller do at all, with this context and this specification?
 *
 * The records have exactly `context_length` and `specification_length` bytes. `sets_length` counts numbers of 64 bits, at least
 * MORTARLEAF_SET_NUMBERS; `next_length` counts numbers of 16 bits, at least MORTARLEAF_NEXT_NUMBERS.
 *
 * A state of an answer stands for a set of pairs (context state, specification state): those that the skid can be in. The start is the single
 * pair (0, 0). The step (u, v) leads to all pairs that are reached from a pair by a row of the context with this u and v, the specification going on
 * by its row for that row's i and o. If the specification lacks one of these rows, the step is absent. If no pair has such a row of the
 * context, the step leads to the empty set, whose steps all lead to itself.
 *
 * A step to the empty set means that the context has no row with this u AND this v there. Only where all V steps of a u lead to the empty set is
 * that u never sent, and any reply to it will do. If one of them is absent or leads elsewhere, u may be sent, and a table that replies only with a v
 * that has no row can block.
 *
 *   MORTARLEAF_PLAIN      all states that are reached from the start. This is no table to load: it may leave the skid stuck.
 *   MORTARLEAF_UNBLOCKED  of these, a round deletes at once every state for which some u has no v whose step leads to a state not deleted, or of
 *                         which some pair has an i, below I, with no row of the context whose u and v do. Rounds go on until one deletes
 *                         nothing; that last one is not counted. The answer holds what is still reached from the start, with all steps between
 *                         these states. It fits. If the start is deleted, the answer is none: 12.
 *
 * A table that fits lies inside the unblocked answer, but not every part of that fits: where two replies v are there, each by itself may block.
 * So a table that is made from it by hand goes through the check.
 *
 * If several of these replies would fit, the first is given:
 *
 *   13      `mode` is neither MORTARLEAF_PLAIN nor MORTARLEAF_UNBLOCKED
 *   1 to 7  the context record is refused as in reading it (record 1)
 *   1 to 7  the specification record is refused as in reading it (record 2)
 *   8       I or O of context and specification differ (record 2)
 *   9       the states of the context times the states of the specification are over 64
 *   10      `sets_length` is below MORTARLEAF_SET_NUMBERS, or `next_length` below MORTARLEAF_NEXT_NUMBERS
 *   11      the plain answer has more than MORTARLEAF_STATES states, whichever mode is asked for
 *   12      the unblocked answer is none; `rounds` is given
 *   0       there is an answer; `states` is the number of its states, and `rounds` is 0 in mode MORTARLEAF_PLAIN
 *
 * States are numbered from 0, the start, in the order in which they are first found: states upward, in each u upward, and within u, v upward.
 * The unblocked answer is numbered afresh.
 *
 * On 0, sets[s] holds the pairs of state s: bit a*C + c is 1 exactly if context state a and specification state c are a pair of the set, where C is
 * the states of the specification; then zeros up to MORTARLEAF_SET_NUMBERS. next[s*U*V + u*V + v] is the next state of the step (u, v) of state s,
 * MORTARLEAF_ABSENT where there is none, U and V being those of the context; then zeros up to MORTARLEAF_NEXT_NUMBERS. So
 * mortarleaf_write_controller takes U, V, `states` and `next` as they are. On 11 and 12 all MORTARLEAF_SET_NUMBERS and all
 * MORTARLEAF_NEXT_NUMBERS numbers are 0. On every other reply nothing is written. Numbers beyond these never change. */
MORTARLEAF_NONNULL
struct mortarleaf_reply mortarleaf_solve(uint32_t mode, const uint8_t *context, size_t context_length, const uint8_t *specification,
                                         size_t specification_length, uint64_t *sets, size_t sets_length, uint16_t *next, size_t next_length);

#ifdef __cplusplus
}
#endif

#endif
