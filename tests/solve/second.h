/* What the files of the second solver share: the rows of a skid, sets as lists of pairs, and answers. No bit occurs here. */
#ifndef SECOND_H
#define SECOND_H

#include "reference.h"

/* The rows of a context, as document 01 orders their fields. Keys rise, so the rows of a state stand together, from `first` on. */
struct context_row {
    uint8_t state, i, v, u, o, next;
};
struct context {
    unsigned i, o, u, v, states;
    size_t rows, first[65];
    struct context_row row[4096];
};

/* The next states of a specification, ABSENT where it has no row. */
struct specification {
    unsigned i, o, states;
    uint16_t next[64][8][8];
};
extern struct context context;
extern struct specification specification;
void take_skid(const struct skid *skid);

/* "Its states are sets of pairs (context state a, specification state c)." A list holds its pairs in the order in which they were found, no pair
 * twice. The sum of all squares of 64a + c tells most different lists apart at once. */
struct pair {
    unsigned a, c;
};
struct list {
    size_t count, squares;
    struct pair pairs[64];
};

/* The next states stand at place state·U·V + u·V + v. There is room for one state more than there may be. */
struct answer {
    size_t states;
    struct list set[SETS + 1];
    uint16_t next[NEXTS];
};
uint16_t next_of(const struct answer *answer, size_t state, unsigned u, unsigned v);

/* The plain answer of the skid that was taken. Has it at most 512 states? */
int plain_answer(struct answer *plain);

/* The unblocked answer, from the plain one. No states: it is none. How many rounds deleted something. */
uint32_t unblocked_answer(const struct answer *plain, struct answer *unblocked);

#endif
