/* Solving as document 01 has it, written a second time and slowly: what the entry must reply and write. */
#ifndef REFERENCE_H
#define REFERENCE_H

#include "skids.h"

/* What is solved. */
struct skid {
    struct record context, specification;
};
void skid_from_rows(struct skid *skid, const char *context, const char *specification);

/* "Modes: 0 plain (the default), 1 unblocked." */
enum { PLAIN = 0, UNBLOCKED = 1, MODES = 2 };

/* "Solving lends at least 512 numbers of 64 bits and 8,192 of 16 bits." What is written there. */
enum { SETS = 512, NEXTS = 8192, ABSENT = 65535 };
struct table {
    uint64_t sets[SETS];
    uint16_t next[NEXTS];
};

/* How many numbers are lent. */
struct lent {
    size_t sets, next;
};

/* The reply to this skid in this mode with so many numbers lent. Where it is 0, 11 or 12, all that must be written goes to `table`; on every other
 * reply `table` stays. */
struct mortarleaf_reply reference(uint32_t mode, const struct skid *skid, struct lent lent, struct table *table);

/* The unblocked answer of so many states after so many rounds; and "none", 12, after so many. */
struct mortarleaf_reply kept(uint32_t states, uint32_t rounds);
struct mortarleaf_reply none(uint32_t rounds);

/* Does an answer with this reply write its numbers? */
int writes(uint32_t number);

#endif
