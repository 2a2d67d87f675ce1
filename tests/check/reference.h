/* The fit check of document 01, written a second time and slowly: what the entry must reply and write. */
#ifndef REFERENCE_H
#define REFERENCE_H

#include "inputs.h"

/* "The check lends at least 512 numbers of 64 bits". */
enum { SETS = 512 };

/* The reply to this input with so many numbers lent. Where it is 0, 14, 15 or 16 the 512 numbers that must be written go to `sets`; on every
 * other reply `sets` stays. What is wrong with a single record is asked of the entries that read; these are tested in tests/records. */
struct mortarleaf_reply reference(const struct input *in, size_t lent, uint64_t *sets);

/* Does a check with this reply write its 512 numbers? */
int writes(uint32_t number);

#endif
