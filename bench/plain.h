/* The work of mortarleaf_solve and mortarleaf_check once more, in plain C, to measure beside them: from the records' bytes to the reply and the lent
 * buffers. It was written from docs/document-01.md alone, with nothing proved. What is passed and what comes back is as in include/mortarleaf.h. */
#ifndef PLAIN_H
#define PLAIN_H

#include "mortarleaf.h"

struct mortarleaf_reply plain_solve(uint32_t mode, const uint8_t *context, size_t context_length, const uint8_t *specification,
                                    size_t specification_length, uint64_t *sets, size_t sets_length, uint16_t *next, size_t next_length);

struct mortarleaf_reply plain_check(const uint8_t *context, size_t context_length, const uint8_t *specification, size_t specification_length,
                                    const uint8_t *controller, size_t controller_length, uint64_t *sets, size_t sets_length);

#endif
