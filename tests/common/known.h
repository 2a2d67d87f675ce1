/* The skids of document 01. K1 to K10 are texts:
 *
 *   context: I O U V states | state i v u o next     specification: I O states | state i o next     controller: U V states | state u v next
 *
 * "Unnamed counts are 1, unnamed codes 0. "Free" specification: one state, every i and o; it holds where none is named." */
#ifndef KNOWN_H
#define KNOWN_H

#include "skids.h"

#define FREE_1 "1 1 1 | 0 0 0 0" /* the free specification for I = 1, O = 1 */
#define FREE_2 "2 1 1 | 0 0 0 0 | 0 1 0 0"

#define K1_CONTEXT "2 2 2 2 1 | 0 0 0 0 0 0 | 0 0 1 0 1 0 | 0 1 0 1 0 0 | 0 1 1 1 1 0"
#define K1_SPECIFICATION "2 2 1 | 0 0 0 0 | 0 1 1 0"
#define K1_ANSWER "2 2 1 | 0 0 0 0 | 0 1 1 0" /* a controller */

/* The bytes that document 01 has for K1. */
#define K1_CONTEXT_BYTES "1F 00 43 58 02 02 02 02 01 | 00 00 00 00 00 00 | 00 00 01 00 01 00 | 00 01 00 01 00 00 | 00 01 01 01 01 00"
#define K1_SPECIFICATION_BYTES "0D 00 53 50 02 02 01 | 00 00 00 00 | 00 01 01 00"
#define K1_ANSWER_BYTES "12 00 43 54 02 02 01 00 | 00 00 00 00 00 00 | 00 00 01 01 00 00"

#define K2_CONTEXT "2 1 1 2 2 | 0 0 0 0 0 0 | 0 0 1 0 0 1 | 0 1 0 0 0 0 | 0 1 1 0 0 1 | 1 0 0 0 0 1 | 1 0 1 0 0 1"

#define K3_CONTEXT "1 2 1 1 1 | 0 0 0 0 1 0"
#define K3_SPECIFICATION "1 2 1 | 0 0 0 0"

#define K4_CONTEXT "1 1 2 1 1 | 0 0 0 0 0 0"

#define K5_CONTEXT                                                      \
    "2 1 1 2 3 | 0 0 0 0 0 0 | 0 0 1 0 0 1 | 0 1 0 0 0 0 | 0 1 1 0 0 1" \
    " | 1 0 0 0 0 2 | 1 0 1 0 0 2 | 1 1 0 0 0 2 | 1 1 1 0 0 2 | 2 0 0 0 0 2 | 2 0 1 0 0 2"

#define K6_CONTEXT "2 1 1 2 1 | 0 0 0 0 0 0 | 0 1 1 0 0 0"

#define K7_CONTEXT "2 2 1 1 1 | 0 0 0 0 0 0 | 0 1 0 0 1 0"
#define K7_SPECIFICATION "2 2 1 | 0 0 0 0 | 0 1 0 0"

#define K8_CONTEXT "1 2 1 1 2 | 0 0 0 0 1 1"

#define K9_CONTEXT "2 1 1 1 1 | 0 0 0 0 0 0"
#define K9_SPECIFICATION "2 1 1 | 0 0 0 0"

#define K10_CONTEXT "1 1 1 1 1"

/* K1 to K10. */
struct known_skid {
    const char *name, *context, *specification;
};
extern const struct known_skid known_skids[];
extern const size_t known_skids_count;

/* K1 of document 01 as rings of so many context and specification states. The context goes on by every row; the specification goes on by
 * every row, or by i=1 alone. */
void k1_rings(struct record *context, struct record *specification, unsigned a_states, unsigned c_states, int by_every_row);

/* K11 of document 01 with so many context states, and its free specification. */
void k11(struct record *context, struct record *specification, unsigned states);

#endif
