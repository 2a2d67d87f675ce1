/* What the header says beyond the entries. */
#ifndef CASES_H
#define CASES_H

#include "known.h"

void test_sizes(void); /* mortarleaf_controller_size */
void test_stack(void); /* the stack that a call takes */

#endif
