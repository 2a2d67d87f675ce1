/* What is wrong with a single record, from document 01 alone. */
#ifndef READING_H
#define READING_H

#include "skids.h"

/* The reply to a context or a specification: 0 with its states, or one of 1 to 7. */
struct mortarleaf_reply reading(enum kind kind, const struct record *r);

#endif
