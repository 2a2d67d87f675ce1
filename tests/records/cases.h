/* The reading of one record, with all that comes of it, the rules of document 01 for large tables, and the list of the test files. */
#ifndef CASES_H
#define CASES_H

#include "checks.h"

/* The rules of document 01, written a second time, for tables that are too large to write out. */
size_t encode(uint32_t u, uint32_t v, uint32_t states, const uint16_t *next, uint8_t *out); /* a controller record; its size */
void decode(const uint8_t *bytes, size_t size, uint16_t *next); /* the 8,192 numbers of a legal controller record */

/* Read a record and compare all that comes of it. */
void read_case(const char *name, enum kind kind, const uint8_t *bytes, size_t size, struct mortarleaf_reply wanted);

/* A table of records, each as a text, with the four numbers of its reply. */
struct small {
    const char *name, *bytes;
    uint32_t number, record, row, states;
};
void read_all(enum kind kind, const struct small *cases, size_t count);

/* The test files. */
void test_contexts(void);
void test_specifications(void);
void test_controllers(void);
void test_large(void);
void test_tables(void);
void test_writing(void);

#endif
