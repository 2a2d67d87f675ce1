/* Records built from rows. */
#ifndef SKIDS_H
#define SKIDS_H

#include "checks.h"

/* A record that grows row by row; its length is right after each row. Keys rise if the rows are added so. */
struct record {
    size_t size;
    uint8_t bytes[MOST_BYTES];
};
void begin_context(struct record *r, unsigned i, unsigned o, unsigned u, unsigned v, unsigned states);
void begin_specification(struct record *r, unsigned i, unsigned o, unsigned states);
void begin_controller(struct record *r, unsigned u, unsigned v, unsigned states);
void context_row(struct record *r, unsigned state, unsigned i, unsigned v, unsigned u, unsigned o, unsigned next);
void specification_row(struct record *r, unsigned state, unsigned i, unsigned o, unsigned next);
void controller_row(struct record *r, unsigned state, unsigned u, unsigned v, unsigned next);

/* Bytes behind the last row, as they come; the length counts them. */
void add_byte(struct record *r, unsigned byte);
void set_length(struct record *r);

/* The record of a text such as "2 2 1 | 0 0 0 0 | 0 1 1 0": the counts, then the rows, in decimal numbers as document 01 orders them. */
void from_rows(struct record *r, enum kind kind, const char *text);

/* Two comparisons: the record has the bytes of this text, which is one of from_text. */
void same_record(const char *what, const struct record *r, const char *text);

/* Print a record in bytes; of a long one only the front, for the case's name says how it is built. */
void show_record(const char *name, const struct record *r);

#endif
