/* Records built from rows. */
#include "skids.h"

#include <stdio.h>
#include <stdlib.h>
#include <string.h>

void add_byte(struct record *r, unsigned byte) {
    need(r->size < MOST_BYTES, "too many bytes in a record");
    need(byte < 256, "a number that is no byte");
    r->bytes[r->size++] = (uint8_t)byte;
    if (r->size >= 2) set_length(r);
}

static void add_two(struct record *r, unsigned number) {
    add_byte(r, number & 0xFF);
    add_byte(r, number >> 8);
}

/* "length first, two bytes, counting all bytes after itself" */
void set_length(struct record *r) {
    r->bytes[0] = (r->size - 2) & 0xFF;
    r->bytes[1] = (r->size - 2) >> 8 & 0xFF;
}

static void begin(struct record *r, unsigned first, unsigned second) {
    r->size = 0;
    add_two(r, 0);
    add_byte(r, first);
    add_byte(r, second);
}

void begin_context(struct record *r, unsigned i, unsigned o, unsigned u, unsigned v, unsigned states) {
    begin(r, 0x43, 0x58);
    add_byte(r, i), add_byte(r, o), add_byte(r, u), add_byte(r, v), add_byte(r, states);
}

void begin_specification(struct record *r, unsigned i, unsigned o, unsigned states) {
    begin(r, 0x53, 0x50);
    add_byte(r, i), add_byte(r, o), add_byte(r, states);
}

void begin_controller(struct record *r, unsigned u, unsigned v, unsigned states) {
    begin(r, 0x43, 0x54);
    add_byte(r, u), add_byte(r, v), add_two(r, states);
}

void context_row(struct record *r, unsigned state, unsigned i, unsigned v, unsigned u, unsigned o, unsigned next) {
    add_byte(r, state), add_byte(r, i), add_byte(r, v), add_byte(r, u), add_byte(r, o), add_byte(r, next);
}

void specification_row(struct record *r, unsigned state, unsigned i, unsigned o, unsigned next) {
    add_byte(r, state), add_byte(r, i), add_byte(r, o), add_byte(r, next);
}

void controller_row(struct record *r, unsigned state, unsigned u, unsigned v, unsigned next) {
    add_two(r, state), add_byte(r, u), add_byte(r, v), add_two(r, next);
}

/* The next number of a text; bars and blanks before it are passed over. 0: there is none. */
static int number_of(const char **text, unsigned *number) {
    char *end;
    while (**text == ' ' || **text == '|') ++*text;
    if (!**text) return 0;
    *number = (unsigned)strtoul(*text, &end, 10);
    need(end != *text, "a mark that is no number");
    *text = end;
    return 1;
}

static void numbers_of(const char **text, unsigned *numbers, size_t count) {
    for (size_t k = 0; k < count; k++) need(number_of(text, &numbers[k]), "a number is missing");
}

void from_rows(struct record *r, enum kind kind, const char *text) {
    unsigned n[6];
    numbers_of(&text, n, kind == CONTEXT ? 5 : 3);
    if (kind == CONTEXT)
        begin_context(r, n[0], n[1], n[2], n[3], n[4]);
    else if (kind == SPECIFICATION)
        begin_specification(r, n[0], n[1], n[2]);
    else
        begin_controller(r, n[0], n[1], n[2]);
    while (number_of(&text, &n[0])) {
        numbers_of(&text, n + 1, kind == CONTEXT ? 5 : 3);
        if (kind == CONTEXT)
            context_row(r, n[0], n[1], n[2], n[3], n[4], n[5]);
        else if (kind == SPECIFICATION)
            specification_row(r, n[0], n[1], n[2], n[3]);
        else
            controller_row(r, n[0], n[1], n[2], n[3]);
    }
}

void same_record(const char *what, const struct record *r, const char *text) {
    static uint8_t bytes[MOST_BYTES];
    size_t size = from_text(text, bytes);
    same(what, r->size, size);
    same(what, r->size == size && memcmp(r->bytes, bytes, size) == 0, 1);
}

void show_record(const char *name, const struct record *r) {
    size_t shown = r->size <= 2100 ? r->size : 60;
    printf("    %s (%zu bytes):", name, r->size);
    for (size_t k = 0; k < shown; k++) printf(" %02X", r->bytes[k]);
    printf(shown < r->size ? " ..\n" : "\n");
}
