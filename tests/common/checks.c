/* Comparisons, guarded buffers, and bytes from a text. */
#include "checks.h"

#include <inttypes.h>
#include <stdio.h>
#include <stdlib.h>
#include <string.h>

static char running[400];
static unsigned long passed, failed;

void begin_case(const char *function, const char *name) { snprintf(running, sizeof running, "%s: %s", function, name); }

void same(const char *what, uint64_t got, uint64_t wanted) {
    if (got == wanted) {
        passed++;
        return;
    }
    failed++;
    printf("%s: %s: got %" PRIu64 ", wanted %" PRIu64 "\n", running, what, got, wanted);
}

void same_reply(struct mortarleaf_reply got, struct mortarleaf_reply wanted) {
    same("number", got.number, wanted.number);
    same("record", got.record, wanted.record);
    same("row", got.row, wanted.row);
    same("states", got.states, wanted.states);
    same("rounds", got.rounds, wanted.rounds);
}

unsigned long failures(void) { return failed; }

int hopeless(void) {
    static int said;
    if (failed <= 300) return 0;
    if (!said++) printf("so much has failed that the long series of cases are cut short\n");
    return 1;
}

void wanted_often(const unsigned long *counts, uint32_t number, unsigned long least) {
    char what[100];
    snprintf(what, sizeof what, "reply %" PRIu32 " is wanted %lu times or more (%lu)", number, least, counts[number]);
    same(what, counts[number] >= least, 1);
}

void print_counts(void) { printf("%lu passed, %lu failed\n", passed, failed); }

struct mortarleaf_reply reply(uint32_t number, uint32_t record, uint32_t row, uint32_t states) {
    return (struct mortarleaf_reply){.number = number, .record = record, .row = row, .states = states, .rounds = 0};
}

void need(int enough, const char *what) {
    if (!enough) {
        printf("%s: the test itself: %s\n0 passed, 1 failed\n", running, what);
        exit(2);
    }
}

void fill_bytes(struct bytes *b, size_t size) {
    need(size <= MOST_BYTES, "too many bytes");
    b->size = size;
    for (size_t k = 0; k < size + 2 * GUARDS; k++) b->whole[k] = (uint8_t)(0xA5 + 29 * k);
    memcpy(b->wanted, b->whole, size + 2 * GUARDS);
}

void fill_numbers(struct numbers *n, size_t count) {
    need(count <= MOST_NUMBERS, "too many numbers");
    n->count = count;
    for (size_t k = 0; k < count + 2 * GUARDS; k++) n->whole[k] = (uint16_t)(0xA55A + 2477 * k);
    memcpy(n->wanted, n->whole, (count + 2 * GUARDS) * sizeof n->whole[0]);
}

/* No pattern is 0, and no two places hold the same. */
void fill_sets(struct sets *s, size_t count) {
    need(count <= MOST_SETS, "too many numbers");
    s->count = count;
    for (size_t k = 0; k < count + 2 * GUARDS; k++) s->whole[k] = UINT64_C(0xA55A96693CC3F00F) + UINT64_C(0x9E3779B97F4A7C15) * k;
    memcpy(s->wanted, s->whole, (count + 2 * GUARDS) * sizeof s->whole[0]);
}

void hold_bytes(struct bytes *b, const uint8_t *content, size_t size) {
    fill_bytes(b, size);
    memcpy(lent_bytes(b), content, size);
    memcpy(wanted_bytes(b), content, size);
}

void hold_numbers(struct numbers *n, const uint16_t *content, size_t count) {
    fill_numbers(n, count);
    memcpy(lent_numbers(n), content, count * sizeof *content);
    memcpy(wanted_numbers(n), content, count * sizeof *content);
}

uint8_t *lent_bytes(struct bytes *b) { return b->whole + GUARDS; }
uint16_t *lent_numbers(struct numbers *n) { return n->whole + GUARDS; }
uint64_t *lent_sets(struct sets *s) { return s->whole + GUARDS; }
uint8_t *wanted_bytes(struct bytes *b) { return b->wanted + GUARDS; }
uint16_t *wanted_numbers(struct numbers *n) { return n->wanted + GUARDS; }
uint64_t *wanted_sets(struct sets *s) { return s->wanted + GUARDS; }

/* The number at a place of a buffer whose numbers have so many bytes each. */
static uint64_t at(const void *buffer, size_t bytes, size_t k) {
    if (bytes == 1) return ((const uint8_t *)buffer)[k];
    if (bytes == 2) return ((const uint16_t *)buffer)[k];
    return ((const uint64_t *)buffer)[k];
}

/* A whole buffer of `count` numbers and its guards. The first place that differs is told; places before the content are guards and are printed
 * below 0. Numbers of 64 bits are sets and are printed as they are read: in hex. */
static void same_whole(const char *what, const void *whole, const void *wanted, size_t bytes, size_t count) {
    size_t k = 0;
    if (memcmp(whole, wanted, (count + 2 * GUARDS) * bytes) == 0) {
        passed++;
        return;
    }
    failed++;
    while (at(whole, bytes, k) == at(wanted, bytes, k)) k++;
    printf("%s: %s: at place %ld: ", running, what, (long)k - GUARDS);
    printf(bytes == 8 ? "got %" PRIX64 ", wanted %" PRIX64 " (hex)\n" : "got %" PRIu64 ", wanted %" PRIu64 "\n", at(whole, bytes, k),
           at(wanted, bytes, k));
}

void same_bytes(const char *what, const struct bytes *b) { same_whole(what, b->whole, b->wanted, sizeof b->whole[0], b->size); }
void same_numbers(const char *what, const struct numbers *n) { same_whole(what, n->whole, n->wanted, sizeof n->whole[0], n->count); }
void same_sets(const char *what, const struct sets *s) { same_whole(what, s->whole, s->wanted, sizeof s->whole[0], s->count); }

static int digit(char c) {
    if (c >= '0' && c <= '9') return c - '0';
    if (c >= 'A' && c <= 'F') return c - 'A' + 10;
    return -1;
}

size_t from_text(const char *text, uint8_t *out) {
    size_t n = 0;
    while (*text)
        if (digit(text[0]) < 0) {
            need(*text == ' ' || *text == '|', "a mark that is none");
            text++;
        } else {
            need(digit(text[1]) >= 0 && digit(text[2]) < 0, "a byte has two digits");
            out[n++] = (uint8_t)(16 * digit(text[0]) + digit(text[1]));
            text += 2;
        }
    return n;
}
