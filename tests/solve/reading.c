/* Refusals 1 to 7 of contexts and specifications, in the order of document 01. */
#include "reading.h"

/* What document 01 says of a kind: its two bytes, its counts with their limits, the limit of its rows, and for each field of a row the place of the
 * count that it stays below. The last field is next; the key is all the others. All of them are single bytes. */
struct layout {
    uint8_t kind[2];
    size_t counts, fields, rows;
    unsigned limits[5];
    size_t below[6];
};
static const struct layout context = {{0x43, 0x58}, 5, 6, 4096, {8, 8, 4, 4, 64}, {4, 0, 3, 2, 1, 4}}; /* I O U V states; state i v u o next */
static const struct layout specification = {{0x53, 0x50}, 3, 4, 1024, {8, 8, 64}, {2, 0, 1, 2}};       /* I O states; state i o next */

static uint32_t head_fault(const struct layout *l, const uint8_t *bytes, size_t size) {
    if (size < 4 || bytes[0] + 256u * bytes[1] != size - 2) return 1;
    if (bytes[2] != l->kind[0] || bytes[3] != l->kind[1]) return 2;
    if (size < 4 + l->counts || (size - 4 - l->counts) % l->fields != 0) return 3;
    for (size_t k = 0; k < l->counts; k++)
        if (bytes[4 + k] < 1 || bytes[4 + k] > l->limits[k]) return 4;
    return (size - 4 - l->counts) / l->fields > l->rows ? 4 : 0;
}

/* "Keys rise strictly, compared field by field": the first field that differs decides. */
static uint32_t key_fault(const struct layout *l, const uint8_t *row) {
    const uint8_t *before = row - l->fields;
    for (size_t k = 0; k + 1 < l->fields; k++)
        if (row[k] != before[k]) return row[k] > before[k] ? 0 : 7;
    return 6;
}

static uint32_t row_fault(const struct layout *l, const uint8_t *counts, const uint8_t *row, int first) {
    for (size_t k = 0; k < l->fields; k++)
        if (row[k] >= counts[l->below[k]]) return 5;
    return first ? 0 : key_fault(l, row);
}

struct mortarleaf_reply reading(enum kind kind, const struct record *r) {
    const struct layout *l = kind == CONTEXT ? &context : &specification;
    const uint8_t *counts = r->bytes + 4, *rows = counts + l->counts;
    uint32_t number = head_fault(l, r->bytes, r->size);
    if (number != 0) return reply(number, kind, 0, 0);
    for (uint32_t row = 0; rows + row * l->fields < r->bytes + r->size; row++) {
        number = row_fault(l, counts, rows + row * l->fields, row == 0);
        if (number != 0) return reply(number, kind, row, 0);
    }
    return reply(0, 0, 0, counts[l->counts - 1]);
}
