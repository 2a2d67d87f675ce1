/* Faults put into records, and every order of them. */
#include "faults.h"

#include <stdio.h>
#include <string.h>

struct mortarleaf_reply first_fault(const struct fault *faults, size_t count, const char *has, struct mortarleaf_reply none) {
    for (size_t k = 0; k < count; k++)
        if (has[k]) return reply(faults[k].number, faults[k].record, faults[k].row, 0);
    return none;
}

void each_order(const struct fault *faults, size_t count, char *has, void (*run)(const char *name)) {
    char name[100];
    memset(has, 0, count);
    run("order: no fault");
    for (size_t first = 0; first < count; first++) {
        for (size_t k = first; k < count; k++) has[k] = 1;
        snprintf(name, sizeof name, "order: %s, and every later fault", faults[first].name);
        run(name);
        memset(has, 0, count);
        has[first] = 1;
        snprintf(name, sizeof name, "order: %s alone", faults[first].name);
        run(name);
        for (size_t later = first + 1; later < count; later++) {
            has[later] = 1;
            snprintf(name, sizeof name, "order: %s; %s", faults[first].name, faults[later].name);
            run(name);
            has[later] = 0;
        }
        has[first] = 0;
    }
}

void spoil_bytes(struct record *r, const char *has) {
    if (has[BROKEN]) add_byte(r, 0);
    if (has[KIND]) r->bytes[3]++;
    if (has[LENGTH]) r->bytes[0]++;
}

/* The count that is spoilt is I: 9 is over its limit. */
void end_context(struct record *r, const char *has) {
    unsigned states = r->bytes[8];
    context_row(r, states - 1, 0, 0, 0, 0, has[NEXT] ? states : 0);
    context_row(r, states - 1, 0, 0, 0, has[EQUAL] ? 0 : 1, 0);
    context_row(r, has[LOWER] ? states - 2 : states - 1, 1, 0, 0, 0, 0);
    if (has[COUNT]) r->bytes[4] = 9;
    spoil_bytes(r, has);
}

/* The count that is spoilt is O. */
void faulty_specification(struct record *r, unsigned i, unsigned o, unsigned states, unsigned o_of_1, const char *has) {
    begin_specification(r, i, o, states);
    specification_row(r, 0, 0, 0, 0);
    specification_row(r, 0, 1, o_of_1, 0);
    specification_row(r, states - 1, 0, 0, has[NEXT] ? states : 0);
    specification_row(r, states - 1, 0, has[EQUAL] ? 0 : 1, 0);
    specification_row(r, has[LOWER] ? states - 2 : states - 1, 1, 0, 0);
    if (has[COUNT]) r->bytes[5] = 9;
    spoil_bytes(r, has);
}
