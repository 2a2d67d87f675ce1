/* What is done to a record's bytes. */
#include "damage.h"

#include "chance.h"

#include <stdio.h>

/* Every byte is given every value. */
static void each_byte(struct record *r, const char *kind, void (*run)(const char *name)) {
    char name[100];
    for (size_t at = 0; at < r->size; at++) {
        uint8_t was = r->bytes[at];
        for (unsigned value = 0; value < 256 && !hopeless(); value++) {
            r->bytes[at] = (uint8_t)value;
            snprintf(name, sizeof name, "byte %zu of the %s %02X in place of %02X", at, kind, value, was);
            run(name);
        }
        r->bytes[at] = was;
    }
}

/* Every cut, and up to 13 bytes more. */
static void each_length(struct record *r, const char *kind, void (*run)(const char *name)) {
    static struct record whole;
    char name[100];
    whole = *r;
    for (size_t size = 0; size < whole.size + 14; size++)
        for (int right = 0; right < 2; right++) {
            *r = whole;
            while (r->size < size) r->bytes[r->size++] = (uint8_t)below(3);
            r->size = size;
            if (right && size >= 2) set_length(r);
            snprintf(name, sizeof name, "%zu bytes of the %s, its length %s", size, kind, right ? "made right" : "as it was");
            run(name);
        }
    *r = whole;
}

/* One damage of any kind. A length that is made right lets the later refusals come up. */
static void damage(struct record *r) {
    switch (below(4)) {
    case 0: /* a byte becomes another */
        if (r->size > 0) r->bytes[below((unsigned)r->size)] = (uint8_t)below(256);
        break;
    case 1: /* a byte becomes a small one, so that it may still be a code or a count */
        if (r->size > 0) r->bytes[below((unsigned)r->size)] = (uint8_t)below(5);
        break;
    case 2:
        r->size = below((unsigned)r->size + 1);
        break;
    case 3:
        for (unsigned more = below(13) + 1; more > 0; more--) r->bytes[r->size++] = (uint8_t)below(3);
        break;
    }
    if (chance(80) && r->size >= 2) set_length(r);
}

void each_damage(const struct damaged *records, size_t count, void (*run)(const char *name)) {
    seed(1);
    for (size_t k = 0; k < count; k++) {
        each_byte(records[k].record, records[k].kind, run);
        each_length(records[k].record, records[k].kind, run);
    }
}

void random_damage(const struct damaged *records, size_t count, unsigned cases, void (*draw)(void), void (*run)(const char *name)) {
    char name[100];
    for (unsigned k = 0; k < cases && !hopeless(); k++) {
        seed(20000 + k);
        draw();
        do damage(records[below((unsigned)count)].record);
        while (chance(25));
        snprintf(name, sizeof name, "damaged skid %u", k);
        run(name);
    }
}
