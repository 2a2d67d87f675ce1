/* Damaged records: a byte changed, the end cut off, bytes added; the length as it was, or made right again. */
#ifndef DAMAGE_H
#define DAMAGE_H

#include "skids.h"

/* A record that is damaged, and the name of its kind. */
struct damaged {
    const char *kind;
    struct record *record;
};

/* Every byte of each is given every value; each is cut everywhere, and gets up to 13 bytes more: run each. The records are whole again
 * afterwards. */
void each_damage(const struct damaged *records, size_t count, void (*run)(const char *name));

/* Run so many random skids, drawn one by one: mostly one of the records is damaged once, at times several or several times. */
void random_damage(const struct damaged *records, size_t count, unsigned cases, void (*draw)(void), void (*run)(const char *name));

#endif
