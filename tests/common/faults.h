/* Inputs with several faults at once: which of them is told? */
#ifndef FAULTS_H
#define FAULTS_H

#include "skids.h"

/* A fault that an input can have, and its refusal. A list of faults is in the order in which document 01 refuses them; `has` says, for each of
 * the list, whether the input has it. */
struct fault {
    const char *name;
    uint32_t number, record, row;
};

/* The refusal of the first fault that is there; this reply if there is none. */
struct mortarleaf_reply first_fault(const struct fault *faults, size_t count, const char *has, struct mortarleaf_reply none);

/* Run with no fault, with each one alone, with each pair, and with each one and every later one. */
void each_order(const struct fault *faults, size_t count, char *has, void (*run)(const char *name));

/* The seven faults of a record by itself, 1 to 7 in this order; a list begins with those of the context, then of the specification. 5, 6 and 7 are
 * faults of the record's last three rows; `row` is the number of the first of these. */
enum { LENGTH, KIND, BROKEN, COUNT, NEXT, EQUAL, LOWER, OF_RECORD };
enum { OF_CONTEXT = 0, OF_SPECIFICATION = OF_RECORD, OF_OTHERS = 2 * OF_RECORD };
#define RECORD_FAULTS(name, record, row)                                                                                                      \
    {name ": length", 1, record, 0}, {name ": kind", 2, record, 0}, {name ": broken last row", 3, record, 0}, {name ": count", 4, record, 0}, \
        {name ": next state", 5, record, row}, {name ": equal key", 6, record, (row) + 1}, {name ": lower key", 7, record, (row) + 2}

/* The last three rows of a context, with those of the seven faults that it has. They are of its last state: nothing may lead there, nor may it have
 * rows yet. I, O and the states are 2 or more. */
void end_context(struct record *r, const char *has);

/* A specification of these counts, with those of the seven faults that it has. State 0 stays by i=0 with o=0, and by i=1 with o=`o_of_1`; nothing
 * leads to the other states. */
void faulty_specification(struct record *r, unsigned i, unsigned o, unsigned states, unsigned o_of_1, const char *has);

/* Faults 1, 2 and 3 alone, of a record that has its rows. */
void spoil_bytes(struct record *r, const char *has);

#endif
