/* The inputs that are compared and measured: skids with a controller each, built in memory. */
#ifndef SKIDS_H
#define SKIDS_H

#include "mortarleaf.h"

#include <stdbool.h>

/* What is asked of an input. The first two are the modes of solving. */
enum work { PLAIN = MORTARLEAF_PLAIN, UNBLOCKED = MORTARLEAF_UNBLOCKED, CHECK, WORKS };

/* A record; the longest there can be is a controller's. */
struct record {
    size_t size;
    uint8_t bytes[MORTARLEAF_CONTROLLER_BYTES];
};

/* What the input is there for: an input that gives something else would measure something else. Not asked: nothing is done with it. */
struct wanted {
    bool asked;
    uint32_t number, states, rounds;
};

struct input {
    const char *name;
    struct record context, specification, controller;
    struct wanted wanted[WORKS];
};

/* Builds the inputs and says how many there are. They stay as they are until the program ends. */
const struct input *build_inputs(size_t *count);

#endif
