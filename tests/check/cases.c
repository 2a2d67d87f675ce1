/* The comparison of what a check replies and writes with what is wanted. */
#include "cases.h"

#include <stdio.h>
#include <string.h>

/* Numbers to lend, and how they must be afterwards; NULL: they stay. */
static struct sets numbers;

static void lend(size_t lent, const uint64_t *sets) {
    fill_sets(&numbers, lent);
    if (sets) memcpy(wanted_sets(&numbers), sets, SETS * sizeof *sets);
}

static void show(const struct input *in) {
    static int shown;
    if (++shown > 20) return;
    show_record("context", &in->context);
    show_record("specification", &in->specification);
    show_record("controller", &in->controller);
    if (shown == 20) printf("    (the records of further cases are not printed)\n");
}

void check_lent(const char *name, const struct input *in, size_t lent, struct mortarleaf_reply wanted, const uint64_t *sets) {
    static struct bytes context, specification, controller;
    unsigned long before = failures();
    char title[200];
    snprintf(title, sizeof title, "%s (%zu numbers lent)", name, lent);
    begin_case("mortarleaf_check", title);
    hold_bytes(&context, in->context.bytes, in->context.size);
    hold_bytes(&specification, in->specification.bytes, in->specification.size);
    hold_bytes(&controller, in->controller.bytes, in->controller.size);
    lend(lent, sets);
    same_reply(mortarleaf_check(lent_bytes(&context), context.size, lent_bytes(&specification), specification.size, lent_bytes(&controller),
                                controller.size, lent_sets(&numbers), lent),
               wanted);
    same_sets("the lent numbers", &numbers);
    same_bytes("the context's bytes", &context);
    same_bytes("the specification's bytes", &specification);
    same_bytes("the controller's bytes", &controller);
    if (failures() != before) show(in);
}

void check_once(const char *name, const struct input *in, struct mortarleaf_reply wanted, const uint64_t *sets) {
    unsigned long before = failures();
    begin_case("the reference", name);
    lend(SETS, sets);
    same_reply(reference(in, SETS, lent_sets(&numbers)), wanted);
    same_sets("the lent numbers", &numbers);
    if (failures() != before) show(in);
    check_lent(name, in, 530, wanted, sets);
}

void check_case(const char *name, const struct input *in, struct mortarleaf_reply wanted, const uint64_t *sets) {
    static const size_t enough[] = {512, 513, 700}, few[] = {511, 1, 0};
    check_once(name, in, wanted, sets);
    for (size_t k = 0; k < sizeof enough / sizeof enough[0]; k++) check_lent(name, in, enough[k], wanted, sets);
    if (writes(wanted.number)) wanted = reply(10, 0, 0, 0);
    for (size_t k = 0; k < sizeof few / sizeof few[0]; k++) check_lent(name, in, few[k], wanted, NULL);
}

void verdict_case(const char *name, const struct input *in, uint32_t number) {
    uint64_t sets[SETS] = {0};
    struct mortarleaf_reply wanted = reply(number, 0, 0, number == 0 ? in->controller.bytes[6] + 256u * in->controller.bytes[7] : 0);
    begin_case("the reference", name);
    same_reply(reference(in, SETS, sets), wanted);
    check_lent(name, in, 530, wanted, sets);
}

void refusal_case(const char *name, const struct input *in, uint32_t number, uint32_t record, uint32_t row) {
    check_case(name, in, reply(number, record, row, 0), NULL);
}

uint32_t compared_case(const char *name, const struct input *in, size_t lent) {
    uint64_t sets[SETS];
    struct mortarleaf_reply wanted = reference(in, lent, sets);
    check_lent(name, in, lent, wanted, writes(wanted.number) ? sets : NULL);
    return wanted.number;
}

void check_all(const struct small_check *cases, size_t count) {
    static struct input in;
    for (size_t k = 0; k < count; k++) {
        const struct small_check *c = &cases[k];
        uint64_t sets[SETS] = {0};
        memcpy(sets, c->sets, sizeof c->sets);
        input_from_rows(&in, c->context, c->specification, c->controller);
        check_case(c->name, &in, reply(c->number, 0, 0, c->states), sets);
    }
}
