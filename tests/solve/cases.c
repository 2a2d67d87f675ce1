/* The comparison of what solving replies and writes with what is wanted. */
#include "cases.h"

#include <stdio.h>
#include <string.h>

static struct sets sets;
static struct numbers next;

/* More than is written. */
static const struct lent more = {514, 8195};

/* Fill both buffers, and say how they must be afterwards. */
static void lend(struct lent lent, const struct table *table) {
    fill_sets(&sets, lent.sets);
    fill_numbers(&next, lent.next);
    if (!table) return;
    memcpy(wanted_sets(&sets), table->sets, sizeof table->sets);
    memcpy(wanted_numbers(&next), table->next, sizeof table->next);
}

static void same_table(void) {
    same_sets("the lent sets", &sets);
    same_numbers("the lent next states", &next);
}

static void show(const struct skid *skid) {
    static int shown;
    if (++shown > 20) return;
    show_record("context", &skid->context);
    show_record("specification", &skid->specification);
    if (shown == 20) printf("    (the records of further cases are not printed)\n");
}

void solve_lent(const char *name, uint32_t mode, const struct skid *skid, struct lent lent, struct mortarleaf_reply wanted,
                const struct table *table) {
    static struct bytes context, specification;
    unsigned long before = failures();
    char title[250];
    snprintf(title, sizeof title, "mode %lu, %s (%zu and %zu numbers lent)", (unsigned long)mode, name, lent.sets, lent.next);
    begin_case("mortarleaf_solve", title);
    hold_bytes(&context, skid->context.bytes, skid->context.size);
    hold_bytes(&specification, skid->specification.bytes, skid->specification.size);
    lend(lent, table);
    same_reply(mortarleaf_solve(mode, lent_bytes(&context), context.size, lent_bytes(&specification), specification.size, lent_sets(&sets), lent.sets,
                                lent_numbers(&next), lent.next),
               wanted);
    same_table();
    same_bytes("the context's bytes", &context);
    same_bytes("the specification's bytes", &specification);
    if (mode == UNBLOCKED && wanted.number == 0) fits_as_it_is(skid, wanted.states, lent_sets(&sets), lent_numbers(&next));
    if (failures() != before) show(skid);
}

void solve_once(const char *name, uint32_t mode, const struct skid *skid, struct mortarleaf_reply wanted, const struct table *table) {
    static struct table found;
    unsigned long before = failures();
    begin_case(mode == PLAIN ? "the reference, plain" : "the reference, unblocked", name);
    lend((struct lent){SETS, NEXTS}, table);
    same_reply(reference(mode, skid, (struct lent){SETS, NEXTS}, &found), wanted);
    if (table) {
        memcpy(lent_sets(&sets), found.sets, sizeof found.sets);
        memcpy(lent_numbers(&next), found.next, sizeof found.next);
        same_table();
    }
    if (failures() != before) show(skid);
    solve_lent(name, mode, skid, more, wanted, table);
}

void solve_case(const char *name, uint32_t mode, const struct skid *skid, struct mortarleaf_reply wanted, const struct table *table) {
    static const struct lent enough[] = {{512, 8192}, {513, 8192}, {512, 8193}, {700, 8300}};
    static const struct lent few[] = {{511, 8192}, {512, 8191}, {511, 8191}, {0, 8300}, {700, 0}, {0, 0}, {1, 1}};
    solve_once(name, mode, skid, wanted, table);
    for (size_t k = 0; k < sizeof enough / sizeof enough[0]; k++) solve_lent(name, mode, skid, enough[k], wanted, table);
    if (writes(wanted.number)) wanted = reply(10, 0, 0, 0);
    for (size_t k = 0; k < sizeof few / sizeof few[0]; k++) solve_lent(name, mode, skid, few[k], wanted, NULL);
}

void same_once(const char *name, const struct skid *skid, uint32_t states, const struct table *table) {
    for (uint32_t mode = PLAIN; mode < MODES; mode++) solve_once(name, mode, skid, reply(0, 0, 0, states), table);
}

void same_case(const char *name, const struct skid *skid, uint32_t states, const struct table *table) {
    for (uint32_t mode = PLAIN; mode < MODES; mode++) solve_case(name, mode, skid, reply(0, 0, 0, states), table);
}

/* "On 11 and 12 both parts are zero" */
static const struct table zeros;

void none_once(const char *name, const struct skid *skid, uint32_t rounds) { solve_once(name, UNBLOCKED, skid, none(rounds), &zeros); }

void none_case(const char *name, const struct skid *skid, uint32_t rounds) { solve_case(name, UNBLOCKED, skid, none(rounds), &zeros); }

void states_case(const char *name, const struct skid *skid, size_t states) {
    static struct outcome wanted[MODES];
    compared_both(name, skid, more, wanted);
    begin_case("the reference", name);
    same_reply(wanted[PLAIN].reply, states > 512 ? reply(11, 0, 0, 0) : reply(0, 0, 0, (uint32_t)states));
    same("11 in both modes", wanted[UNBLOCKED].reply.number == 11, states > 512);
}

void refusal_case(const char *name, const struct skid *skid, uint32_t number, uint32_t record, uint32_t row) {
    for (uint32_t mode = PLAIN; mode < MODES; mode++) solve_case(name, mode, skid, reply(number, record, row, 0), NULL);
}

void compared_case(const char *name, uint32_t mode, const struct skid *skid, struct lent lent, struct outcome *wanted) {
    wanted->reply = reference(mode, skid, lent, &wanted->table);
    solve_lent(name, mode, skid, lent, wanted->reply, writes(wanted->reply.number) ? &wanted->table : NULL);
}

void compared_both(const char *name, const struct skid *skid, struct lent lent, struct outcome wanted[MODES]) {
    for (uint32_t mode = PLAIN; mode < MODES; mode++) compared_case(name, mode, skid, lent, &wanted[mode]);
    if (wanted[PLAIN].reply.number == 0) deleted_or_fits(name, skid, wanted);
}

/* The next states of a text; how many there are. */
static size_t next_from_text(const char *text, uint16_t *out) {
    size_t count = 0;
    for (; *text; text++)
        if (*text == '-')
            out[count++] = ABSENT;
        else if (*text >= '0' && *text <= '9')
            out[count++] = (uint16_t)(*text - '0');
        else
            need(*text == ' ' || *text == '|', "a mark that is none");
    return count;
}

static void small_case(const char *name, uint32_t mode, const struct skid *skid, const struct small_answer *answer) {
    static struct table table;
    memset(&table, 0, sizeof table);
    memcpy(table.sets, answer->sets, sizeof answer->sets);
    need(next_from_text(answer->next, table.next) == answer->states * skid->context.bytes[6] * skid->context.bytes[7], "a place is missing");
    solve_case(name, mode, skid, answer->states > 0 ? kept(answer->states, answer->rounds) : none(answer->rounds), &table);
}

void solve_all(const struct small_solve *cases, size_t count) {
    static struct skid skid;
    for (size_t k = 0; k < count; k++) {
        const struct small_solve *c = &cases[k];
        skid_from_rows(&skid, c->context, c->specification);
        small_case(c->name, PLAIN, &skid, &c->plain);
        small_case(c->name, UNBLOCKED, &skid, c->unblocked.next ? &c->unblocked : &c->plain);
    }
}
