/* Random skids, small ones and large ones: reply and both lent buffers as the reference has them, in both modes. */
#include "cases.h"
#include "choices.h"

#include <stdio.h>
#include <string.h>

static struct outcome wanted[MODES];

/* How often each reply was wanted in each mode, and how often an answer was of some sort. */
static unsigned long counts[MODES][17];
static struct {
    unsigned long many_states, many_pairs, two_specifications, empty_set, absent_steps, u_before_v;
    unsigned long fewer_states, fewer_steps, new_numbers, more_rounds, none_late, empty_kept;
} sorts;

/* In each state new numbers come up in their order as u goes upward and within u, v. Do they not, as v goes upward and within v, u? */
static int u_before_v(const struct skid *skid, const struct outcome *answer) {
    size_t us = skid->context.bytes[6], vs = skid->context.bytes[7], met = 0;
    for (size_t state = 0; state < answer->reply.states; state++)
        for (size_t k = 0; k < us * vs; k++) {
            uint16_t to = answer->table.next[state * us * vs + k % us * vs + k / us];
            if (to != ABSENT && to > met + 1) return 1;
            if (to == met + 1) met++;
        }
    return 0;
}

static int has_set(const struct outcome *answer, int (*asked)(uint64_t set)) {
    for (size_t k = 0; k < answer->reply.states; k++)
        if (asked(answer->table.sets[k])) return 1;
    return 0;
}

static int is_empty(uint64_t set) { return set == 0; }
static int has_several(uint64_t set) { return (set & (set - 1)) != 0; }

static unsigned long absent_steps(const struct outcome *answer) {
    unsigned long absent = 0;
    for (size_t k = 0; k < NEXTS; k++) absent += answer->table.next[k] == ABSENT;
    return absent;
}

static void count_plain(const struct skid *skid, const struct outcome *plain) {
    uint32_t states = plain->reply.states;
    sorts.many_states += states >= 4;
    sorts.many_pairs += has_set(plain, has_several);
    sorts.empty_set += has_set(plain, is_empty);
    sorts.absent_steps += absent_steps(plain) > 0 && states >= 2;
    sorts.u_before_v += u_before_v(skid, plain);
    sorts.two_specifications += skid->specification.bytes[6] >= 2 && states >= 3;
}

/* Are the states that are left the first of the plain answer, in their order? */
static int same_numbering(const struct outcome *plain, const struct outcome *unblocked) {
    return memcmp(plain->table.sets, unblocked->table.sets, unblocked->reply.states * sizeof unblocked->table.sets[0]) == 0;
}

static void count_unblocked(const struct outcome *plain, const struct outcome *unblocked) {
    sorts.none_late += unblocked->reply.number == 12 && unblocked->reply.rounds >= 3;
    if (unblocked->reply.number != 0) return;
    int fewer = unblocked->reply.states < plain->reply.states;
    sorts.fewer_states += fewer && unblocked->reply.states >= 2;
    sorts.fewer_steps += fewer && absent_steps(unblocked) > 0;
    sorts.new_numbers += !same_numbering(plain, unblocked);
    sorts.more_rounds += unblocked->reply.rounds >= 2;
    sorts.empty_kept += fewer && has_set(unblocked, is_empty);
}

static void draw(struct skid *skid, struct most most) { random_skid(&skid->context, &skid->specification, most); }

static void random_cases(const char *sort, void (*draw_skid)(struct skid *, struct most), struct most most, unsigned first, unsigned cases) {
    static struct skid skid;
    char name[100];
    for (unsigned k = first; k < first + cases && !hopeless(); k++) {
        seed(k);
        draw_skid(&skid, most);
        snprintf(name, sizeof name, "random skid %u, %s", k, sort);
        struct lent lent = {chance(3) ? below(512) : 512 + below(100), chance(3) ? below(8192) : 8192 + below(100)};
        compared_both(name, &skid, lent, wanted);
        for (uint32_t mode = PLAIN; mode < MODES; mode++) counts[mode][wanted[mode].reply.number]++;
        if (wanted[PLAIN].reply.number != 0) continue;
        count_plain(&skid, &wanted[PLAIN]);
        count_unblocked(&wanted[PLAIN], &wanted[UNBLOCKED]);
    }
}

static void sort_often(unsigned long least, const char *what, unsigned long often) {
    char title[120];
    snprintf(title, sizeof title, "%lu answers or more %s (%lu)", least, what, often);
    same(title, often >= least, 1);
}

/* Random skids that were all of one sort would say little. */
static void test_sorts(void) {
    sort_often(400, "have four states or more", sorts.many_states);
    sort_often(400, "have a set of several pairs", sorts.many_pairs);
    sort_often(400, "have three states or more of a specification with several", sorts.two_specifications);
    sort_often(400, "have the empty set", sorts.empty_set);
    sort_often(400, "have several states and lack a step", sorts.absent_steps);
    sort_often(400, "would be numbered in another way if v went before u", sorts.u_before_v);
    sort_often(100, "have several states left, and lost others", sorts.fewer_states);
    sort_often(100, "lost states, and steps of those that are left", sorts.fewer_steps);
    sort_often(100, "have states left with other numbers than before", sorts.new_numbers);
    sort_often(100, "have states left after two rounds or more", sorts.more_rounds);
    sort_often(100, "lost states, and the empty set is left", sorts.empty_kept);
    sort_often(100, "are none after three rounds or more", sorts.none_late);
}

void test_random(void) {
    static const uint32_t others[] = {8, 9, 10, 11};
    random_cases("small", draw, (struct most){3, 3, 3, 3, 4, 4, 0}, 0, 5000);
    random_cases("many letters", draw, (struct most){2, 2, 4, 4, 8, 6, 0}, 6000, 1000);
    random_cases("many states", draw, (struct most){2, 1, 2, 2, 16, 3, 0}, 8000, 1000);
    random_cases("large", draw, (struct most){8, 8, 4, 4, 64, 64, 0}, 10000, 100);
    random_cases("a choice", choice_skid, (struct most){3, 3, 3, 4, 6, 3, 0}, 12000, 4000);
    random_cases("a choice, many states", choice_skid, (struct most){2, 2, 2, 3, 20, 3, 0}, 17000, 500);
    if (hopeless()) return;
    begin_case("the test itself", "random skids");
    wanted_often(counts[PLAIN], 0, 5000);
    wanted_often(counts[UNBLOCKED], 0, 1000);
    wanted_often(counts[UNBLOCKED], 12, 1000);
    for (uint32_t mode = PLAIN; mode < MODES; mode++)
        for (size_t k = 0; k < 4; k++) wanted_often(counts[mode], others[k], 50);
    test_sorts();
}
