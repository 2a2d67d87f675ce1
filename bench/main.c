/* Compares and measures: bench [--quick]. Each input is first given to Mortarleaf and to the plain C, and the replies and all lent numbers must be
 * the same; then both are called again and again. With --quick nothing is measured. Status 1: something differs, and nothing was measured. */
#define _POSIX_C_SOURCE 199309L
#include "plain.h"
#include "skids.h"

#include <stdio.h>
#include <stdlib.h>
#include <string.h>
#include <time.h>

/* Numbers are lent behind the parts that are written: they must not change. */
enum { BEHIND = 16 };
struct lent {
    uint64_t sets[MORTARLEAF_SET_NUMBERS + BEHIND];
    uint16_t next[MORTARLEAF_NEXT_NUMBERS + BEHIND];
};

typedef struct mortarleaf_reply solving(uint32_t mode, const uint8_t *context, size_t context_length, const uint8_t *specification,
                                        size_t specification_length, uint64_t *sets, size_t sets_length, uint16_t *next, size_t next_length);
typedef struct mortarleaf_reply checking(const uint8_t *context, size_t context_length, const uint8_t *specification, size_t specification_length,
                                         const uint8_t *controller, size_t controller_length, uint64_t *sets, size_t sets_length);

/* The two that are compared, each with buffers of its own. */
enum { MORTARLEAF, PLAIN_C, BOTH };
static const struct {
    solving *solve;
    checking *check;
} entries[BOTH] = {{mortarleaf_solve, mortarleaf_check}, {plain_solve, plain_check}};
static struct lent lent[BOTH];

static const char *const works[WORKS] = {"solve 0", "solve 1", "check"};

static struct mortarleaf_reply call(int which, enum work work, const struct input *in) {
    const struct record *x = &in->context, *s = &in->specification, *c = &in->controller;
    uint64_t *sets = lent[which].sets;
    uint16_t *next = lent[which].next;
    if (work == CHECK)
        return entries[which].check(x->bytes, x->size, s->bytes, s->size, c->bytes, c->size, sets, MORTARLEAF_SET_NUMBERS + BEHIND);
    return entries[which].solve(work, x->bytes, x->size, s->bytes, s->size, sets, MORTARLEAF_SET_NUMBERS + BEHIND, next,
                                MORTARLEAF_NEXT_NUMBERS + BEHIND);
}

/* ---- Comparing ---- */

static unsigned long passed, failed;

/* One comparison, passed or failed. The case and the text are printed where it failed. */
static void expect(bool same, const struct input *in, enum work work, const char *what) {
    if (same)
        passed++;
    else {
        failed++;
        printf("%s, %s: %s\n", in->name, works[work], what);
    }
}

/* Numbers that differ from place to place: what is not written shows. */
static void fill(struct lent *l) {
    for (size_t k = 0; k < MORTARLEAF_SET_NUMBERS + BEHIND; k++) l->sets[k] = (k + 1) * 0x9E3779B97F4A7C15u;
    for (size_t k = 0; k < MORTARLEAF_NEXT_NUMBERS + BEHIND; k++) l->next[k] = (uint16_t)(0x8000 + k % 0x4000);
}

static bool same_reply(struct mortarleaf_reply a, struct mortarleaf_reply b) {
    return a.number == b.number && a.record == b.record && a.row == b.row && a.states == b.states && a.rounds == b.rounds;
}

static void print_reply(const char *name, struct mortarleaf_reply r) {
    printf("    %s: number %u record %u row %u", name, (unsigned)r.number, (unsigned)r.record, (unsigned)r.row);
    printf(" states %u rounds %u\n", (unsigned)r.states, (unsigned)r.rounds);
}

/* Both on the same work with the same numbers lent. */
static void compare(enum work work, const struct input *in) {
    const struct wanted *wanted = &in->wanted[work];
    struct mortarleaf_reply replies[BOTH];
    unsigned long before = failed;
    for (int which = 0; which < BOTH; which++) {
        fill(&lent[which]);
        replies[which] = call(which, work, in);
    }
    struct mortarleaf_reply first = replies[MORTARLEAF];
    expect(same_reply(first, replies[PLAIN_C]), in, work, "the replies differ");
    expect(memcmp(lent[MORTARLEAF].sets, lent[PLAIN_C].sets, sizeof lent[0].sets) == 0, in, work, "the lent numbers of 64 bits differ");
    if (work != CHECK)
        expect(memcmp(lent[MORTARLEAF].next, lent[PLAIN_C].next, sizeof lent[0].next) == 0, in, work, "the lent numbers of 16 bits differ");
    expect(first.number == wanted->number && first.states == wanted->states && first.rounds == wanted->rounds, in, work,
           "this is not the reply that the input is there for");
    if (failed == before) return;
    print_reply("Mortarleaf", first);
    print_reply("plain C", replies[PLAIN_C]);
}

/* ---- Measuring ---- */

enum { BATCHES = 7, SLOW_BATCHES = 3 };
static const double batch_seconds = 0.1; /* a batch has as many calls as take this long, and at least one */
static const double slow_seconds = 0.3;  /* where a batch takes longer than this, fewer are made: so the whole ends in time */

static double now(void) {
    struct timespec t;
    clock_gettime(CLOCK_MONOTONIC, &t);
    return (double)t.tv_sec + 1e-9 * (double)t.tv_nsec;
}

/* The seconds that so many calls take. */
static double batch(int which, enum work work, const struct input *in, unsigned long calls) {
    double from = now();
    for (unsigned long k = 0; k < calls; k++) call(which, work, in);
    return now() - from;
}

/* How many calls a batch needs to take long enough, and how many batches there are to be. The tries also warm the caches. */
struct plan {
    unsigned long calls;
    int batches;
};

static struct plan plan_for(int which, enum work work, const struct input *in) {
    struct plan plan = {.calls = 1, .batches = BATCHES};
    double took = batch(which, work, in, plan.calls);
    for (; took < batch_seconds / 50; took = batch(which, work, in, plan.calls)) plan.calls *= 4;
    if (took < batch_seconds) plan.calls = (unsigned long)((double)plan.calls * batch_seconds / took) + 1;
    if (took > slow_seconds) plan.batches = SLOW_BATCHES;
    return plan;
}

static int by_size(const void *a, const void *b) {
    double x = *(const double *)a, y = *(const double *)b;
    return (x > y) - (x < y);
}

/* Microseconds of one call: the best batch and the median. The batches of the two take turns, so that a busy moment of the machine meets both. */
struct times {
    double best, median;
};

static void measure(enum work work, const struct input *in, struct times times[BOTH]) {
    double took[BOTH][BATCHES];
    struct plan plans[BOTH];
    for (int which = 0; which < BOTH; which++) plans[which] = plan_for(which, work, in);
    for (int k = 0; k < BATCHES; k++)
        for (int which = 0; which < BOTH; which++)
            if (k < plans[which].batches)
                took[which][k] = 1e6 * batch(which, work, in, plans[which].calls) / (double)plans[which].calls;
    for (int which = 0; which < BOTH; which++) {
        int batches = plans[which].batches;
        qsort(took[which], (size_t)batches, sizeof took[which][0], by_size);
        times[which] = (struct times){.best = took[which][0], .median = took[which][batches / 2]};
    }
}

/* ---- The table ---- */

static void print_head(void) {
    printf("%-19s  %-7s  %6s  %5s  %6s  %19s  %19s\n", "", "", "", "", "", "Mortarleaf, us", "plain C, us");
    printf("%-19s  %-7s  %6s  %5s  %6s  ", "input", "work", "states", "reply", "rounds");
    printf("%9s %9s  %9s %9s  %5s\n", "median", "best", "median", "best", "ratio");
}

/* Microseconds with about four digits. */
static void print_times(const struct times *t) {
    const double shown[] = {t->median, t->best};
    for (int k = 0; k < 2; k++) printf(" %9.*f", shown[k] < 10 ? 3 : shown[k] < 1000 ? 1 : 0, shown[k]);
}

/* States are those of the plain answer, in both modes, and in the check those of the controller; number and rounds are the reply's. */
static void print_row(enum work work, const struct input *in, const struct times times[BOTH]) {
    const struct wanted *plain = &in->wanted[PLAIN], *reply = &in->wanted[work];
    unsigned states = work == CHECK ? in->controller.bytes[6] + 256u * in->controller.bytes[7] : (unsigned)plain->states;
    char text[12] = "-";
    if (work != CHECK && plain->number == 11)
        snprintf(text, sizeof text, ">%d", MORTARLEAF_STATES);
    else if (states != 0)
        snprintf(text, sizeof text, "%u", states);
    printf("%-19s  %-7s  %6s  %5u  %6u ", in->name, works[work], text, (unsigned)reply->number, (unsigned)reply->rounds);
    print_times(&times[MORTARLEAF]);
    printf(" ");
    print_times(&times[PLAIN_C]);
    printf("  %5.2f\n", times[MORTARLEAF].median / times[PLAIN_C].median);
    fflush(stdout);
}

/* Does this with each work that is asked of an input. */
static void each(const struct input *inputs, size_t count, void (*does)(enum work work, const struct input *in)) {
    for (size_t k = 0; k < count; k++)
        for (int work = 0; work < WORKS; work++)
            if (inputs[k].wanted[work].asked) does((enum work)work, &inputs[k]);
}

static void measure_and_print(enum work work, const struct input *in) {
    struct times times[BOTH];
    measure(work, in, times);
    print_row(work, in, times);
}

int main(int count, char **words) {
    bool quick = count == 2 && strcmp(words[1], "--quick") == 0;
    size_t inputs_count;
    const struct input *inputs = build_inputs(&inputs_count);
    each(inputs, inputs_count, compare);
    if (!quick && failed == 0) {
        print_head();
        each(inputs, inputs_count, measure_and_print);
    }
    printf("%lu passed, %lu failed\n", passed, failed);
    return failed == 0 ? 0 : 1;
}
