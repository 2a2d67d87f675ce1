/* Controller words and combined words, by following the rows. */
#include "words.h"

#include "choices.h"

struct skid words_skid;
unsigned us, vs;
uint64_t words_sets[SETS];
uint16_t words_next[NEXTS];

static void take_counts(void) { us = words_skid.context.bytes[6], vs = words_skid.context.bytes[7]; }

void take_words(const char *context, const char *specification) {
    skid_from_rows(&words_skid, context, specification);
    take_counts();
}

void draw_words(void) {
    const uint8_t *c = words_skid.context.bytes, *p = words_skid.specification.bytes;
    do random_skid(&words_skid.context, &words_skid.specification, (struct most){2, 2, 2, 2, 3, 3, 0});
    while (c[4] != p[4] || c[5] != p[5] || c[8] * p[6] > 64);
    take_counts();
}

void draw_choice_words(void) {
    choice_skid(&words_skid, (struct most){2, 2, 2, 2, 3, 2, 0});
    take_counts();
}

unsigned long words_of(size_t length) {
    unsigned long words = 1;
    for (size_t k = 0; k < length; k++) words *= us * vs;
    return words;
}

/* The first letter is the lowest place of the number. */
void letters_of(unsigned long number, size_t length, struct letter *word) {
    for (size_t k = 0; k < length; k++, number /= us * vs) word[k] = (struct letter){(unsigned)(number % (us * vs)) / vs, (unsigned)number % vs};
}

unsigned long longer(unsigned long number, size_t length, struct letter last) { return number + words_of(length) * (last.u * vs + last.v); }

/* The specification's state after i and o; ABSENT: it cannot run them. */
static unsigned outside(unsigned c, unsigned i, unsigned o) {
    const uint8_t *b = words_skid.specification.bytes;
    for (size_t at = 7; at < words_skid.specification.size; at += 4)
        if (b[at] == c && b[at + 1] == i && b[at + 2] == o) return b[at + 3];
    return ABSENT;
}

/* From the context state a and the specification state c on. A combined word stays if the specification can run its outside word, so also each
 * beginning of that. */
static int stays(const struct letter *word, size_t length, unsigned a, unsigned c) {
    const uint8_t *b = words_skid.context.bytes;
    if (length == 0) return c != ABSENT;
    for (size_t at = 9; at < words_skid.context.size; at += 6) { /* state i v u o next */
        if (b[at] != a || b[at + 2] != word->v || b[at + 3] != word->u) continue;
        unsigned to = c == ABSENT ? ABSENT : outside(c, b[at + 1], b[at + 4]);
        if (!stays(word + 1, length - 1, b[at + 5], to)) return 0;
    }
    return 1;
}

int stays_within(const struct letter *word, size_t length) { return stays(word, length, 0, 0); }

/* Has i, in the context state a, a row that will do? */
static int goes_on(unsigned a, unsigned i, int (*will_do)(struct letter last)) {
    const uint8_t *b = words_skid.context.bytes;
    for (size_t at = 9; at < words_skid.context.size; at += 6)
        if (b[at] == a && b[at + 1] == i && will_do((struct letter){b[at + 3], b[at + 2]})) return 1;
    return 0;
}

static int continues(const struct letter *word, size_t length, unsigned a, int (*will_do)(struct letter last)) {
    const uint8_t *b = words_skid.context.bytes;
    if (length == 0) {
        for (unsigned i = 0; i < b[4]; i++)
            if (!goes_on(a, i, will_do)) return 0;
        return 1;
    }
    for (size_t at = 9; at < words_skid.context.size; at += 6)
        if (b[at] == a && b[at + 2] == word->v && b[at + 3] == word->u && !continues(word + 1, length - 1, b[at + 5], will_do)) return 0;
    return 1;
}

int each_continues(const struct letter *word, size_t length, int (*will_do)(struct letter last)) { return continues(word, length, 0, will_do); }

struct mortarleaf_reply solve_words(uint32_t mode) {
    const struct record *c = &words_skid.context, *p = &words_skid.specification;
    return mortarleaf_solve(mode, c->bytes, c->size, p->bytes, p->size, words_sets, SETS, words_next, NEXTS);
}

int can_run(const struct letter *word, size_t length) {
    unsigned state = 0;
    for (size_t k = 0; k < length; k++) {
        state = words_next[state * us * vs + word[k].u * vs + word[k].v];
        if (state >= SETS) return state == ABSENT ? 0 : 2;
    }
    return 1;
}
