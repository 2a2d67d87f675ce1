/* Controller words and the combined words over them, as document 01 has them, on small skids. No set of pairs is made here; each combined word is
 * followed by itself. */
#ifndef WORDS_H
#define WORDS_H

#include "reference.h"

struct letter {
    unsigned u, v;
};

/* The skid that is looked at, and its U and V. */
extern struct skid words_skid;
extern unsigned us, vs;
void take_words(const char *context, const char *specification);

/* Random ones: legal, and of counts that belong together; the second leaves the controller a choice. */
void draw_words(void);
void draw_choice_words(void);

/* The words of so many letters have the numbers from 0 on; how many there are, the letters of one, and the number of a word that has one more. */
unsigned long words_of(size_t length);
void letters_of(unsigned long number, size_t length, struct letter *word);
unsigned long longer(unsigned long number, size_t length, struct letter last);

/* Does every combined word over these letters stay within the specification? */
int stays_within(const struct letter *word, size_t length);

/* Is there, after every combined word over these letters and for each i, a row of the context that will do? `will_do` is asked for its u and v. */
int each_continues(const struct letter *word, size_t length, int (*will_do)(struct letter last));

/* The lent numbers of an answer. 1: the table has all steps of the word; 0: it lacks one; 2: one of them leads to no state. */
extern uint64_t words_sets[SETS];
extern uint16_t words_next[NEXTS];
struct mortarleaf_reply solve_words(uint32_t mode);
int can_run(const struct letter *word, size_t length);

#endif
