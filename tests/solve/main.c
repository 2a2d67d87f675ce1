/* Runs solving from C. What is expected was written by hand from document 01, or comes from the reference. */
#include "cases.h"

int main(void) {
    test_known();      /* the skids of document 01 */
    test_counts();     /* 8, 9 and 10: every pair of counts */
    test_order();      /* which refusal is given where several would fit; unknown modes */
    test_steps();      /* single steps: what is reached, absent, empty, and its number */
    test_rounds();     /* what is deleted, by hand */
    test_chains();     /* tables of many sizes that a formula tells */
    test_cascades();   /* hundreds of rounds */
    test_falls();      /* rounds that delete several, for one reason alone */
    test_subsets();    /* 511, 512 and 513 sets, and many others */
    test_limits();     /* the largest tables */
    test_words();      /* the plain answer as a set of words */
    test_good_words(); /* the unblocked answer as a set of words */
    test_inside();     /* controllers that fit lie inside the unblocked answer */
    test_random();     /* random skids */
    test_damaged();    /* records with a byte changed, cut or lengthened */
    print_counts();
    return failures() != 0;
}
