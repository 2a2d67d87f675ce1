/* Runs the fit check from C. What is expected was written by hand from document 01, or comes from the reference. */
#include "cases.h"

int main(void) {
    test_known();      /* the skids of document 01 */
    test_counts();     /* 8, 9 and 10: every pair of counts */
    test_order();      /* which refusal is given where several would fit */
    test_incomplete(); /* 14: which states are asked */
    test_reached();    /* 0, 15 and 16: what is reached, and what is written */
    test_rings();      /* tables that go round: sets that a formula tells, and the longest way to a triple */
    test_limits();     /* the largest tables */
    test_random();     /* random skids and controllers */
    test_damaged();    /* records with a byte changed, cut or lengthened */
    print_counts();
    return failures() != 0;
}
