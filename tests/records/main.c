/* Runs the panel's entries from C. What is expected was written by hand from document 01. */
#include "cases.h"

int main(void) {
    /* records in bytes: every refusal of each kind in each of its ways */
    test_contexts();
    test_specifications();
    test_controllers();
    test_large();   /* records at their limits and over them */
    test_tables();  /* next tables of controllers, written out and built */
    test_writing(); /* writing of controllers, and both round trips */
    print_counts();
    return failures() != 0;
}
