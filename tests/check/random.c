/* Random skids and controllers, small ones and large ones: reply and all lent numbers as the reference has them. */
#include "cases.h"

#include <stdio.h>

/* How often each reply was wanted. */
static unsigned long counts[17];

static void random_cases(const char *size, struct most most, unsigned first, unsigned cases) {
    static struct input in;
    char name[100];
    for (unsigned k = first; k < first + cases && !hopeless(); k++) {
        seed(k);
        random_input(&in, most);
        snprintf(name, sizeof name, "random skid %u, %s", k, size);
        counts[compared_case(name, &in, chance(5) ? below(512) : 512 + below(100))]++;
    }
}

void test_random(void) {
    static const uint32_t common[] = {0, 14, 15, 16}, others[] = {8, 9, 10};
    random_cases("small", (struct most){3, 3, 3, 3, 4, 4, 5}, 0, 6000);
    if (hopeless()) return;
    begin_case("the test itself", "random small skids");
    for (size_t k = 0; k < 4; k++) wanted_often(counts, common[k], 100);
    for (size_t k = 0; k < 3; k++) wanted_often(counts, others[k], 50);
    random_cases("large", (struct most){8, 8, 4, 4, 64, 64, 512}, 10000, 60);
}
