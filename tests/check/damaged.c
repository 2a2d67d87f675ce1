/* Damaged records. What is wrong with a single record is asked of the entries that read, as the reference does. */
#include "cases.h"
#include "damage.h"

static struct input in;

static const struct damaged records[] = {{"context", &in.context}, {"specification", &in.specification}, {"controller", &in.controller}};

/* How often each reply was wanted. */
static unsigned long counts[17];

static void damaged_case(const char *name) { counts[compared_case(name, &in, chance(10) ? below(512) : 512 + below(20))]++; }

static void draw(void) { random_input(&in, (struct most){3, 3, 3, 3, 3, 3, 4}); }

/* First a controller that fits: K1 with two states of each table. */
void test_damaged(void) {
    k1_rings_answered(&in, 2, 2, 2, 1);
    each_damage(records, 3, damaged_case);
    random_damage(records, 3, 4000, draw, damaged_case);
    if (hopeless()) return;
    begin_case("the test itself", "damaged records");
    for (uint32_t number = 0; number <= 16; number++)
        if (number < 11 || number > 13) wanted_often(counts, number, 20);
}
