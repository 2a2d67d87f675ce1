/* Damaged records: what is wrong with them, the reference says from document 01 alone. */
#include "cases.h"
#include "chance.h"
#include "damage.h"
#include "known.h"

static struct skid skid;
static struct outcome wanted[MODES];

static const struct damaged records[] = {{"context", &skid.context}, {"specification", &skid.specification}};

/* How often each reply was wanted in unblocked mode. */
static unsigned long counts[17];

static void damaged_case(const char *name) {
    struct lent lent = {chance(5) ? below(512) : 512 + below(20), chance(5) ? below(8192) : 8192 + below(20)};
    compared_both(name, &skid, lent, wanted);
    counts[wanted[UNBLOCKED].reply.number]++;
}

static void draw(void) { random_skid(&skid.context, &skid.specification, (struct most){3, 3, 3, 3, 3, 3, 0}); }

/* First K1 with two states of each table. */
void test_damaged(void) {
    k1_rings(&skid.context, &skid.specification, 2, 2, 1);
    each_damage(records, 2, damaged_case);
    random_damage(records, 2, 4000, draw, damaged_case);
    if (hopeless()) return;
    begin_case("the test itself", "damaged records");
    for (uint32_t number = 0; number <= 10; number++) wanted_often(counts, number, 20);
    wanted_often(counts, 12, 20);
}
