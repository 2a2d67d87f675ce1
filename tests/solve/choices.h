/* Random skids that leave a controller a choice: where one reply leads to a dead end, another often does not. */
#ifndef CHOICES_H
#define CHOICES_H

#include "chance.h"
#include "reference.h"

/* Two legal records that belong together; counts up to these. Mostly there is a row for each state, i and v. Some states lack an i, and some rows
 * have the last o, which most specification states do not take. */
void choice_skid(struct skid *skid, struct most most);

#endif
