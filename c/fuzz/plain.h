/* A full check that calls nothing of the library: what a Start's 18 is judged by. */
#ifndef FUZZ_PLAIN_H
#define FUZZ_PLAIN_H

#include "lent.h"

/* Plan and rules pass the checks 2 to 10, and the two tables, their excess aside, are those of the definitions. */
int plainly_built(const struct lent *plan, const struct lent *rules, const struct lent *nodes,
                  const struct lent *states);

#endif
