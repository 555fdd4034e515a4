/* What a test is sure of. What does not hold is printed and makes the test fail; after twenty it ends at once. */
#ifndef SURE_H
#define SURE_H

#include <stdio.h>
#include <stdlib.h>

/* Where in its table of cases the test is, for what it prints. */
static size_t sure_case;
static int sure_failed;

static inline int sure(int holds, const char *what) {
    if (holds)
        return 1;
    printf("NOT so: %s (case %zu)\n", what, sure_case);
    if (++sure_failed == 20)
        exit(1);
    return 0;
}

#endif
