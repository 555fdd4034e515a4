/* The forms that end in _told beside the plain calls. */
#ifndef FUZZ_TOLD_H
#define FUZZ_TOLD_H

#include "lent.h"
#include "whatif.h"

#include <string.h>

static inline struct whatif_told nothing_told(void) {
    struct whatif_told told;
    memset(&told, 0x77, sizeof told);
    return told;
}

/* The same answer; accepted, the plain call's values and zeros; refused, nothing is written. */
static inline void as_told(uint32_t answer, struct whatif_told plain, uint32_t told_answer,
                           const struct whatif_told *told) {
    struct whatif_told nothing = nothing_told();
    sure(answer == told_answer, "the told form answers as the plain call");
    sure(memcmp(told, answer == WHATIF_ACCEPTED ? &plain : &nothing, sizeof *told) == 0,
         "the told form has the plain call's values, and writes nothing where it is refused");
}

#endif
