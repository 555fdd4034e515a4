/*
 * Wrong uses of the header that do not compile: CASE says which one this is; without one, 0, the file compiles. c/compile
 * tries each by gcc and by clang, with warnings as errors.
 */
#include "whatif.h"

#ifndef CASE
#define CASE 0
#endif

uint32_t use(uint8_t *record, const struct whatif_buffers *buffers, const uint16_t *nodes, const uint8_t *labels);

uint32_t use(uint8_t *record, const struct whatif_buffers *buffers, const uint16_t *nodes, const uint8_t *labels) {
    struct whatif_lent lent;
    struct whatif_told told = {0};
    uint32_t parts = 0, refused = whatif_load_lent(record, WHATIF_RECORD_BYTES, buffers, &lent);
    struct whatif_confirmed confirmed = whatif_confirm(record, WHATIF_RECORD_BYTES, &lent, nodes, labels, 1);
#if CASE == 1 /* the confirmation taken for a yes: 0 and 1 would both be wrong for someone */
    if (whatif_confirm(record, WHATIF_RECORD_BYTES, &lent, nodes, labels, 1))
        parts = 1;
#elif CASE == 2 /* the confirmation taken for an answer */
    refused |= whatif_confirm(record, WHATIF_RECORD_BYTES, &lent, nodes, labels, 1) == WHATIF_ACCEPTED;
#elif CASE == 3 /* the answer of a Start not looked at */
    whatif_start_lent(record, WHATIF_RECORD_BYTES, &lent, nodes, labels, 1, &parts);
#elif CASE == 4 /* Start without what Load filled */
    refused |= whatif_start_lent(record, WHATIF_RECORD_BYTES, buffers, nodes, labels, 1, &parts);
#elif CASE == 5 /* Load into what is only read */
    refused |= whatif_load_lent(record, WHATIF_RECORD_BYTES, &lent, &lent);
#elif CASE == 6 /* an output in the place of all */
    refused |= whatif_read_current(record, WHATIF_RECORD_BYTES, &parts);
#elif CASE == 7 /* a table altered between Start and an advance, through what is passed in */
    lent.state_table[0] = 1;
#elif CASE == 8 /* a confirmation without the list that will be cut */
    confirmed = whatif_confirm(record, WHATIF_RECORD_BYTES, &lent, nodes, labels);
#elif CASE == 9 /* nodes and labels exchanged */
    confirmed = whatif_confirm(record, WHATIF_RECORD_BYTES, &lent, labels, nodes, 1);
#endif
    refused |= whatif_read_current(record, WHATIF_RECORD_BYTES, &told);
    return refused + parts + confirmed.cut + told.yes;
}
