/*
 * One list of changes laid over another. What it prints is held to lists.expected.
 */
#include "whatif.h"

#include <stdio.h>

/* One more than the longest list, which no call may touch. */
static uint16_t nodes[WHATIF_MAX_CHANGES + 1];
static uint8_t labels[WHATIF_MAX_CHANGES + 1];

struct list {
    const uint16_t *nodes;
    const uint8_t *labels;
    size_t len;
};

static void lay(struct list lower, struct list upper, size_t room) {
    uint32_t count = 77;
    for (size_t i = 0; i <= WHATIF_MAX_CHANGES; i++) {
        nodes[i] = 7777;
        labels[i] = 77;
    }
    uint32_t answer = whatif_lay_over(lower.nodes, lower.len, lower.labels, lower.len, upper.nodes, upper.len,
                                      upper.labels, upper.len, nodes, room, labels, room, &count);
    if (answer != WHATIF_ACCEPTED) {
        printf("%u: %s count %s, nodes %s\n", answer, whatif_answer_text(answer), count == 77 ? "kept" : "WRITTEN",
               nodes[0] == 7777 && labels[0] == 77 ? "kept" : "WRITTEN");
        return;
    }
    printf("%u:", count);
    for (uint32_t i = 0; i < count && i < 4; i++)
        printf(" %u->%u", nodes[i], labels[i]);
    printf("%s, excess %s\n", count > 4 ? " .." : "", nodes[count] == 7777 && labels[count] == 77 ? "kept" : "WRITTEN");
}

int main(void) {
    const uint16_t low_nodes[] = {5, 2, 5}, high_nodes[] = {9, 2, 9};
    const uint8_t low_labels[] = {1, 2, 3}, high_labels[] = {4, 6, 5};
    uint16_t many[129];
    uint8_t same[129];
    for (size_t i = 0; i < 129; i++) {
        many[i] = (uint16_t)(511 * i);
        same[i] = (uint8_t)i;
    }
    const struct list none = {many, same, 0}, low = {low_nodes, low_labels, 3}, high = {high_nodes, high_labels, 3};
    const struct list first = {many, same, 64}, second = {many + 64, same + 64, 64}, long_one = {many, same, 65};
    lay(low, high, WHATIF_MAX_CHANGES);
    lay(high, low, WHATIF_MAX_CHANGES);
    lay(none, low, WHATIF_MAX_CHANGES);
    lay(low, low, 2);
    lay(low, high, 2);
    lay(none, none, 0);
    lay(first, first, WHATIF_MAX_CHANGES);
    lay(first, second, 0);
    lay(long_one, second, 0);
    lay(first, long_one, 0);
    return 0;
}
