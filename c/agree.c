/*
 * Do two rule tables agree? Document 01's table A with itself, with its states renamed, and after an edit, with the plan that
 * separates them. What it prints is held to agree.expected.
 */
#include "sample.h"

#include <stdio.h>
#include <string.h>

/* Table A with its states exchanged. */
static const uint8_t renamed[] = {2, 0,  0, 0, 2, 0, 0, 0, 20, 0, 0, 0, 22, 0, 0, 0,
                                  30, 0, 0, 0, 1, 0, 0, 0, 0,  1, 0, 1, 1,  1, 1, 0};

static uint16_t lines[4 * WHATIF_MAX_LINES];

static void print_agreement(const char *what, const uint8_t *second, size_t second_len, size_t room) {
    uint32_t agree = 9, count = 9;
    uint32_t answer = whatif_agree(rules, sizeof rules, second, second_len, lines, room, &agree, &count);
    if (answer != WHATIF_ACCEPTED) {
        printf("%s: %u: %s%s\n", what, answer, whatif_answer_text(answer), agree == 9 && count == 9 ? "" : " TOLD");
        return;
    }
    printf("%s: %s\n", what, agree ? "agree" : "separated by");
    for (const uint16_t *line = lines; line < lines + 4 * count; line += 4)
        if (line[0] == 0)
            printf("  line %td: leaf %u\n", (line - lines) / 4, line[1]);
        else
            printf("  line %td: inner %u over %u and %u\n", (line - lines) / 4, line[1], line[2], line[3]);
}

int main(void) {
    uint8_t edited[sizeof rules];
    print_agreement("with itself", rules, sizeof rules, 0);
    print_agreement("states renamed", renamed, sizeof renamed, 0);
    memcpy(edited, rules, sizeof edited);
    edited[21] = 0; /* a leaf with label 1 in state 0 */
    print_agreement("another leaf state", edited, sizeof edited, 4 * WHATIF_MAX_LINES);
    memcpy(edited, rules, sizeof edited);
    edited[29] = 0; /* label 1 over two states 1 */
    print_agreement("another inner state", edited, sizeof edited, 4 * WHATIF_MAX_LINES);
    print_agreement("no room for the lines", edited, sizeof edited, 11);
    print_agreement("a table cut short", rules, 19, 0);
    return 0;
}
