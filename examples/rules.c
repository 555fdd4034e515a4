/*
 * Two rule tables: the practice's and the blank maker's merged into one that clears what both clear. Then whether an
 * edited table still agrees with the old one, and a plan on which they differ. At last one list laid over another.
 * Build it with: cc examples/rules.c $(PKG_CONFIG_PATH=build pkg-config --cflags --libs whatif), after tools/archive.
 */
#include "whatif.h"

#include <stdio.h>
#include <string.h>

enum { STATES = 2, LABELS = 2 };

/* Label 0 takes the greater state of two children, label 1 the lesser; state 1 clears the plan. */
static const uint8_t leaf[LABELS] = {0, 1}, marks[STATES] = {0, 1};
static const uint8_t practice_inner[STATES][LABELS][STATES] = {{{0, 1}, {0, 0}}, {{1, 1}, {0, 1}}};
/* Cleared where the number of labels 1 is odd. */
static const uint8_t maker_inner[STATES][LABELS][STATES] = {{{0, 1}, {1, 0}}, {{1, 0}, {0, 1}}};

static uint8_t practice[WHATIF_RULES_BYTES(STATES, LABELS)], maker[sizeof practice], edited[sizeof practice];
static uint8_t merged[WHATIF_RULES_BYTES(STATES * STATES, LABELS)];

static int accepted(uint32_t answer) {
    if (answer != WHATIF_ACCEPTED)
        printf("refused %u: %s\n", answer, whatif_answer_text(answer));
    return answer == WHATIF_ACCEPTED;
}

static uint32_t write_rules(const uint8_t *inner, uint8_t *rules) {
    return whatif_write_rules(leaf, LABELS, inner, STATES * LABELS * STATES, marks, STATES, rules, sizeof practice);
}

/* Agreement, or the lines of a plan on which they differ. */
static int compare(const char *what, const uint8_t *first, const uint8_t *second) {
    static uint16_t lines[4 * WHATIF_MAX_LINES];
    struct whatif_told told = {0};
    if (!accepted(whatif_agree_told(first, sizeof practice, second, sizeof practice, lines,
                                    sizeof lines / sizeof *lines, &told)))
        return 0;
    printf("%s: %s\n", what,
           told.yes ? "they agree on every plan" : "they differ on this plan, the last line its root");
    for (uint32_t i = 0; i < told.lines; i++)
        if (lines[4 * i] == 0)
            printf("  line %u: leaf, label %u\n", i, lines[4 * i + 1]);
        else
            printf("  line %u: label %u over lines %u and %u\n", i, lines[4 * i + 1], lines[4 * i + 2],
                   lines[4 * i + 3]);
    return 1;
}

/* A technician taps again: the later list holds where both name a node. */
static int lay_over(void) {
    static const uint16_t lower[] = {5, 1}, upper[] = {1, 9};
    static const uint8_t lower_labels[] = {0, 0}, upper_labels[] = {1, 0};
    uint16_t nodes[WHATIF_MAX_CHANGES];
    uint8_t labels[WHATIF_MAX_CHANGES];
    uint32_t count;
    if (!accepted(whatif_lay_over(lower, 2, lower_labels, 2, upper, 2, upper_labels, 2, nodes, WHATIF_MAX_CHANGES,
                                  labels, WHATIF_MAX_CHANGES, &count)))
        return 0;
    printf("laid over:");
    for (uint32_t i = 0; i < count; i++)
        printf(" %u->%u", nodes[i], labels[i]);
    printf("\n");
    return 1;
}

int main(void) {
    if (whatif_version() != WHATIF_VERSION_NUMBER)
        return fprintf(stderr, "header %s, archive %u\n", WHATIF_VERSION, whatif_version()), 1;
    if (!accepted(write_rules(&practice_inner[0][0][0], practice)) ||
        !accepted(write_rules(&maker_inner[0][0][0], maker)) ||
        !accepted(whatif_merge(practice, sizeof practice, maker, sizeof maker, merged, sizeof merged)))
        return 1;
    printf("merged: %u states, %u labels\n", whatif_rules_states(merged, sizeof merged),
           whatif_rules_labels(merged, sizeof merged));
    memcpy(edited, practice, sizeof practice);
    edited[20 + LABELS + 1] = 0; /* left state 0, label 0, right state 1: now 0 */
    return compare("practice and itself", practice, practice) && compare("practice and its edit", practice, edited) &&
                   lay_over()
               ? 0
               : 1;
}
