/*
 * Two rule tables merged: document 01's table A with one that asks for a label 0 at some leaf. What it prints is held to
 * merge.expected.
 */
#include "sample.h"

#include <stdio.h>
#include <string.h>

/* State 1 where some leaf has label 0; it is marked. */
static const uint8_t second[] = {2, 0,  0, 0, 2, 0, 0, 0, 20, 0, 0, 0, 22, 0, 0, 0,
                                 30, 0, 0, 0, 1, 0, 0, 1, 0,  1, 1, 1, 1,  1, 0, 1};

/* One byte more than the table needs, which no call may touch. */
static uint8_t merged[WHATIF_RULES_BYTES(4, 2) + 1];

static void print_merged(void) {
    const size_t leaf = 20, inner = leaf + 2, marks = inner + 4 * 2 * 4;
    printf("S %u, K %u\nleaf", merged[0], merged[4]);
    for (size_t i = leaf; i < inner; i++)
        printf(" %u", merged[i]);
    for (size_t i = inner; i < marks; i++)
        printf("%s %u", (i - inner) % 8 == 0 ? "\ninner" : (i - inner) % 4 == 0 ? "," : "", merged[i]);
    printf("\nmarks");
    for (size_t i = marks; i < marks + 4; i++)
        printf(" %u", merged[i]);
    printf("\nexcess %s\n", merged[sizeof merged - 1] == 77 ? "kept" : "WRITTEN");
}

/* A run of both tables and of the merged one with a question's changes. */
static void print_runs(const struct question *q) {
    uint32_t a[2], b[2], both[2];
    const uint8_t *tables[] = {rules, second, merged};
    const size_t lens[] = {sizeof rules, sizeof second, WHATIF_RULES_BYTES(4, 2)};
    uint32_t *out[] = {a, b, both};
    for (size_t i = 0; i < 3; i++) {
        uint32_t answer = whatif_fresh_run(plan, sizeof plan, tables[i], lens[i], NODES_OF(q), LABELS_OF(q), &out[i][0],
                                           &out[i][1]);
        if (answer != WHATIF_ACCEPTED) {
            printf("refused %u\n", answer);
            return;
        }
    }
    printf("states %u and %u: %u, %s\n", a[0], b[0], both[0], both[1] ? "yes" : "no");
}

static void print_refusal(uint32_t answer) { printf("%u: %s\n", answer, whatif_answer_text(answer)); }

int main(void) {
    uint8_t other[sizeof rules];
    memset(merged, 77, sizeof merged);
    print_refusal(whatif_merge(rules, sizeof rules, second, sizeof second, merged, sizeof merged - 2));
    if (merged[0] != 77 || whatif_merge(rules, sizeof rules, second, sizeof second, merged, sizeof merged) != 0)
        return 1;
    print_merged();
    for (size_t i = 0; i < 6; i++)
        print_runs(&questions[i]);
    print_refusal(whatif_merge(rules, 19, second, sizeof second, NULL, 0));
    memcpy(other, rules, sizeof other);
    other[22] = 2;
    print_refusal(whatif_merge(rules, sizeof rules, other, sizeof other, NULL, 0));
    return 0;
}
