/*
 * How many choices of labels end in each state, of the sample and of a comb with many labels. Every buffer ends at a
 * page that must not be touched, or begins behind one. What it prints is held to count.expected.
 */
#define _DEFAULT_SOURCE
#include "guarded.h"
#include "sample.h"

#include <stdio.h>
#include <stdlib.h>
#include <string.h>

#define UNSET 0x7777777777777777u

/* Plan, rules and the tables of whatif_build. */
struct built {
    size_t n, s, k;
    uint8_t *plan, *rules;
    uint16_t *node_table;
    uint8_t *state_table;
};

static struct built build(const uint8_t *plan_bytes, const uint8_t *rule_bytes, size_t n, size_t s, size_t k,
                          int behind) {
    static uint16_t node_table[WHATIF_NODE_TABLE_LEN(39)];
    static uint8_t state_table[WHATIF_STATE_TABLE_LEN(39, 2)];
    if (whatif_build(plan_bytes, WHATIF_PLAN_BYTES(n), rule_bytes, WHATIF_RULES_BYTES(s, k), node_table,
                     WHATIF_NODE_TABLE_LEN(n), state_table, WHATIF_STATE_TABLE_LEN(n, s)))
        exit(2);
    struct built b = {n, s, k, copied(plan_bytes, WHATIF_PLAN_BYTES(n), behind),
                      copied(rule_bytes, WHATIF_RULES_BYTES(s, k), behind),
                      copied(node_table, 2 * WHATIF_NODE_TABLE_LEN(n), behind),
                      copied(state_table, WHATIF_STATE_TABLE_LEN(n, s), behind)};
    return b;
}

/* The nodes may be NULL where there is none. */
static void count(const struct built *b, const uint16_t *list, size_t m, size_t room, int behind) {
    uint64_t unset[4] = {UNSET, UNSET, UNSET, UNSET};
    uint16_t *nodes = m ? copied(list, 2 * m, behind) : NULL;
    uint64_t *counts = copied(unset, 8 * room, behind);
    uint32_t parts = 77, links = 77;
    uint32_t answer = whatif_count(b->plan, WHATIF_PLAN_BYTES(b->n), b->rules, WHATIF_RULES_BYTES(b->s, b->k),
                                   b->node_table, WHATIF_NODE_TABLE_LEN(b->n), b->state_table,
                                   WHATIF_STATE_TABLE_LEN(b->n, b->s), nodes, m, counts, room, &parts, &links);
    if (answer != WHATIF_ACCEPTED) {
        int kept = parts == 77 && links == 77;
        for (size_t i = 0; i < room; i++)
            kept &= counts[i] == UNSET;
        printf("%u: %s %s\n", answer, whatif_answer_text(answer), kept ? "kept" : "WRITTEN");
        return;
    }
    printf("%zu open:", m);
    for (size_t i = 0; i < b->s; i++)
        printf(" %llu", (unsigned long long)counts[i]);
    int kept = 1;
    for (size_t i = b->s; i < room; i++)
        kept &= counts[i] == UNSET;
    printf(", parts %u, links %u, excess %s\n", parts, links, kept ? "kept" : "WRITTEN");
}

/* A comb of 20 leaves, with a rule table of two states: state 1 where a label is 1, or a child is in state 1. */
static uint8_t comb[WHATIF_PLAN_BYTES(39)] = {39, 0, 0, 0, 12, 0, 0, 0, 12 + 39};
static uint8_t any_one[WHATIF_RULES_BYTES(2, WHATIF_MAX_LABELS)];

static void fill(size_t k) {
    size_t inner = 20 + k, marks = inner + 4 * k;
    const size_t header[] = {2, k, 20, inner, marks};
    memset(any_one, 0, sizeof any_one);
    for (size_t i = 0; i < 5; i++)
        any_one[4 * i] = (uint8_t)header[i], any_one[4 * i + 1] = (uint8_t)(header[i] / 256);
    for (size_t p = 0; p < 2; p++)
        for (size_t a = 0; a < k; a++)
            for (size_t q = 0; q < 2; q++)
                any_one[inner + (p * k + a) * 2 + q] = a == 1 || p == 1 || q == 1;
    if (k > 1)
        any_one[21] = 1;
    any_one[marks + 1] = 1;
    for (size_t v = 0; v < 39; v++)
        comb[12 + 39 + v] = v > 0 && v % 2 == 0;
}

int main(void) {
    const uint16_t all[] = {0, 1, 2, 3, 4, 5, 6}, two[] = {0, 2}, twice[] = {4, 0, 4}, none_there[] = {0, 7, 0};
    uint16_t many[65];
    for (uint16_t v = 0; v < 65; v++)
        many[v] = v;
    for (int behind = 0; behind < 2; behind++) {
        struct built a = build(plan, rules, SAMPLE_NODES, SAMPLE_STATES, 2, behind);
        count(&a, NULL, 0, 2, behind);
        count(&a, two, 1, 2, behind);
        count(&a, two, 2, 3, behind);
        count(&a, all, 7, 4, behind);
        count(&a, two, 2, 1, behind);
        count(&a, NULL, 0, 0, behind);
        count(&a, many, 65, 0, behind);
        count(&a, none_there, 3, 0, behind);
        count(&a, twice, 3, 0, behind);
        /* a leaf state that is none: 18 before 11; a header that names another N: 17 before all others */
        a.rules[20] = 2;
        count(&a, two, 2, 0, behind);
        a.rules[20] = 0;
        a.plan[0] = 9;
        count(&a, many, 65, 0, behind);
    }
    /* ten labels: 18 nodes have 10 to the power 18 choices, 19 too many; 64 labels: 9, 10; one label: all 39 nodes */
    const size_t labels[] = {10, 64, 1}, most[] = {18, 9, 39};
    for (size_t i = 0; i < 3; i++) {
        fill(labels[i]);
        struct built b = build(comb, any_one, 39, 2, labels[i], 0);
        count(&b, many, most[i], 2, 0);
        if (i < 2)
            count(&b, many, most[i] + 1, 2, 0);
    }
    return 0;
}
