/*
 * Questions by colours, over sets of states: the colour tables of the sample, its questions beside the fresh run's, refusals.
 * Every buffer ends at a page that must not be touched, or begins behind one. What it prints is held to
 * colour_sets.expected.
 */
#define _DEFAULT_SOURCE
#include "guarded.h"
#include "sample.h"

#include <stdio.h>
#include <stdlib.h>
#include <string.h>

#define N ((size_t)SAMPLE_NODES)
#define S ((size_t)SAMPLE_STATES)
#define SETS ((size_t)1 << S)
#define EXCESS ((size_t)2)

/* Everything that is lent but the list, each with its count. */
static struct {
    uint8_t *plan, *rules;
    size_t plan_len, rules_len;
    uint16_t *node_table;
    size_t node_table_len;
    uint8_t *state_table;
    size_t state_table_len;
    uint16_t *numbers;
    size_t numbers_len;
    uint8_t *bytes;
    size_t bytes_len;
} lent;

#define PLAN_AND_RULES lent.plan, lent.plan_len, lent.rules, lent.rules_len
#define TABLES lent.node_table, lent.node_table_len, lent.state_table, lent.state_table_len

static void lend(int behind, size_t excess) {
    lent.plan = copied(plan, sizeof plan, behind), lent.plan_len = sizeof plan;
    lent.rules = copied(rules, sizeof rules, behind), lent.rules_len = sizeof rules;
    lent.node_table_len = WHATIF_NODE_TABLE_LEN(N), lent.node_table = guarded(2 * lent.node_table_len, behind);
    lent.state_table_len = WHATIF_STATE_TABLE_LEN(N, S), lent.state_table = guarded(lent.state_table_len, behind);
    lent.numbers_len = WHATIF_COLOUR_NUMBERS(N, S) + excess, lent.numbers = guarded(2 * lent.numbers_len, behind);
    lent.bytes_len = WHATIF_COLOUR_BYTES(N, S) + excess, lent.bytes = guarded(lent.bytes_len, behind);
}

static uint32_t build(void) {
    return whatif_colour_build(PLAN_AND_RULES, lent.numbers, lent.numbers_len, lent.bytes, lent.bytes_len);
}

static void print_tables(void) {
    const uint8_t *copies = lent.bytes + lent.state_table_len;
    for (size_t v = 0; v < N; v++) {
        printf("node %zu: sets", v);
        for (size_t c = 0; c < SETS; c++)
            printf(" %u", copies[v * SETS + c]);
        for (size_t c = 1; c < SETS; c++) {
            const uint16_t *row = lent.numbers + (c * N + v) * 4;
            printf("; colour %zu: %u %u %u %u", c, row[0], row[1], row[2], row[3]);
        }
        printf("\n");
    }
}

/* Of a refusal the out values stay. */
static void ask_list(const uint16_t *nodes, size_t nodes_len, const uint8_t *labels, size_t labels_len) {
    uint32_t out[5] = {99, 99, 99, 99, 99};
    uint32_t answer = whatif_colour_ask(PLAN_AND_RULES, TABLES, lent.numbers, lent.numbers_len, lent.bytes,
                                        lent.bytes_len, nodes, nodes_len, labels, labels_len, &out[0], &out[1], &out[2],
                                        &out[3], &out[4]);
    if (answer != WHATIF_ACCEPTED) {
        int kept = 1;
        for (size_t i = 0; i < 5; i++)
            kept &= out[i] == 99;
        printf("refused %u%s\n", answer, kept ? "" : ", TOLD");
        return;
    }
    printf("%u %s, drops %u, links %u, parts %u\n", out[0], out[1] ? "yes" : "no", out[2], out[3], out[4]);
    uint32_t state, yes;
    if (whatif_fresh_run(PLAN_AND_RULES, nodes, nodes_len, labels, labels_len, &state, &yes) || state != out[0] ||
        yes != out[1])
        printf("NOT the fresh run's\n");
}

static void ask(const struct question *q, int behind) {
    ask_list(copied(q->nodes, 2 * q->m, behind), q->m, copied(q->labels, q->m, behind), q->m);
}

static void on_tables(int behind, size_t excess) {
    lend(behind, excess);
    if (whatif_build(PLAN_AND_RULES, TABLES))
        exit(2);
    printf("build %u\n", build());
    print_tables();
    int kept = 1;
    for (size_t i = 0; i < excess; i++)
        kept &= lent.numbers[lent.numbers_len - 1 - i] == 77 * 257 && lent.bytes[lent.bytes_len - 1 - i] == 77;
    printf("excess %s, node table %s, state table %s\n", kept ? "kept" : "WRITTEN",
           memcmp(lent.numbers, lent.node_table, 2 * lent.node_table_len) ? "ANOTHER" : "the same",
           memcmp(lent.bytes, lent.state_table, lent.state_table_len) ? "ANOTHER" : "the same");
    for (size_t i = 0; i < QUESTIONS; i++)
        ask(&questions[i], behind);
    ask_list(NULL, 0, NULL, 0);
    /* on the way from node 5 to node 3 a colour falls */
    ask(&(const struct question){1, {3}, {1}}, behind);
    /* lists of two lengths; a set that no colour has; a short table */
    ask_list(questions[2].nodes, 2, questions[2].labels, 1);
    memset(lent.bytes + lent.state_table_len, 0, N * SETS), ask(&questions[1], behind);
    lent.bytes_len = WHATIF_COLOUR_BYTES(N, S) - 1, ask(&questions[1], behind);
}

/* A rule table of five states for the sample's plan: no length is asked of the colour tables, then 27. */
static void many_states(void) {
    static uint8_t five[WHATIF_RULES_BYTES(5, 2)] = {5, 0, 0, 0, 2, 0, 0, 0, 20, 0, 0, 0, 22, 0, 0, 0, 72};
    static uint8_t states[WHATIF_STATE_TABLE_LEN(SAMPLE_NODES, 5)];
    lend(0, 0);
    lent.rules = five, lent.rules_len = sizeof five;
    lent.state_table = states, lent.state_table_len = sizeof states;
    if (whatif_build(PLAN_AND_RULES, TABLES))
        exit(2);
    printf("five states: build %u, ", build());
    lent.numbers_len = lent.bytes_len = 0, ask_list(questions[1].nodes, 1, questions[1].labels, 1);
}

static void refusals(void) {
    lend(0, 0);
    lent.plan_len = 11, printf("no header: %u\n", build()), lent.plan_len = sizeof plan;
    lent.plan[12] = 2, printf("a label that is none: %u\n", build()), lent.plan[12] = 1;
    lent.numbers += 1, lent.numbers_len -= 1, printf("numbers short by one: %u\n", build());
    lent.numbers -= 1, lent.numbers_len += 1;
    lent.bytes += 1, lent.bytes_len -= 1, printf("bytes short by one: %u\n", build());
    int kept = 1;
    for (size_t i = 0; i < lent.numbers_len; i++)
        kept &= lent.numbers[i] == 77 * 257;
    for (size_t i = 0; i < lent.bytes_len; i++)
        kept &= lent.bytes[i] == 77;
    printf("%s\n", kept ? "all as before" : "CHANGED");
}

int main(void) {
    printf("4 states, 65,535 nodes: %zu numbers, %zu bytes\n", WHATIF_COLOUR_NUMBERS(65535, 4),
           WHATIF_COLOUR_BYTES(65535, 4));
    on_tables(0, 0);
    on_tables(1, EXCESS);
    many_states();
    refusals();
    return 0;
}
