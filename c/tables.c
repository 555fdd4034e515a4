/*
 * The sample of document 01 through the C functions: plan A, table A, its nine questions as fresh runs, a branch table,
 * and one refusal of each function. What it prints is held to tables.expected.
 */
#include "sample.h"

#include <stdio.h>
#include <string.h>

#define NODES SAMPLE_NODES

/* One element more than the tables need, which no call may touch. */
#define NODE_TABLE_LEN (WHATIF_NODE_TABLE_LEN(NODES) + 1)
#define STATE_TABLE_LEN (WHATIF_STATE_TABLE_LEN(NODES, SAMPLE_STATES) + 1)
#define BRANCH_TABLE_LEN (WHATIF_STATE_TABLE_LEN(NODES, SAMPLE_BRANCH_STATES) + 1)
static uint16_t node_table[NODE_TABLE_LEN];
static uint8_t state_table[BRANCH_TABLE_LEN];
/* What is lent, as each call takes it. */
#define RULES_LENT plan, sizeof plan, rules, sizeof rules, node_table, NODE_TABLE_LEN, state_table, STATE_TABLE_LEN
#define BRANCH_LENT plan, sizeof plan, branch, sizeof branch, node_table, NODE_TABLE_LEN, state_table, BRANCH_TABLE_LEN

static const char *word(uint32_t yes) { return yes ? "yes" : "no"; }

/* Both tables, and whether the number and the byte after them are still the 77 that they held. */
static void print_tables(size_t states) {
    size_t after_nodes = WHATIF_NODE_TABLE_LEN(NODES), after_states = WHATIF_STATE_TABLE_LEN(NODES, states);
    for (size_t v = 0; v < NODES; v++) {
        const uint16_t *n = node_table + 4 * v;
        printf("node %zu: parent %u jump %u depth %u size %u, state", v, n[0], n[1], n[2], n[3]);
        for (size_t i = 0; i <= states; i++)
            printf("%s %u", i == 1 ? ", map" : "", state_table[(states + 1) * v + i]);
        printf("\n");
    }
    printf("excess %s\n", node_table[after_nodes] == 77 && state_table[after_states] == 77 ? "kept" : "WRITTEN");
}

static void clear_tables(void) {
    for (size_t i = 0; i < sizeof node_table / sizeof *node_table; i++)
        node_table[i] = 77;
    memset(state_table, 77, sizeof state_table);
}

static void rule_tables(void) {
    uint32_t yes = 9;
    clear_tables();
    printf("build %u\n", whatif_build(RULES_LENT));
    print_tables(SAMPLE_STATES);
    uint32_t answer = whatif_check(RULES_LENT, &yes);
    printf("check %u %s\n", answer, word(yes));
    state_table[STATE_TABLE_LEN - 2] ^= 1;
    answer = whatif_check(RULES_LENT, &yes);
    printf("check with the last byte changed %u %s\n", answer, word(yes));
}

/* The line of a question without parts, links and nodes passed over. */
static void fresh_run(const struct question *q) {
    uint32_t state = 9, yes = 9;
    uint32_t answer = whatif_fresh_run(plan, sizeof plan, rules, sizeof rules, NODES_OF(q), LABELS_OF(q), &state, &yes);
    if (answer == WHATIF_ACCEPTED)
        printf("%u %s\n", state, word(yes));
    else
        printf("refused %u%s\n", answer, state == 9 && yes == 9 ? "" : ", and TOLD");
}

static void print_answer(const char *from, uint32_t upper, uint32_t lower, uint32_t answer, const uint32_t *out) {
    printf("from %s%u to %u: ", from, upper, lower);
    if (answer == WHATIF_ACCEPTED)
        printf("%u %s %u %u\n", out[0], word(out[1]), out[2], out[3]);
    else
        printf("refused %u%s\n", answer, out[0] == 9 && out[1] == 9 && out[2] == 9 && out[3] == 9 ? "" : ", and TOLD");
}

/* The word with the upper node's label, and the word from below it. */
static void ask(uint32_t upper, uint32_t lower) {
    uint32_t with[4] = {9, 9, 9, 9}, below[4] = {9, 9, 9, 9};
    uint32_t answer = whatif_branch_with_upper(BRANCH_LENT, upper, lower, &with[0], &with[1], &with[2], &with[3]);
    print_answer("", upper, lower, answer, with);
    answer = whatif_branch(BRANCH_LENT, upper, lower, &below[0], &below[1], &below[2], &below[3]);
    print_answer("below ", upper, lower, answer, below);
}

static void branch_tables(void) {
    uint32_t yes = 9;
    clear_tables();
    printf("branch build %u\n", whatif_branch_build(BRANCH_LENT));
    print_tables(SAMPLE_BRANCH_STATES);
    uint32_t answer = whatif_branch_check(BRANCH_LENT, &yes);
    printf("branch check %u %s\n", answer, word(yes));
    ask(6, 3);
    ask(6, 0);
    ask(5, 3);
    ask(3, 3);
    ask(6, 6);
    ask(5, 0);
    ask(6, 65536 + 3);
    node_table[4 * 3 + 1] = 7;
    ask(6, 3);
}

/* One refusal of each function that writes or tells: the buffers and the out value stay. */
static void refusals(void) {
    uint32_t yes = 9;
    clear_tables();
    printf("build %u\n",
           whatif_build(plan, 11, rules, sizeof rules, node_table, NODE_TABLE_LEN, state_table, STATE_TABLE_LEN));
    printf("check %u\n", whatif_check(plan, sizeof plan - 1, rules, sizeof rules, node_table, NODE_TABLE_LEN,
                                      state_table, STATE_TABLE_LEN, &yes));
    printf("branch build %u\n", whatif_branch_build(plan, sizeof plan, branch, sizeof branch, node_table,
                                                    NODE_TABLE_LEN - 2, state_table, BRANCH_TABLE_LEN));
    printf("branch check %u\n", whatif_branch_check(plan, sizeof plan, branch, 15, node_table, NODE_TABLE_LEN,
                                                    state_table, BRANCH_TABLE_LEN, &yes));
    printf("no plan %u\n", whatif_build(NULL, 0, NULL, 0, NULL, 0, NULL, 0));
    int kept = yes == 9;
    for (size_t i = 0; i < sizeof node_table / sizeof *node_table; i++)
        kept = kept && node_table[i] == 77;
    for (size_t i = 0; i < sizeof state_table; i++)
        kept = kept && state_table[i] == 77;
    printf("%s\n", kept ? "all as before" : "CHANGED");
}

int main(void) {
    printf("version %s, archive %s\n", WHATIF_VERSION,
           whatif_version() == WHATIF_VERSION_NUMBER ? "the same" : "ANOTHER");
    printf("bytes of plan %zu, rules %zu, branch table %zu\n", sizeof plan, sizeof rules, sizeof branch);
    printf("by the macros %zu %zu %zu, largest rules %zu\n", WHATIF_PLAN_BYTES(NODES), WHATIF_RULES_BYTES(SAMPLE_STATES, 2),
           WHATIF_BRANCH_BYTES(SAMPLE_BRANCH_STATES, 2), WHATIF_RULES_BYTES(WHATIF_MAX_STATES, WHATIF_MAX_LABELS));
    rule_tables();
    for (size_t i = 0; i < QUESTIONS; i++)
        fresh_run(&questions[i]);
    branch_tables();
    refusals();
    return 0;
}
