/*
 * Branch questions by colours: the colour tables of the sample, questions in both readings beside the climb's, refusals.
 * Every buffer ends at a page that must not be touched, or begins behind one. What it prints is held to colours.expected.
 */
#define _DEFAULT_SOURCE
#include "guarded.h"
#include "sample.h"

#include <stdio.h>
#include <stdlib.h>
#include <string.h>

#define N ((size_t)SAMPLE_NODES)
#define S ((size_t)SAMPLE_BRANCH_STATES)
#define EXCESS ((size_t)2)

/* Everything that is lent, each with its count. */
static struct {
    const uint8_t *plan, *branch;
    size_t plan_len, branch_len;
    uint16_t *node_table;
    size_t node_table_len;
    uint8_t *state_table;
    uint16_t *numbers;
    size_t numbers_len;
    uint8_t *bytes;
    size_t bytes_len;
} lent;

#define PLAN_AND_BRANCH lent.plan, lent.plan_len, lent.branch, lent.branch_len

static void lend(int behind, size_t excess) {
    lent.plan = copied(plan, sizeof plan, behind), lent.plan_len = sizeof plan;
    lent.branch = copied(branch, sizeof branch, behind), lent.branch_len = sizeof branch;
    lent.node_table_len = WHATIF_NODE_TABLE_LEN(N), lent.node_table = guarded(2 * lent.node_table_len, behind);
    lent.state_table = guarded(WHATIF_STATE_TABLE_LEN(N, S), behind);
    lent.numbers_len = WHATIF_COLOUR_BRANCH_NUMBERS(N, S) + excess, lent.numbers = guarded(2 * lent.numbers_len, behind);
    lent.bytes_len = WHATIF_COLOUR_BRANCH_BYTES(N, S) + excess, lent.bytes = guarded(lent.bytes_len, behind);
}

static uint32_t build(void) {
    return whatif_colour_branch_build(PLAN_AND_BRANCH, lent.numbers, lent.numbers_len, lent.bytes, lent.bytes_len);
}

static void print_tables(void) {
    for (size_t v = 0; v < N; v++) {
        printf("node %zu: states", v);
        for (size_t c = 0; c < S; c++)
            printf(" %u", lent.bytes[v * S + c]);
        for (size_t c = 1; c < S; c++) {
            const uint16_t *row = lent.numbers + (c * N + v) * 4;
            printf("; colour %zu: parent %u jump %u depth %u lands %u", c, row[0], row[1], row[2], row[3]);
        }
        printf("\n");
    }
}

/* Of a refusal the out values stay. */
static void ask(uint32_t upper, uint32_t lower) {
    for (int with_upper = 1; with_upper >= 0; with_upper--) {
        uint32_t state = 99, yes = 99, drops = 99, links = 99;
        uint32_t answer = (with_upper ? whatif_colour_branch_with_upper : whatif_colour_branch)(
            PLAN_AND_BRANCH, lent.node_table, lent.node_table_len, lent.numbers, lent.numbers_len, lent.bytes,
            lent.bytes_len, upper, lower, &state, &yes, &drops, &links);
        printf("from%s %u to %u: ", with_upper ? "" : " below", upper, lower);
        if (answer == WHATIF_ACCEPTED)
            printf("%u %s, drops %u, links %u\n", state, yes ? "yes" : "no", drops, links);
        else
            printf("refused %u%s\n", answer, state == 99 && yes == 99 && drops == 99 && links == 99 ? "" : ", TOLD");
        if (answer != WHATIF_ACCEPTED)
            continue;
        uint32_t climb[4];
        if ((with_upper ? whatif_branch_with_upper : whatif_branch)(
                PLAN_AND_BRANCH, lent.node_table, lent.node_table_len, lent.state_table, WHATIF_STATE_TABLE_LEN(N, S),
                upper, lower, climb, climb + 1, climb + 2, climb + 3) ||
            climb[0] != state || climb[1] != yes)
            printf("NOT the climb's\n");
    }
}

static void on_tables(int behind, size_t excess) {
    lend(behind, excess);
    if (whatif_branch_build(PLAN_AND_BRANCH, lent.node_table, lent.node_table_len, lent.state_table,
                            WHATIF_STATE_TABLE_LEN(N, S)))
        exit(2);
    printf("build %u\n", build());
    print_tables();
    int kept = 1;
    for (size_t i = 0; i < excess; i++)
        kept &= lent.numbers[lent.numbers_len - 1 - i] == 77 * 257 && lent.bytes[lent.bytes_len - 1 - i] == 77;
    printf("excess %s, node table %s\n", kept ? "kept" : "WRITTEN",
           memcmp(lent.numbers, lent.node_table, 2 * lent.node_table_len) ? "ANOTHER" : "the same");
    ask(6, 3), ask(6, 0), ask(5, 3), ask(3, 3), ask(6, 6), ask(5, 0), ask(6, 65539);
    /* a state that is none; a parent that leads outside is read by one of the readings alone; a short table */
    memset(lent.bytes + 3 * S, 3, S), ask(6, 3);
    lent.node_table[4 * 5] = 7, ask(5, 5);
    lent.bytes_len = WHATIF_COLOUR_BRANCH_BYTES(N, S) - 1, ask(6, 6);
}

/* Refused, nothing is written: what is lent is shorter than it says nowhere. */
static void refusals(void) {
    lend(0, 0);
    lent.plan_len = 11, printf("no header: %u\n", build()), lent.plan_len = sizeof plan;
    lent.branch_len -= 1, printf("a branch table cut short: %u\n", build()), lent.branch_len = sizeof branch;
    lent.numbers += 1, lent.numbers_len -= 1, printf("numbers short by one: %u\n", build());
    lent.numbers -= 1, lent.numbers_len += 1;
    lent.bytes += 1, lent.bytes_len -= 1, printf("bytes short by one: %u\n", build());
    int kept = 1;
    for (size_t i = 0; i < lent.numbers_len; i++)
        kept &= lent.numbers[i] == 77 * 257;
    for (size_t i = 0; i < lent.bytes_len; i++)
        kept &= lent.bytes[i] == 77;
    printf("%s\n", kept ? "all as before" : "CHANGED");
}

int main(void) {
    printf("16 states, 65,535 nodes: %zu numbers, %zu bytes\n", WHATIF_COLOUR_BRANCH_NUMBERS(65535, 16),
           WHATIF_COLOUR_BRANCH_BYTES(65535, 16));
    on_tables(0, 0);
    on_tables(1, EXCESS);
    refusals();
    return 0;
}
