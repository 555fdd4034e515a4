/*
 * Branch questions: what a branch table reads along one path of the plan, without the label of the upper node and with
 * it. Then the same by colours, whose cost does not grow with the depth. The tables are built once for a plan.
 * Build it with: cc examples/branch.c $(PKG_CONFIG_PATH=build pkg-config --cflags --libs whatif), after tools/archive.
 */
#include "whatif.h"

#include <stdio.h>

enum { NODES = 7, STATES = 3, LABELS = 2 };

/* Nodes 0 and 1 below 2, nodes 3 and 4 below 5, nodes 2 and 5 below the root 6. Kind 0 is a leaf, 1 an inner node. */
static const uint8_t labels[NODES] = {1, 1, 1, 0, 1, 0, 1}, kinds[NODES] = {0, 0, 1, 0, 0, 1, 1};
/* State 0 until a label 1 was read, then 1, and 2 once a label 0 came after it; state 2 gets yes. */
static const uint8_t steps[STATES][LABELS] = {{0, 1}, {2, 1}, {2, 2}}, marks[STATES] = {0, 0, 1};

static uint8_t plan[WHATIF_PLAN_BYTES(NODES)], branch[WHATIF_BRANCH_BYTES(STATES, LABELS)];
static uint16_t node_table[WHATIF_NODE_TABLE_LEN(NODES)];
static uint8_t state_table[WHATIF_STATE_TABLE_LEN(NODES, STATES)];
static uint16_t colour_numbers[WHATIF_COLOUR_BRANCH_NUMBERS(NODES, STATES)];
static uint8_t colour_bytes[WHATIF_COLOUR_BRANCH_BYTES(NODES, STATES)];

#define PLAN_AND_BRANCH plan, sizeof plan, branch, sizeof branch
#define NODE_TABLE node_table, sizeof node_table / sizeof *node_table
#define TABLES NODE_TABLE, state_table, sizeof state_table
#define COLOURS colour_numbers, sizeof colour_numbers / sizeof *colour_numbers, colour_bytes, sizeof colour_bytes

static int accepted(uint32_t answer) {
    if (answer != WHATIF_ACCEPTED)
        printf("refused %u: %s\n", answer, whatif_answer_text(answer));
    return answer == WHATIF_ACCEPTED;
}

static void print(const char *what, const struct whatif_told *told) {
    printf("%s: %s, state %u, %u links", what, told->yes ? "yes" : "no", told->state, told->links);
}

/* From the upper node down to the lower one, in both readings, by climbs and by colours. */
static int ask(uint32_t upper, uint32_t lower) {
    struct whatif_told told = {0};
    printf("from node %u down to node %u\n", upper, lower);
    if (!accepted(whatif_branch_told(PLAN_AND_BRANCH, TABLES, upper, lower, &told)))
        return 0;
    print("  below the upper node", &told), printf(", %u nodes passed over\n", told.passed);
    if (!accepted(whatif_branch_with_upper_told(PLAN_AND_BRANCH, TABLES, upper, lower, &told)))
        return 0;
    print("  with the upper node", &told), printf(", %u nodes passed over\n", told.passed);
    if (!accepted(whatif_colour_branch_told(PLAN_AND_BRANCH, NODE_TABLE, COLOURS, upper, lower, &told)))
        return 0;
    print("  by colours, below the upper node", &told), printf(", %u drops\n", told.drops);
    if (!accepted(whatif_colour_branch_with_upper_told(PLAN_AND_BRANCH, NODE_TABLE, COLOURS, upper, lower, &told)))
        return 0;
    print("  by colours, with the upper node", &told), printf(", %u drops\n", told.drops);
    return 1;
}

int main(void) {
    uint32_t as_built = 0;
    if (whatif_version() != WHATIF_VERSION_NUMBER)
        return fprintf(stderr, "header %s, archive %u\n", WHATIF_VERSION, whatif_version()), 1;
    if (!accepted(whatif_write_plan(labels, NODES, kinds, NODES, plan, sizeof plan)) ||
        !accepted(whatif_write_branch(&steps[0][0], sizeof steps, marks, STATES, branch, sizeof branch)))
        return 1;
    printf("branch table: %u states, %u labels\n", whatif_branch_states(branch, sizeof branch),
           whatif_branch_labels(branch, sizeof branch));
    if (!accepted(whatif_branch_build(PLAN_AND_BRANCH, TABLES)) ||
        !accepted(whatif_colour_branch_build(PLAN_AND_BRANCH, COLOURS)) ||
        !accepted(whatif_branch_check(PLAN_AND_BRANCH, TABLES, &as_built)))
        return 1;
    printf("the tables are %s\n", as_built ? "as built" : "not as built");
    if (!ask(6, 3) || !ask(6, 0) || !ask(5, 5))
        return 1;
    /* upper and lower exchanged: refused, not answered */
    return ask(3, 6) ? 1 : 0;
}
