/*
 * Many questions on one plan: by colours, after two builds, each is answered whole in some microseconds; up to 4
 * states. Then counts: how many choices of labels for some open nodes end in each state. Nothing here has a session, so
 * no Start checks the tables: a full check says whether they are as built.
 * Build it with: cc examples/colours.c $(PKG_CONFIG_PATH=build pkg-config --cflags --libs whatif), after tools/archive.
 */
#include "whatif.h"

#include <inttypes.h>
#include <stdio.h>

enum { NODES = 7, STATES = 2, LABELS = 2 };

/* Plan A of document 01: nodes 0 and 1 below 2, nodes 3 and 4 below 5, nodes 2 and 5 below the root 6. */
static const uint8_t labels[NODES] = {1, 1, 1, 0, 1, 0, 1}, kinds[NODES] = {0, 0, 1, 0, 0, 1, 1};
/* Table A: label 0 takes the greater state of two children, label 1 the lesser; state 1 clears the plan. */
static const uint8_t leaf[LABELS] = {0, 1}, marks[STATES] = {0, 1};
static const uint8_t inner[STATES][LABELS][STATES] = {{{0, 1}, {0, 0}}, {{1, 1}, {0, 1}}};

static uint8_t plan[WHATIF_PLAN_BYTES(NODES)], rules[WHATIF_RULES_BYTES(STATES, LABELS)];
static uint16_t node_table[WHATIF_NODE_TABLE_LEN(NODES)], colour_numbers[WHATIF_COLOUR_NUMBERS(NODES, STATES)];
static uint8_t state_table[WHATIF_STATE_TABLE_LEN(NODES, STATES)], colour_bytes[WHATIF_COLOUR_BYTES(NODES, STATES)];

#define PLAN_AND_RULES plan, sizeof plan, rules, sizeof rules
#define TABLES node_table, sizeof node_table / sizeof *node_table, state_table, sizeof state_table
#define COLOURS colour_numbers, sizeof colour_numbers / sizeof *colour_numbers, colour_bytes, sizeof colour_bytes

static int accepted(uint32_t answer) {
    if (answer != WHATIF_ACCEPTED)
        printf("refused %u: %s\n", answer, whatif_answer_text(answer));
    return answer == WHATIF_ACCEPTED;
}

/* Every change of a single node. */
static int ask_all(void) {
    for (uint16_t node = 0; node < NODES; node++) {
        struct whatif_told told = {0};
        const uint8_t other = labels[node] ? 0 : 1;
        if (!accepted(whatif_colour_ask_told(PLAN_AND_RULES, TABLES, COLOURS, &node, 1, &other, 1, &told)))
            return 0;
        printf("node %u to %u: %s, state %u, %u parts, %u drops, %u links\n", node, other,
               told.yes ? "cleared" : "not cleared", told.state, told.parts, told.drops, told.links);
    }
    return 1;
}

/* Nodes 0, 3 and 5 are open: 2 to the power 3 choices. */
static int count(void) {
    static const uint16_t open[] = {0, 3, 5};
    uint64_t counts[STATES];
    struct whatif_told told = {0};
    if (!accepted(whatif_count_told(PLAN_AND_RULES, TABLES, open, 3, counts, STATES, &told)))
        return 0;
    printf("choices for nodes 0, 3 and 5: ");
    for (unsigned s = 0; s < STATES; s++)
        printf("%" PRIu64 " end in state %u%s", counts[s], s, s + 1 < STATES ? ", " : "\n");
    return 1;
}

int main(void) {
    uint32_t as_built = 0;
    if (whatif_version() != WHATIF_VERSION_NUMBER)
        return fprintf(stderr, "header %s, archive %u\n", WHATIF_VERSION, whatif_version()), 1;
    if (!accepted(whatif_write_plan(labels, NODES, kinds, NODES, plan, sizeof plan)) ||
        !accepted(whatif_write_rules(leaf, LABELS, &inner[0][0][0], sizeof inner, marks, STATES, rules, sizeof rules)))
        return 1;
    if (!accepted(whatif_build(PLAN_AND_RULES, TABLES)) || !accepted(whatif_colour_build(PLAN_AND_RULES, COLOURS)) ||
        !accepted(whatif_check(PLAN_AND_RULES, TABLES, &as_built)))
        return 1;
    printf("%u nodes, %u states, %u labels; the tables are %s\n", whatif_plan_nodes(plan, sizeof plan),
           whatif_rules_states(rules, sizeof rules), whatif_rules_labels(rules, sizeof rules),
           as_built ? "as built" : "not as built");
    return ask_all() && count() ? 0 : 1;
}
