/*
 * A plan is refused: which label of which node would do? One call answers for every node and every label at once, another
 * says with which states of a subtree the plan is cleared, and each suggestion is asked as a whole question on the
 * tables, outside the session. Then a plan that no single change clears, since its leaves alone may be changed: what is
 * the least that must change, and how many wrong leaves lose the clearance again? Before a blank is cut, ask in the
 * session and confirm (panel.c).
 * Build it with: cc examples/mend.c $(PKG_CONFIG_PATH=build pkg-config --cflags --libs whatif), after tools/archive.
 */
#include "whatif.h"

#include <stdio.h>

enum { NODES = 7, STATES = 2, LABELS = 2 };

/* Plan A of document 01 with label 0 at node 0: nodes 0 and 1 below 2, nodes 3 and 4 below 5, 2 and 5 below the root 6. */
static const uint8_t labels[NODES] = {0, 1, 1, 0, 1, 0, 1}, kinds[NODES] = {0, 0, 1, 0, 0, 1, 1};
/* Table A: label 0 takes the greater state of two children, label 1 the lesser; state 1 clears the plan. */
static const uint8_t leaf[LABELS] = {0, 1}, marks[STATES] = {0, 1};
static const uint8_t inner[STATES][LABELS][STATES] = {{{0, 1}, {0, 0}}, {{1, 1}, {0, 1}}};

static uint8_t plan[WHATIF_PLAN_BYTES(NODES)], rules[WHATIF_RULES_BYTES(STATES, LABELS)];
static uint16_t node_table[WHATIF_NODE_TABLE_LEN(NODES)], sets[NODES];
static uint8_t state_table[WHATIF_STATE_TABLE_LEN(NODES, STATES)];
static uint64_t masks[NODES], may[NODES];
static uint32_t work[WHATIF_FEWEST_WORK(NODES, STATES)];

#define PLAN_AND_RULES plan, sizeof plan, rules, sizeof rules
#define TABLES node_table, sizeof node_table / sizeof *node_table, state_table, sizeof state_table

static int accepted(uint32_t answer) {
    if (answer != WHATIF_ACCEPTED)
        printf("refused %u: %s\n", answer, whatif_answer_text(answer));
    return answer == WHATIF_ACCEPTED;
}

/* Asks a suggestion: node takes label, all else as it is. */
static int ask(uint16_t node, uint8_t label) {
    struct whatif_told told = {0};
    if (!accepted(whatif_ask_told(PLAN_AND_RULES, TABLES, &node, 1, &label, 1, &told)))
        return 0;
    printf("node %u to label %u: %s, state %u, %u parts, %u links, %u nodes passed over\n", node, label,
           told.yes ? "cleared" : "not cleared", told.state, told.parts, told.links, told.passed);
    return 1;
}

/* The least that must change so that the plan is cleared (want 1) or no longer is (want 0), as `may` permits. */
static int least(const char *what, uint32_t want, struct whatif_least *told) {
    if (!accepted(whatif_fewest_told(PLAN_AND_RULES, may, NODES, want, work, sizeof work / sizeof *work, told)))
        return 0;
    if (told->least == WHATIF_NO_WAY)
        printf("%s: nothing does it\n", what);
    else
        printf("%s: %u at least\n", what, told->least);
    return 1;
}

/* Label 0 at nodes 0 and 1, and the leaves alone may be changed: no single change is enough. */
static int mend(void) {
    struct whatif_least told = {0};
    plan[12 + 1] = 0;
    for (uint16_t node = 0; node < NODES; node++)
        may[node] = kinds[node] == 0 ? 3u : 0u; /* both labels, or none */
    if (!least("changes of leaves that clear it", 1, &told))
        return 0;
    for (uint32_t i = 0; i < told.count; i++) {
        printf("node %u to label %u\n", told.nodes[i], told.labels[i]);
        plan[12 + told.nodes[i]] = told.labels[i];
    }
    if (!least("wrong leaves that lose the clearance", 0, &told))
        return 0;
    for (uint16_t node = 0; node < NODES; node++)
        may[node] = 0;
    return least("with every node kept", 0, &told);
}

int main(void) {
    uint32_t state, yes, parts, links, passed;
    if (whatif_version() != WHATIF_VERSION_NUMBER) {
        printf("the library is of another version than its header\n");
        return 1;
    }
    if (!accepted(whatif_write_plan(labels, NODES, kinds, NODES, plan, sizeof plan)) ||
        !accepted(whatif_write_rules(leaf, LABELS, &inner[0][0][0], sizeof inner, marks, STATES, rules, sizeof rules)) ||
        !accepted(whatif_build(PLAN_AND_RULES, TABLES)))
        return 1;
    if (!accepted(whatif_ask(PLAN_AND_RULES, TABLES, NULL, 0, NULL, 0, &state, &yes, &parts, &links, &passed)))
        return 1;
    printf("as planned: %s\n", yes ? "cleared" : "not cleared");
    if (!accepted(whatif_allowed(PLAN_AND_RULES, masks, NODES)) ||
        !accepted(whatif_clearing(PLAN_AND_RULES, sets, NODES)))
        return 1;
    for (uint16_t node = 0; node < NODES; node++) {
        static const char *const with[] = {"no state", "state 0 alone", "state 1 alone", "either state"};
        printf("with %s at node %u the plan is cleared\n", with[sets[node]], node);
        for (uint8_t label = 0; label < LABELS; label++)
            if (masks[node] >> label & 1 && !ask(node, label))
                return 1;
    }
    return !mend();
}
