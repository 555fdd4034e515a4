/*
 * A bridge planner's file: turned into a plan, asked about by the planner's own numbers, and turned back.
 * Build it with: cc examples/planner.c $(PKG_CONFIG_PATH=build pkg-config --cflags --libs whatif), after tools/archive.
 */
#include "whatif.h"

#include <stdio.h>
#include <string.h>

enum { NODES = 6, STATES = 2, LABELS = 64 };

/* Top first, with the number of children of each: a beam (5) over two pillars (6), with passes 8 and 9, and 8. */
static const uint8_t file[] = {NODES, 0, 0, 0, 12, 0, 0, 0, 12 + NODES, 0, 0, 0, 5, 6, 8, 9, 6, 8, 2, 2, 0, 0, 1, 0};
static uint8_t home[sizeof file], plan[WHATIF_PLANNER_PLAN_BYTES(NODES)], rules[WHATIF_RULES_BYTES(STATES, LABELS)];
static uint16_t places[NODES];

static int accepted(uint32_t answer) {
    if (answer != WHATIF_ACCEPTED)
        printf("refused %u: %s\n", answer, whatif_answer_text(answer));
    return answer == WHATIF_ACCEPTED;
}

/* A plan is cleared where some node has label 9. Label 63 is at every leaf of such a plan, so there are 64 labels. */
static uint32_t write_rules(void) {
    static const uint8_t leaf[LABELS], marks[STATES] = {0, 1};
    uint8_t inner[STATES][LABELS][STATES];
    for (unsigned a = 0; a < LABELS; a++)
        for (unsigned p = 0; p < STATES; p++)
            for (unsigned q = 0; q < STATES; q++)
                inner[p][a][q] = p || q || a == 9;
    return whatif_write_rules(leaf, LABELS, &inner[0][0][0], sizeof inner, marks, STATES, rules, sizeof rules);
}

/* What if these planner nodes took these labels? One verdict, without tables. */
static int ask(const char *what, const unsigned *planner_nodes, const uint8_t *labels, size_t count) {
    struct whatif_told told = {0};
    uint16_t nodes[NODES];
    for (size_t i = 0; i < count; i++)
        nodes[i] = places[planner_nodes[i]];
    if (!accepted(whatif_fresh_run_told(plan, sizeof plan, rules, sizeof rules, nodes, count, labels, count, &told)))
        return 0;
    printf("%s: %s\n", what, told.yes ? "cleared" : "not cleared");
    return 1;
}

int main(void) {
    if (whatif_version() != WHATIF_VERSION_NUMBER)
        return fprintf(stderr, "header %s, archive %u\n", WHATIF_VERSION, whatif_version()), 1;
    if (!accepted(whatif_plan_of_planner(file, sizeof file, plan, sizeof plan, places, NODES)) ||
        !accepted(write_rules()))
        return 1;
    printf("%u planner nodes are %u nodes of a plan:", whatif_planner_nodes(file, sizeof file),
           whatif_plan_nodes(plan, sizeof plan));
    for (size_t i = 0; i < NODES; i++)
        printf(" %u", places[i]);
    printf("\n");
    if (!ask("as planned", NULL, NULL, 0) ||
        !ask("with planner node 3 on label 8", (const unsigned[]){3}, (const uint8_t[]){8}, 1) ||
        !ask("and planner node 5 on label 9", (const unsigned[]){3, 5}, (const uint8_t[]){8, 9}, 2))
        return 1;
    if (!accepted(whatif_planner_of_plan(plan, sizeof plan, home, sizeof home)))
        return 1;
    printf("home: %s\n", memcmp(home, file, sizeof file) ? "another file" : "the same file");
    return 0;
}
