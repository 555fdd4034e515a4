/*
 * Two screens on one mill: the trainer's question runs on screen 0, while a class on screen 1 starts one, cancels it
 * and starts another. A deal serves them by turns, and the trainer's answer is what it would be alone. A Load has to
 * wait until no screen runs. Then a bit of the class's record flips, and the deals stop. The record is replaced by a
 * loaded one that was kept aside, and both go on.
 * Build it with: cc examples/screens.c $(PKG_CONFIG_PATH=build pkg-config --cflags --libs whatif), after tools/archive.
 */
#include "whatif.h"

#include <stdio.h>
#include <string.h>

enum { TRAINER, CLASS };
static const char *const names[] = {"trainer", "class"};

/* Plan A of document 01: nodes 0 and 1 below 2, nodes 3 and 4 below 5, nodes 2 and 5 below the root 6. */
static const uint8_t plan[] = {7, 0, 0, 0, 12, 0, 0, 0, 19, 0, 0, 0, 1, 1, 1, 0, 1, 0, 1, 0, 0, 1, 0, 0, 1, 1};
/* Table A: label 0 takes the greater state of two children, label 1 the lesser; state 1 clears the plan. */
static const uint8_t rules[] = {2,  0, 0, 0, 2, 0, 0, 0, 20, 0, 0, 0, 22, 0, 0, 0,
                                30, 0, 0, 0, 0, 1, 0, 1, 0,  0, 1, 1, 0,  1, 0, 1};

/* What the lab keeps: the run of eight records, all zero at first, the screen to try first, and the plan's tables. Also
 * a copy of a loaded record, in case one is damaged. */
static uint8_t run[WHATIF_SCREENS_BYTES], loaded[WHATIF_RECORD_BYTES];
static uint32_t first;
static uint16_t node_table[WHATIF_NODE_TABLE_LEN(7)];
static uint8_t state_table[WHATIF_STATE_TABLE_LEN(7, 2)];
static const struct whatif_buffers buffers = {
    .plan = plan,
    .plan_len = sizeof plan,
    .rules = rules,
    .rules_len = sizeof rules,
    .node_table = node_table,
    .node_table_len = sizeof node_table / sizeof *node_table,
    .state_table = state_table,
    .state_table_len = sizeof state_table,
};
/* What each Start and deal are given: Load fills it. */
static struct whatif_lent lent;

/* Says what a refusal means; of 1, which of its causes it was. */
static int accepted(const char *what, enum whatif_call call, uint32_t screen, uint32_t answer) {
    if (answer == WHATIF_REFUSED_SESSION_STATE)
        printf("%s: refused 1: %s\n", what, whatif_screens_why_1(run, sizeof run, screen, call));
    else if (answer != WHATIF_ACCEPTED)
        printf("%s: refused %u: %s\n", what, answer, whatif_answer_text(answer));
    return answer == WHATIF_ACCEPTED;
}

static int load(void) {
    uint32_t answer = whatif_screens_load_lent(run, sizeof run, &buffers, &lent, &first);
    if (!accepted("load", WHATIF_CALL_LOAD, 0, answer))
        return 0;
    memcpy(loaded, run, sizeof loaded);
    printf("load: %u screens, %u nodes\n", WHATIF_SCREENS, whatif_plan_nodes(plan, sizeof plan));
    return 1;
}

static int start(uint32_t screen, const uint16_t *nodes, const uint8_t *labels, size_t m) {
    uint32_t parts;
    printf("%s: what if", names[screen]);
    for (size_t i = 0; i < m; i++)
        printf("%s node %u took label %u", i ? " and" : "", nodes[i], labels[i]);
    printf("?\n");
    if (!accepted(names[screen], WHATIF_CALL_START, screen,
                  whatif_screens_start_lent(run, sizeof run, screen, &lent, nodes, labels, m, &parts)))
        return 0;
    printf("%s: %u parts\n", names[screen], parts);
    return 1;
}

/* One part of whoever is next. */
static int deal(void) {
    struct whatif_dealt dealt = {0};
    if (!accepted("deal", WHATIF_CALL_ADVANCE, first, whatif_screens_deal_told(run, sizeof run, first, &lent, &dealt)))
        return 0;
    first = dealt.next;
    printf("deal: %s, %u of %u%s\n", names[dealt.screen], whatif_screens_parts_done(run, sizeof run, dealt.screen),
           whatif_screens_parts(run, sizeof run, dealt.screen), dealt.finished ? ", finished" : "");
    return 1;
}

/* The answer to the question at hand on this screen. */
static int show(uint32_t screen) {
    struct whatif_told told = {0};
    if (!accepted(names[screen], WHATIF_CALL_READ_CURRENT, screen,
                  whatif_screens_read_current(run, sizeof run, screen, &told)))
        return 0;
    printf("%s: %s, state %u, %u parts, %u links, %u nodes passed over\n", names[screen],
           told.yes ? "cleared" : "not cleared", told.state, told.parts, told.links, told.passed);
    return 1;
}

/* A deal was refused though a screen is running: the record of the one whose turn it is is damaged. */
static int recover(void) {
    uint32_t screen = whatif_screens_next(run, sizeof run, first);
    if (screen == WHATIF_SCREENS || !accepted(names[screen], WHATIF_CALL_LOAD, screen,
                                              whatif_screens_replace(run, sizeof run, screen, loaded, sizeof loaded)))
        return 0;
    printf("%s: replaced by a loaded record; %u screens are running\n", names[screen],
           whatif_screens_running(run, sizeof run));
    return 1;
}

static int deal_all(void) {
    while (whatif_screens_running(run, sizeof run) > 0)
        if (!deal())
            return 0;
    return 1;
}

int main(void) {
    if (whatif_version() != WHATIF_VERSION_NUMBER)
        return fprintf(stderr, "header %s, archive %u\n", WHATIF_VERSION, whatif_version()), 1;
    if (!load() || !start(TRAINER, (const uint16_t[]){0, 3}, (const uint8_t[]){0, 1}, 2) || !deal())
        return 1;
    if (!start(CLASS, (const uint16_t[]){0, 2}, (const uint8_t[]){0, 0}, 2) || !deal() || !deal())
        return 1;
    if (!accepted("class", WHATIF_CALL_CANCEL, CLASS, whatif_screens_cancel(run, sizeof run, CLASS)))
        return 1;
    printf("class: cancelled\n");
    if (!deal() || !start(CLASS, (const uint16_t[]){4}, (const uint8_t[]){0}, 1) || load())
        return 1;
    if (!deal_all() || !show(TRAINER) || !show(CLASS))
        return 1;
    /* nobody runs: a deal is refused, a Load is accepted and clears all eight */
    if (deal() || !load() || show(TRAINER))
        return 1;
    /* a bit flips in the class's record: every deal would be refused at its turn, and so would a Load */
    if (!start(TRAINER, (const uint16_t[]){0, 2}, (const uint8_t[]){0, 0}, 2) ||
        !start(CLASS, (const uint16_t[]){4}, (const uint8_t[]){0}, 1) || !deal())
        return 1;
    run[WHATIF_RECORD_BYTES * CLASS + 1] ^= 2;
    printf("a bit of the class's record flips\n");
    if (deal() || deal() || !recover() || !start(CLASS, (const uint16_t[]){4}, (const uint8_t[]){0}, 1))
        return 1;
    return deal_all() && show(TRAINER) && show(CLASS) ? 0 : 1;
}
