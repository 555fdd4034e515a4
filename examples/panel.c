/*
 * A trainer's walk at the panel: Load, Start, Cancel, Start, advances with a progress bar, the answer, the check before
 * the blank is cut. Then refusals, and another Start and Cancel, after which Read brings the earlier answer back.
 * Build it with: cc examples/panel.c $(PKG_CONFIG_PATH=build pkg-config --cflags --libs whatif), after tools/archive.
 */
#include "whatif.h"

#include <stdio.h>

/* Plan A of document 01: nodes 0 and 1 below 2, nodes 3 and 4 below 5, nodes 2 and 5 below the root 6. */
static const uint8_t plan[] = {7, 0, 0, 0, 12, 0, 0, 0, 19, 0, 0, 0, 1, 1, 1, 0, 1, 0, 1, 0, 0, 1, 0, 0, 1, 1};
/* Table A: label 0 takes the greater state of two children, label 1 the lesser; state 1 clears the plan. */
static const uint8_t rules[] = {2,  0, 0, 0, 2, 0, 0, 0, 20, 0, 0, 0, 22, 0, 0, 0,
                                30, 0, 0, 0, 0, 1, 0, 1, 0,  0, 1, 1, 0,  1, 0, 1};

/* What the panel keeps: the session's record, all zero at first, and the tables that Load writes. */
static uint8_t record[WHATIF_RECORD_BYTES];
static uint16_t node_table[WHATIF_NODE_TABLE_LEN(7)];
static uint8_t state_table[WHATIF_STATE_TABLE_LEN(7, 2)];
static const struct whatif_buffers buffers = {
    .plan = plan,
    .plan_len = sizeof plan,
    .rules = rules,
    .rules_len = sizeof rules,
    .node_table = node_table,
    .node_table_len = sizeof node_table / sizeof *node_table,
    .state_table = state_table,
    .state_table_len = sizeof state_table,
};
/* What Start and each advance are given: Load fills it. */
static struct whatif_lent lent;

struct question {
    size_t count;
    uint16_t nodes[2];
    uint8_t labels[2];
};

/* Says what a refusal means; of 1, which of its causes it was. */
static int accepted(enum whatif_call call, uint32_t answer) {
    if (answer == WHATIF_REFUSED_SESSION_STATE)
        printf("refused 1: %s\n", whatif_why_1(record, sizeof record, call));
    else if (answer != WHATIF_ACCEPTED)
        printf("refused %u: %s\n", answer, whatif_answer_text(answer));
    return answer == WHATIF_ACCEPTED;
}

static int start(const struct question *q) {
    uint32_t parts;
    printf("What if");
    for (size_t i = 0; i < q->count; i++)
        printf("%s node %u took label %u", i ? " and" : "", q->nodes[i], q->labels[i]);
    printf("?\n");
    if (!accepted(WHATIF_CALL_START,
                  whatif_start_lent(record, sizeof record, &lent, q->nodes, q->labels, q->count, &parts)))
        return 0;
    printf("%u parts\n", parts);
    return 1;
}

/* Handles all parts; a panel would do one whenever it has a moment. */
static int finish(void) {
    for (uint32_t finished = 0; !finished;) {
        if (!accepted(WHATIF_CALL_ADVANCE, whatif_advance_lent(record, sizeof record, &lent, &finished)))
            return 0;
        uint32_t parts = whatif_parts(record, sizeof record), done = whatif_parts_done(record, sizeof record);
        putchar('[');
        for (uint32_t i = 0; i < parts; i++)
            putchar(i < done ? '#' : '.');
        printf("] %u of %u\n", done, parts);
    }
    return 1;
}

static int cancel(void) {
    int done = accepted(WHATIF_CALL_CANCEL, whatif_cancel(record, sizeof record));
    if (done)
        printf("cancelled\n");
    return done;
}

static void print(const char *what, const struct whatif_told *told) {
    printf("%s: %s, state %u, %u parts, %u links, %u nodes passed over\n", what, told->yes ? "cleared" : "not cleared",
           told->state, told->parts, told->links, told->passed);
}

/* The answer to the question at hand; whatif_read would show an earlier one while this one is running. */
static int show(void) {
    struct whatif_told told = {0};
    int there = accepted(WHATIF_CALL_READ_CURRENT, whatif_read_current(record, sizeof record, &told));
    if (there)
        print("answer", &told);
    return there;
}

/* Before the blank is cut: a fresh run of the plan with the list that will be cut. */
static int cut(const struct question *q) {
    struct whatif_confirmed confirmed = whatif_confirm(record, sizeof record, &lent, q->nodes, q->labels, q->count);
    printf("%s: %s\n", confirmed.cut ? "cut" : "do not cut", whatif_confirm_text(confirmed.reason));
    return (int)confirmed.cut;
}

int main(void) {
    static const struct question first = {1, {4}, {0}}, second = {2, {0, 2}, {0, 0}}, wrong = {1, {7}, {0}};
    struct whatif_told last = {0};
    if (whatif_version() != WHATIF_VERSION_NUMBER)
        return fprintf(stderr, "header %s, archive %u\n", WHATIF_VERSION, whatif_version()), 1;
    if (!accepted(WHATIF_CALL_LOAD, whatif_load_lent(record, sizeof record, &buffers, &lent)))
        return 1;
    printf("loaded: %u nodes\n", whatif_plan_nodes(plan, sizeof plan));
    if (!start(&first) || show() || !cancel())
        return 1;
    if (!start(&second) || !finish() || !show() || !cut(&second))
        return 1;
    /* another list than the one that was asked is not cut */
    if (cut(&first))
        return 1;
    /* the plan has no node 7; a refused call changes nothing, so the answer is still there, and still the second's */
    if (start(&wrong) || !show() || cut(&wrong))
        return 1;
    /* while a question runs there is no answer to it; after a Cancel the last one may be shown again, as the last */
    if (!start(&first) || show() || !cancel() || show())
        return 1;
    if (!accepted(WHATIF_CALL_READ, whatif_read_told(record, sizeof record, &last)))
        return 1;
    print("last finished answer", &last);
    return 0;
}
