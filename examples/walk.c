/*
 * The trainer's walk on a full arch: two combs of 15,367 inner nodes each, which meet at the root, 61,471 nodes in all.
 * Load, Start, Cancel, Start, advances with a bar, the answer, the check before the blank is cut. Standard output has
 * what happens; standard error the time of each call and of the whole. The status is 1 where something is refused, or
 * where the whole takes more than two seconds: it takes some milliseconds.
 * Build it with: cc examples/walk.c $(PKG_CONFIG_PATH=build pkg-config --cflags --libs whatif), after tools/archive.
 */
#define _POSIX_C_SOURCE 199309L /* clock_gettime */
#include "whatif.h"

#include <stdio.h>
#include <stdlib.h>
#include <time.h>

enum { SIDE = 15367, NODES = 4 * SIDE + 3, STATES = 4, LABELS = 8, CHANGES = 8, BAR = 32 };
static const double most_milliseconds = 2000;

static uint8_t plan[WHATIF_PLAN_BYTES(NODES)], rules[WHATIF_RULES_BYTES(STATES, LABELS)];
static uint8_t record[WHATIF_RECORD_BYTES];
static uint16_t node_table[WHATIF_NODE_TABLE_LEN(NODES)];
static uint8_t state_table[WHATIF_STATE_TABLE_LEN(NODES, STATES)];
static const struct whatif_buffers buffers = {
    .plan = plan,
    .plan_len = sizeof plan,
    .rules = rules,
    .rules_len = sizeof rules,
    .node_table = node_table,
    .node_table_len = WHATIF_NODE_TABLE_LEN(NODES),
    .state_table = state_table,
    .state_table_len = sizeof state_table,
};
static struct whatif_lent lent;

/* Milliseconds of a clock that only goes forward. */
static double now(void) {
    struct timespec time;
    if (clock_gettime(CLOCK_MONOTONIC, &time) != 0) {
        fprintf(stderr, "there is no monotonic clock\n");
        exit(1);
    }
    return (double)time.tv_sec * 1e3 + (double)time.tv_nsec / 1e6;
}

static void print_time(const char *what, double milliseconds) {
    fprintf(stderr, "%-24s %9.3f ms\n", what, milliseconds);
}

/* Says what a call took, and what a refusal means; of 1, which of its causes it was. */
static int accepted(const char *what, enum whatif_call call, double since, uint32_t answer) {
    print_time(what, now() - since);
    if (answer == WHATIF_REFUSED_SESSION_STATE)
        printf("refused 1: %s\n", whatif_why_1(record, sizeof record, call));
    else if (answer != WHATIF_ACCEPTED)
        printf("refused %u: %s\n", answer, whatif_answer_text(answer));
    return answer == WHATIF_ACCEPTED;
}

/* Post-order: the left comb's inner nodes have their leaf at the right, the right comb's at the left. */
static uint32_t draw_arch(void) {
    static uint8_t labels[NODES], kinds[NODES];
    for (size_t v = 0; v < NODES; v++) {
        labels[v] = (uint8_t)(v * v / 7 % LABELS);
        kinds[v] = v <= 2 * SIDE ? v > 0 && v % 2 == 0 : v >= 3 * SIDE + 2;
    }
    return whatif_write_plan(labels, NODES, kinds, NODES, plan, sizeof plan);
}

/* The state is the sum of all labels below, modulo 4: a plan is cleared unless that is 2. */
static uint32_t write_rules(void) {
    static const uint8_t marks[STATES] = {1, 1, 0, 1};
    uint8_t leaf[LABELS], inner[STATES][LABELS][STATES];
    for (unsigned a = 0; a < LABELS; a++) {
        leaf[a] = (uint8_t)(a % STATES);
        for (unsigned p = 0; p < STATES; p++)
            for (unsigned q = 0; q < STATES; q++)
                inner[p][a][q] = (uint8_t)((p + a + q) % STATES);
    }
    return whatif_write_rules(leaf, LABELS, &inner[0][0][0], sizeof inner, marks, STATES, rules, sizeof rules);
}

static int start(const uint16_t *nodes, const uint8_t *labels) {
    uint32_t parts;
    double since = now();
    if (!accepted("Start", WHATIF_CALL_START, since,
                  whatif_start_lent(record, sizeof record, &lent, nodes, labels, CHANGES, &parts)))
        return 0;
    printf("started: %d changes, %u parts\n", CHANGES, parts);
    return 1;
}

/* Handles all parts, with a bar after each; the time is that of the calls alone. */
static int finish(void) {
    double spent = 0;
    for (uint32_t finished = 0; !finished;) {
        double since = now();
        uint32_t answer = whatif_advance_lent(record, sizeof record, &lent, &finished);
        spent += now() - since;
        if (answer != WHATIF_ACCEPTED)
            return accepted("advance", WHATIF_CALL_ADVANCE, since, answer);
        uint32_t parts = whatif_parts(record, sizeof record), done = whatif_parts_done(record, sizeof record);
        putchar('[');
        for (uint32_t i = 0; i < BAR; i++)
            putchar(i * parts < done * BAR ? '#' : '.');
        printf("] %u of %u\n", done, parts);
    }
    print_time("all advances", spent);
    return 1;
}

static int show(void) {
    struct whatif_told told = {0};
    double since = now();
    if (!accepted("Read of this answer", WHATIF_CALL_READ_CURRENT, since,
                  whatif_read_current(record, sizeof record, &told)))
        return 0;
    printf("%s: state %u, %u parts, %u links, %u nodes passed over\n", told.yes ? "cleared" : "not cleared", told.state,
           told.parts, told.links, told.passed);
    return 1;
}

static int confirm(const uint16_t *nodes, const uint8_t *labels) {
    double since = now();
    struct whatif_confirmed confirmed = whatif_confirm(record, sizeof record, &lent, nodes, labels, CHANGES);
    print_time("confirm before cutting", now() - since);
    printf("%s: %s\n", confirmed.cut ? "cut" : "do not cut", whatif_confirm_text(confirmed.reason));
    return (int)confirmed.cut;
}

/* Load, Start, Cancel, Start, advances, Read, confirm. */
static int walk(const uint16_t *nodes, const uint8_t *labels) {
    double since = now();
    if (!accepted("Load", WHATIF_CALL_LOAD, since, whatif_load_lent(record, sizeof record, &buffers, &lent)))
        return 0;
    printf("loaded: %u nodes\n", whatif_plan_nodes(plan, sizeof plan));
    if (!start(nodes, labels))
        return 0;
    since = now();
    if (!accepted("Cancel", WHATIF_CALL_CANCEL, since, whatif_cancel(record, sizeof record)))
        return 0;
    printf("cancelled\n");
    return start(nodes, labels) && finish() && show() && confirm(nodes, labels);
}

int main(void) {
    static const uint8_t labels[CHANGES] = {5, 2, 7, 0, 1, 6, 3, 4};
    uint16_t nodes[CHANGES];
    if (whatif_version() != WHATIF_VERSION_NUMBER)
        return fprintf(stderr, "header %s, archive %u\n", WHATIF_VERSION, whatif_version()), 1;
    for (unsigned i = 0; i < CHANGES; i++)
        nodes[i] = (uint16_t)(i * (NODES / CHANGES) + 1000 * i % 333);
    if (draw_arch() != WHATIF_ACCEPTED || write_rules() != WHATIF_ACCEPTED)
        return fprintf(stderr, "the plan or the rule table is refused\n"), 1;
    double since = now();
    int done = walk(nodes, labels);
    double whole = now() - since;
    print_time("the whole walk", whole);
    if (whole > most_milliseconds)
        return fprintf(stderr, "the walk takes more than two seconds\n"), 1;
    return done ? 0 : 1;
}
