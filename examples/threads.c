/*
 * Questions from four threads about one full arch: two combs of 15,367 inner nodes each, which meet at the root, 61,471
 * nodes in all. One Load serves all threads: each has a record of its own, a copy of the loaded one. All are given the
 * same plan, rules and tables, which nobody writes after Load. Every answer is confirmed by a fresh run.
 * Build it with: cc -pthread examples/threads.c $(PKG_CONFIG_PATH=build pkg-config --cflags --libs whatif), after
 * tools/archive.
 */
#include "whatif.h"

#include <pthread.h>
#include <stdio.h>
#include <string.h>

#define SIDE 15367u
#define NODES (4 * SIDE + 3)
#define STATES 2
#define THREADS 4
#define QUESTIONS 100
#define CHANGES 8

static uint8_t plan[WHATIF_PLAN_BYTES(NODES)];
/* The state is 1 where the number of labels 1 in the subtree is odd; state 1 clears the plan. */
static const uint8_t rules[] = {2,  0, 0, 0, 2, 0, 0, 0, 20, 0, 0, 0, 22, 0, 0, 0,
                                30, 0, 0, 0, 0, 1, 0, 1, 1,  0, 1, 0, 0,  1, 0, 1};
static uint16_t node_table[WHATIF_NODE_TABLE_LEN(NODES)];
static uint8_t state_table[WHATIF_STATE_TABLE_LEN(NODES, STATES)];
static uint8_t loaded[WHATIF_RECORD_BYTES];
static const struct whatif_buffers buffers = {
    .plan = plan,
    .plan_len = sizeof plan,
    .rules = rules,
    .rules_len = sizeof rules,
    .node_table = node_table,
    .node_table_len = WHATIF_NODE_TABLE_LEN(NODES),
    .state_table = state_table,
    .state_table_len = sizeof state_table,
};
static struct whatif_lent lent;

/* What a thread is given, and what it found. */
struct work {
    pthread_t thread;
    uint32_t seed;
    unsigned cleared, parts, most_links, passed, wrong;
};

static uint32_t below(uint32_t *seed, uint32_t limit) {
    *seed = *seed * 1664525u + 1013904223u;
    return (uint32_t)(((uint64_t)*seed * limit) >> 32);
}

/* Post-order: the left side hangs from its left children, the right side from its right ones. */
static uint32_t draw_arch(void) {
    static uint8_t labels[NODES], kinds[NODES];
    uint32_t seed = 7;
    for (size_t v = 0; v < NODES; v++) {
        labels[v] = (uint8_t)below(&seed, 2);
        kinds[v] = v <= 2 * SIDE ? v > 0 && v % 2 == 0 : v >= 3 * SIDE + 2;
    }
    return whatif_write_plan(labels, NODES, kinds, NODES, plan, sizeof plan);
}

/* One question, from Start to its answer, confirmed. */
static void ask(struct work *work, uint8_t *record) {
    uint16_t nodes[CHANGES];
    uint8_t labels[CHANGES];
    uint32_t parts, finished = 0;
    struct whatif_told told = {0};
    for (uint32_t i = 0; i < CHANGES; i++) {
        nodes[i] = (uint16_t)(i * (NODES / CHANGES) + below(&work->seed, NODES / CHANGES));
        labels[i] = (uint8_t)below(&work->seed, 2);
    }
    uint32_t refused = whatif_start_lent(record, WHATIF_RECORD_BYTES, &lent, nodes, labels, CHANGES, &parts);
    while (!refused && !finished)
        refused = whatif_advance_lent(record, WHATIF_RECORD_BYTES, &lent, &finished);
    if (!refused)
        refused = whatif_read_current(record, WHATIF_RECORD_BYTES, &told);
    struct whatif_confirmed confirmed = whatif_confirm(record, WHATIF_RECORD_BYTES, &lent, nodes, labels, CHANGES);
    if (refused || confirmed.reason != (told.yes ? WHATIF_CONFIRM_CLEARED : WHATIF_CONFIRM_NOT_CLEARED)) {
        work->wrong++;
        return;
    }
    work->cleared += told.yes;
    work->parts += told.parts;
    work->most_links = told.links > work->most_links ? told.links : work->most_links;
    work->passed += told.passed;
}

static void *ask_all(void *given) {
    uint8_t record[WHATIF_RECORD_BYTES];
    memcpy(record, loaded, sizeof record);
    for (unsigned i = 0; i < QUESTIONS; i++)
        ask(given, record);
    return NULL;
}

int main(void) {
    if (whatif_version() != WHATIF_VERSION_NUMBER)
        return fprintf(stderr, "header %s, archive %u\n", WHATIF_VERSION, whatif_version()), 1;
    struct work works[THREADS] = {0};
    unsigned wrong = 0;
    uint32_t answer = draw_arch();
    if (answer == WHATIF_ACCEPTED)
        answer = whatif_load_lent(loaded, sizeof loaded, &buffers, &lent);
    if (answer != WHATIF_ACCEPTED)
        return fprintf(stderr, "refused %u: %s\n", answer, whatif_answer_text(answer)), 1;
    printf("loaded: %u nodes\n", NODES);
    for (unsigned i = 0; i < THREADS; i++) {
        works[i].seed = i + 1;
        if (pthread_create(&works[i].thread, NULL, ask_all, &works[i]))
            return fprintf(stderr, "no thread %u\n", i), 1;
    }
    for (unsigned i = 0; i < THREADS; i++) {
        pthread_join(works[i].thread, NULL);
        printf("thread %u: %u questions, %u cleared, %u parts, at most %u links, %u nodes passed over; ", i, QUESTIONS,
               works[i].cleared, works[i].parts, works[i].most_links, works[i].passed);
        printf("%u not as the fresh run\n", works[i].wrong);
        wrong += works[i].wrong;
    }
    return wrong ? 1 : 0;
}
