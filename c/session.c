/*
 * The sample clearance of document 01 through the session's calls: a line for each of its nine questions, state, yes or
 * no, parts, links and nodes passed over, or the refusal. What it prints is held to examples/sample.expected. Before
 * them, Starts on altered tables, which print nothing where all is well.
 */
#include "sample.h"

#include <stdio.h>
#include <string.h>

static uint8_t record[WHATIF_RECORD_BYTES];
static uint16_t node_table[WHATIF_NODE_TABLE_LEN(SAMPLE_NODES)];
static uint8_t state_table[WHATIF_STATE_TABLE_LEN(SAMPLE_NODES, SAMPLE_STATES)];
static const struct whatif_lent lent = {
    .plan = plan,
    .plan_len = sizeof plan,
    .rules = rules,
    .rules_len = sizeof rules,
    .node_table = node_table,
    .node_table_len = sizeof node_table / sizeof *node_table,
    .state_table = state_table,
    .state_table_len = sizeof state_table,
};

/* The record tells this state and this progress. */
static void tells(uint32_t state, uint32_t parts, uint32_t done) {
    if (whatif_session_state(record, sizeof record) != state || whatif_parts(record, sizeof record) != parts ||
        whatif_parts_done(record, sizeof record) != done)
        printf("the record tells something ELSE\n");
}

static void must(uint32_t answer, uint32_t wanted) {
    if (answer != wanted)
        printf("answered %u, NOT %u\n", answer, wanted);
}

/* A refused call leaves the record and what it would tell. */
static int refused(uint32_t answer, const uint8_t *before, uint32_t told) {
    if (answer == WHATIF_ACCEPTED)
        return 0;
    printf("refused %u%s\n", answer, memcmp(record, before, sizeof record) || told != 77 ? ", and ALTERED" : "");
    return 1;
}

static void ask(const struct question *q) {
    uint8_t before[WHATIF_RECORD_BYTES];
    uint32_t parts = 77, finished = 0, advances = 0, state, yes, told_parts, links, passed;
    memcpy(before, record, sizeof record);
    uint32_t answer = whatif_start_lent(record, sizeof record, &lent, q->nodes, q->labels, q->m, &parts);
    if (refused(answer, before, parts))
        return;
    for (; !finished; advances++) {
        tells(WHATIF_RUNNING, parts, advances);
        if (whatif_advance_lent(record, sizeof record, &lent, &finished) != WHATIF_ACCEPTED)
            printf("an advance was REFUSED\n");
    }
    tells(WHATIF_ANSWERED, parts, advances);
    if (whatif_read(record, sizeof record, &state, &yes, &told_parts, &links, &passed) != WHATIF_ACCEPTED)
        printf("the Read was REFUSED\n");
    if (advances != parts || told_parts != parts)
        printf("NOT as many advances as parts\n");
    printf("%u %s %u %u %u\n", state, yes ? "yes" : "no", told_parts, links, passed);
}

/* Read tells these five values, in whatever state. */
static void reads(uint32_t state, uint32_t yes, uint32_t parts, uint32_t links, uint32_t passed) {
    uint32_t out[5] = {77, 77, 77, 77, 77};
    uint32_t answer = whatif_read(record, sizeof record, out, out + 1, out + 2, out + 3, out + 4);
    if (answer != WHATIF_ACCEPTED || out[0] != state || out[1] != yes || out[2] != parts || out[3] != links ||
        out[4] != passed)
        printf("the Read tells something ELSE\n");
}

/* Read is refused, and tells nothing. */
static void reads_nothing(void) {
    uint32_t out[5] = {77, 77, 77, 77, 77};
    uint32_t answer = whatif_read(record, sizeof record, out, out + 1, out + 2, out + 3, out + 4);
    if (answer != WHATIF_REFUSED_SESSION_STATE || out[0] != 77 || out[1] != 77 || out[2] != 77 || out[3] != 77 ||
        out[4] != 77)
        printf("a Read without an answer was NOT refused\n");
}

/* The last finished answer, of 0->0 3->1, through a Start, an advance, a Cancel and a refused Load; a Load empties it. */
static void survives(void) {
    uint32_t parts = 0, finished = 0;
    const struct question *q = &questions[3];
    must(whatif_start_lent(record, sizeof record, &lent, q->nodes, q->labels, q->m, &parts), WHATIF_ACCEPTED);
    while (!finished && whatif_advance_lent(record, sizeof record, &lent, &finished) == WHATIF_ACCEPTED)
        ;
    reads(0, 0, 5, 0, 0);
    must(whatif_start_lent(record, sizeof record, &lent, questions[1].nodes, questions[1].labels, 1, &parts), 0);
    tells(WHATIF_RUNNING, 2, 0);
    reads(0, 0, 5, 0, 0);
    must(whatif_advance_lent(record, sizeof record, &lent, &finished), WHATIF_ACCEPTED);
    reads(0, 0, 5, 0, 0);
    must(whatif_cancel(record, sizeof record), WHATIF_ACCEPTED);
    tells(WHATIF_LOADED, 0, 0);
    reads(0, 0, 5, 0, 0);
    must(whatif_load(record, sizeof record, NULL, 0, NULL, 0, NULL, 0, NULL, 0), WHATIF_REFUSED_PLAN_SHORT);
    reads(0, 0, 5, 0, 0);
    must(whatif_load(record, sizeof record, plan, sizeof plan, rules, sizeof rules, node_table, lent.node_table_len,
                     state_table, lent.state_table_len),
         WHATIF_ACCEPTED);
    reads_nothing();
}

/* Start makes the full check: 18 with one value altered, the last of its table too; and none afterwards. */
static void altered(void) {
    uint8_t before[WHATIF_RECORD_BYTES];
    uint32_t parts = 77;
    memcpy(before, record, sizeof record);
    for (size_t i = 0; i < sizeof state_table; i++) {
        state_table[i] ^= 1;
        if (whatif_start_lent(record, sizeof record, &lent, NULL, NULL, 0, &parts) != WHATIF_REFUSED_LENT_VALUE)
            printf("a Start on state byte %zu altered was NOT refused\n", i);
        state_table[i] ^= 1;
    }
    for (size_t i = 0; i < lent.node_table_len; i++) {
        node_table[i] ^= 1;
        if (whatif_start_lent(record, sizeof record, &lent, NULL, NULL, 0, &parts) != WHATIF_REFUSED_LENT_VALUE)
            printf("a Start on node number %zu altered was NOT refused\n", i);
        node_table[i] ^= 1;
    }
    if (memcmp(record, before, sizeof record) || parts != 77)
        printf("a refused Start ALTERED something\n");
}

/* In the sample as many nodes are passed over as there are links; on this plan of 13 nodes there are more. */
static void gap(void) {
    static const uint8_t deep[] = {13, 0, 0, 0, 12, 0, 0, 0, 25, 0, 0, 0, 0, 0, 0, 0, 1, 1, 1,
                                   1,  0, 1, 1, 1,  0, 0, 0, 0,  0, 1, 1, 0, 1, 0, 1, 0, 1, 1};
    static const uint16_t nodes[] = {1, 3};
    static const uint8_t labels[] = {0, 1};
    static uint8_t own[WHATIF_RECORD_BYTES];
    uint16_t numbers[WHATIF_NODE_TABLE_LEN(13)];
    uint8_t states[WHATIF_STATE_TABLE_LEN(13, SAMPLE_STATES)];
    struct whatif_lent all = {deep,    sizeof deep,  rules,  sizeof rules, numbers, WHATIF_NODE_TABLE_LEN(13),
                              states, sizeof states};
    uint32_t out[5], parts, finished = 0;
    must(whatif_load(own, sizeof own, deep, sizeof deep, rules, sizeof rules, numbers, all.node_table_len, states,
                     sizeof states),
         WHATIF_ACCEPTED);
    must(whatif_start_lent(own, sizeof own, &all, nodes, labels, 2, &parts), WHATIF_ACCEPTED);
    while (!finished && whatif_advance_lent(own, sizeof own, &all, &finished) == WHATIF_ACCEPTED)
        ;
    if (whatif_read(own, sizeof own, out, out + 1, out + 2, out + 3, out + 4) != WHATIF_ACCEPTED || out[2] != 2 ||
        out[3] != 3 || out[4] != 5)
        printf("NOT 2 parts, 3 links, 5 nodes passed over\n");
}

int main(void) {
    tells(WHATIF_EMPTY, 0, 0);
    uint32_t answer = whatif_load(record, sizeof record, plan, sizeof plan, rules, sizeof rules, node_table,
                                  lent.node_table_len, state_table, lent.state_table_len);
    if (answer != WHATIF_ACCEPTED)
        return 1;
    tells(WHATIF_LOADED, 0, 0);
    reads_nothing();
    altered();
    for (size_t i = 0; i < QUESTIONS; i++)
        ask(&questions[i]);
    survives();
    gap();
    /* a record of another length, as another layout version has, and bytes without a state */
    if (whatif_session_state(record, sizeof record - 1) != WHATIF_NO_STATE || whatif_parts(record, sizeof record + 8))
        printf("another length is taken for a RECORD\n");
    record[0] = 4;
    tells(WHATIF_NO_STATE, 0, 0);
    return 0;
}
