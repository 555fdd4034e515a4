/*
 * Would the plan in this file be cleared, as it is and with some labels changed?
 *
 *     check_file FILE [NODE=LABEL]...
 *
 * The file begins as the program whatif reads it (docs/whatif.md): three 32-bit lengths, then the plan and the rule
 * table. What follows, the questions, is not looked at. Plans of any size that the library takes. The status is 0 where
 * both are answered, 1 where something is refused, 2 where the file can't be read or the usage is wrong.
 * Build it with: cc examples/check_file.c $(PKG_CONFIG_PATH=build pkg-config --cflags --libs whatif), after
 * tools/archive.
 */
#include "whatif.h"

#include <stdio.h>
#include <stdlib.h>

#define GREATEST_PLAN WHATIF_PLAN_BYTES(WHATIF_MAX_NODES)
#define GREATEST_RULES WHATIF_RULES_BYTES(WHATIF_MAX_STATES, WHATIF_MAX_LABELS)

/* The greatest plan and table, so that nothing is allocated; a panel that knows its plans has smaller ones. */
static uint8_t plan[GREATEST_PLAN], rules[GREATEST_RULES], record[WHATIF_RECORD_BYTES];
static uint16_t node_table[WHATIF_NODE_TABLE_LEN(WHATIF_MAX_NODES)];
static uint8_t state_table[WHATIF_STATE_TABLE_LEN(WHATIF_MAX_NODES, WHATIF_MAX_STATES)];
static struct whatif_buffers buffers = {
    .plan = plan,
    .rules = rules,
    .node_table = node_table,
    .node_table_len = sizeof node_table / sizeof *node_table,
    .state_table = state_table,
    .state_table_len = sizeof state_table,
};
static struct whatif_lent lent;

static int read_file(const char *name) {
    uint8_t lengths[12];
    FILE *file = fopen(name, "rb");
    if (!file)
        return 0;
    int whole = fread(lengths, 1, 12, file) == 12;
    if (whole) {
        buffers.plan_len = whatif_number(lengths), buffers.rules_len = whatif_number(lengths + 4);
        whole = buffers.plan_len <= sizeof plan && buffers.rules_len <= sizeof rules &&
                fread(plan, 1, buffers.plan_len, file) == buffers.plan_len &&
                fread(rules, 1, buffers.rules_len, file) == buffers.rules_len;
    }
    fclose(file);
    return whole;
}

static int accepted(uint32_t answer) {
    if (answer != WHATIF_ACCEPTED)
        printf("refused %u: %s\n", answer, whatif_answer_text(answer));
    return answer == WHATIF_ACCEPTED;
}

/* One question, from Start to its answer. */
static int ask(const char *what, const uint16_t *nodes, const uint8_t *labels, size_t count) {
    uint32_t parts, finished = 0;
    struct whatif_told told = {0};
    printf("%s: ", what);
    if (!accepted(whatif_start_lent(record, sizeof record, &lent, nodes, labels, count, &parts)))
        return 0;
    while (!finished)
        if (!accepted(whatif_advance_lent(record, sizeof record, &lent, &finished)))
            return 0;
    if (!accepted(whatif_read_current(record, sizeof record, &told)))
        return 0;
    printf("%s, state %u, %u parts, %u links, %u nodes passed over\n", told.yes ? "cleared" : "not cleared", told.state,
           told.parts, told.links, told.passed);
    return 1;
}

int main(int words, char **word) {
    if (whatif_version() != WHATIF_VERSION_NUMBER)
        return fprintf(stderr, "header %s, archive %u\n", WHATIF_VERSION, whatif_version()), 2;
    uint16_t nodes[WHATIF_MAX_CHANGES];
    uint8_t labels[WHATIF_MAX_CHANGES];
    size_t count = 0;
    for (; count + 2 < (size_t)words && count < WHATIF_MAX_CHANGES; count++) {
        unsigned node, label;
        if (sscanf(word[count + 2], "%u=%u", &node, &label) != 2 || node > UINT16_MAX || label > UINT8_MAX)
            break;
        nodes[count] = (uint16_t)node, labels[count] = (uint8_t)label;
    }
    if (words < 2 || count + 2 < (size_t)words)
        return fprintf(stderr, "usage: check_file FILE [NODE=LABEL]..., at most %u\n", WHATIF_MAX_CHANGES), 2;
    if (!read_file(word[1]))
        return fprintf(stderr, "%s can't be read, or is shorter or longer than it may be\n", word[1]), 2;
    if (!accepted(whatif_load_lent(record, sizeof record, &buffers, &lent)))
        return 1;
    printf("loaded: %u nodes, %u states, %u labels\n", whatif_plan_nodes(plan, lent.plan_len),
           whatif_rules_states(rules, lent.rules_len), whatif_rules_labels(rules, lent.rules_len));
    return ask("as it is", NULL, NULL, 0) && (!count || ask("with the changes", nodes, labels, count)) ? 0 : 1;
}
