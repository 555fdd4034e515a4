/*
 * Every call that writes, into memory that nobody has set: whatever it says that it wrote is set afterwards, and nothing
 * is read before it is. For valgrind (c/memory), which knows what was set; without it the program only prints its line.
 */
#include "sample.h"

#include <stdio.h>
#include <stdlib.h>
#include <string.h>

#define N ((size_t)SAMPLE_NODES)
#define RULES plan, sizeof plan, rules, sizeof rules
#define BRANCH plan, sizeof plan, branch, sizeof branch

static unsigned long sum;

/* Memory that nobody has set. */
static void *unset(size_t bytes) {
    void *at = malloc(bytes);
    if (!at)
        exit(2);
    return at;
}

/* The program goes by each byte: valgrind says where one was not set. */
static void used(const void *at, size_t bytes) {
    for (size_t i = 0; i < bytes; i++)
        if (((const uint8_t *)at)[i])
            sum += i;
}

static void accepted(uint32_t answer, const uint32_t *out, size_t count) {
    if (answer != WHATIF_ACCEPTED)
        exit(1);
    used(out, count * sizeof *out);
}

static void tables_of_rules(uint16_t *nodes, uint8_t *states, uint32_t *out) {
    size_t numbers = WHATIF_NODE_TABLE_LEN(N), bytes = WHATIF_STATE_TABLE_LEN(N, SAMPLE_STATES);
    accepted(whatif_build(RULES, nodes, numbers, states, bytes), out, 0);
    used(nodes, numbers * sizeof *nodes), used(states, bytes);
    accepted(whatif_check(RULES, nodes, numbers, states, bytes, out), out, 1);
    accepted(whatif_fresh_run(RULES, NULL, 0, NULL, 0, out, out + 1), out, 2);
    const uint16_t open[] = {0, 3};
    uint64_t *counts = unset(SAMPLE_STATES * sizeof *counts);
    accepted(whatif_count(RULES, nodes, numbers, states, bytes, open, 2, counts, SAMPLE_STATES, out, out + 1), out, 2);
    used(counts, SAMPLE_STATES * sizeof *counts);
    free(counts);
    uint64_t *masks = unset(N * sizeof *masks);
    uint16_t *sets = unset(N * sizeof *sets);
    accepted(whatif_allowed(RULES, masks, N), out, 0), used(masks, N * sizeof *masks);
    accepted(whatif_clearing(RULES, sets, N), out, 0), used(sets, N * sizeof *sets);
    struct whatif_least *fewest = unset(sizeof *fewest);
    size_t room = WHATIF_FEWEST_WORK(N, SAMPLE_STATES);
    uint32_t *work = unset(room * sizeof *work);
    accepted(whatif_fewest_told(RULES, masks, N, 0, work, room, fewest), &fewest->least, 2);
    used(fewest->nodes, fewest->count * sizeof *fewest->nodes), used(fewest->labels, fewest->count);
    accepted(whatif_fewest_told(RULES, NULL, 0, 0, work, room, fewest), &fewest->least, 2);
    used(fewest->nodes, fewest->count * sizeof *fewest->nodes), used(fewest->labels, fewest->count);
    free(masks), free(sets), free(fewest), free(work);
}

static void tables_of_branches(uint16_t *nodes, uint8_t *states, uint32_t *out) {
    size_t numbers = WHATIF_NODE_TABLE_LEN(N), bytes = WHATIF_STATE_TABLE_LEN(N, SAMPLE_BRANCH_STATES);
    accepted(whatif_branch_build(BRANCH, nodes, numbers, states, bytes), out, 0);
    used(nodes, numbers * sizeof *nodes), used(states, bytes);
    accepted(whatif_branch_check(BRANCH, nodes, numbers, states, bytes, out), out, 1);
    accepted(whatif_branch(BRANCH, nodes, numbers, states, bytes, 6, 3, out, out + 1, out + 2, out + 3), out, 4);
    accepted(whatif_branch_with_upper(BRANCH, nodes, numbers, states, bytes, 6, 3, out, out + 1, out + 2, out + 3), out, 4);
}

static void session(uint16_t *nodes, uint8_t *states, uint32_t *out) {
    uint8_t record[WHATIF_RECORD_BYTES] = {0}, run[WHATIF_SCREENS_BYTES] = {0};
    size_t numbers = WHATIF_NODE_TABLE_LEN(N), bytes = WHATIF_STATE_TABLE_LEN(N, SAMPLE_STATES);
    const struct question *list = &questions[3];
    accepted(whatif_load(record, sizeof record, RULES, nodes, numbers, states, bytes), out, 0);
    accepted(whatif_start(record, sizeof record, RULES, nodes, numbers, states, bytes, list->nodes, list->m,
                          list->labels, list->m, out),
             out, 1);
    do
        accepted(whatif_advance(record, sizeof record, RULES, nodes, numbers, states, bytes, out), out, 1);
    while (!out[0]);
    accepted(whatif_read(record, sizeof record, out, out + 1, out + 2, out + 3, out + 4), out, 5);
    used(record, sizeof record), used(nodes, numbers * sizeof *nodes), used(states, bytes);
    accepted(whatif_screens_load(run, sizeof run, RULES, nodes, numbers, states, bytes, out), out, 1);
    accepted(whatif_screens_start(run, sizeof run, 5, RULES, nodes, numbers, states, bytes, list->nodes, list->m,
                                  list->labels, list->m, out),
             out, 1);
    do
        accepted(whatif_screens_deal(run, sizeof run, 0, RULES, nodes, numbers, states, bytes, out, out + 1), out, 2);
    while (!out[1]);
    accepted(whatif_screens_read(run, sizeof run, 5, out, out + 1, out + 2, out + 3, out + 4), out, 5);
    used(run, sizeof run);
}

/* Rule tables, lists and planner's files. */
static void others(uint32_t *out) {
    size_t len = WHATIF_RULES_BYTES(4, 2);
    uint8_t *merged = unset(len), other[sizeof rules];
    accepted(whatif_merge(rules, sizeof rules, rules, sizeof rules, merged, len), out, 0);
    used(merged, len);
    memcpy(other, rules, sizeof rules), other[sizeof rules - 1] ^= 1;
    uint16_t *lines = unset(4 * WHATIF_MAX_LINES * sizeof *lines), *laid = unset(2 * sizeof *laid);
    accepted(whatif_agree(rules, sizeof rules, other, sizeof other, lines, 4 * WHATIF_MAX_LINES, out, out + 1), out, 2);
    used(lines, 4 * out[1] * sizeof *lines);
    uint8_t *labels = unset(2);
    const struct question *list = &questions[3];
    accepted(whatif_lay_over(list->nodes, 2, list->labels, 2, list->nodes, 1, list->labels, 1, laid, 2, labels, 2, out),
             out, 1);
    used(laid, out[0] * sizeof *laid), used(labels, out[0]);
    const uint8_t file[] = {3, 0, 0, 0, 12, 0, 0, 0, 15, 0, 0, 0, 5, 6, 7, 2, 0, 0};
    uint8_t *image = unset(WHATIF_PLANNER_PLAN_BYTES(3)), *home = unset(sizeof file);
    uint16_t *places = unset(3 * sizeof *places);
    accepted(whatif_plan_of_planner(file, sizeof file, image, WHATIF_PLANNER_PLAN_BYTES(3), places, 3), out, 0);
    used(image, WHATIF_PLANNER_PLAN_BYTES(3)), used(places, 3 * sizeof *places);
    accepted(whatif_planner_of_plan(image, WHATIF_PLANNER_PLAN_BYTES(3), home, sizeof file), out, 0);
    used(home, sizeof file);
    free(merged), free(lines), free(laid), free(labels), free(image), free(home), free(places);
}

static void colours(uint16_t *nodes, uint8_t *states, uint32_t *out) {
    size_t numbers_len = WHATIF_COLOUR_BRANCH_NUMBERS(N, SAMPLE_BRANCH_STATES), bytes_len = WHATIF_COLOUR_BYTES(N, 3);
    uint16_t *numbers = unset(numbers_len * sizeof *numbers);
    uint8_t *bytes = unset(bytes_len);
    accepted(whatif_colour_branch_build(BRANCH, numbers, numbers_len, bytes, bytes_len), out, 0);
    used(numbers, numbers_len * sizeof *numbers), used(bytes, WHATIF_COLOUR_BRANCH_BYTES(N, SAMPLE_BRANCH_STATES));
    accepted(whatif_colour_branch(BRANCH, numbers, WHATIF_NODE_TABLE_LEN(N), numbers, numbers_len, bytes, bytes_len, 6, 3,
                                  out, out + 1, out + 2, out + 3),
             out, 4);
    free(numbers), free(bytes);
    numbers_len = WHATIF_COLOUR_NUMBERS(N, SAMPLE_STATES), bytes_len = WHATIF_COLOUR_BYTES(N, SAMPLE_STATES);
    numbers = unset(numbers_len * sizeof *numbers), bytes = unset(bytes_len);
    accepted(whatif_colour_build(RULES, numbers, numbers_len, bytes, bytes_len), out, 0);
    used(numbers, numbers_len * sizeof *numbers), used(bytes, bytes_len);
    const struct question *list = &questions[3];
    accepted(whatif_colour_ask(RULES, nodes, WHATIF_NODE_TABLE_LEN(N), states, WHATIF_STATE_TABLE_LEN(N, SAMPLE_STATES),
                               numbers, numbers_len, bytes, bytes_len, list->nodes, list->m, list->labels, list->m, out,
                               out + 1, out + 2, out + 3, out + 4),
             out, 5);
    free(numbers), free(bytes);
}

int main(void) {
    uint16_t *nodes = unset(WHATIF_NODE_TABLE_LEN(N) * sizeof *nodes);
    uint8_t *states = unset(WHATIF_STATE_TABLE_LEN(N, SAMPLE_BRANCH_STATES));
    uint32_t *out = unset(5 * sizeof *out);
    tables_of_branches(nodes, states, out);
    free(nodes), free(states);
    nodes = unset(WHATIF_NODE_TABLE_LEN(N) * sizeof *nodes), states = unset(WHATIF_STATE_TABLE_LEN(N, SAMPLE_STATES));
    tables_of_rules(nodes, states, out);
    free(nodes), free(states);
    nodes = unset(WHATIF_NODE_TABLE_LEN(N) * sizeof *nodes), states = unset(WHATIF_STATE_TABLE_LEN(N, SAMPLE_STATES));
    session(nodes, states, out);
    colours(nodes, states, out);
    others(out);
    free(nodes), free(states), free(out);
    printf("%s\n", sum > 0 ? "every call wrote what it says" : "nothing was written");
    return 0;
}
