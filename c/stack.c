/*
 * The stack that each call needs, on plans of 65,535 nodes with 16 states, 64 labels and 64 changes: it is run on a
 * painted stack, and what it leaves unpainted is counted, less what an empty call leaves. It is compared with what
 * interface.txt allows; the header says the same in words. With a number of KiB as its word the calls that may need so
 * much are made on the program's own stack, which the caller keeps short (ulimit -s).
 */
#define _POSIX_C_SOURCE 200809L
#include "whatif.h"

#include <pthread.h>
#include <stdio.h>
#include <stdlib.h>
#include <string.h>

#define N 65535u
#define STATES 16u
#define LABELS 64u
#define PAINT 0xA5
#define ROOM ((size_t)1 << 18)

static uint8_t plan[WHATIF_PLAN_BYTES(N)], record[WHATIF_RECORD_BYTES];
static uint8_t screens[WHATIF_SCREENS_BYTES];
static uint8_t rules[WHATIF_RULES_BYTES(STATES, LABELS)], branch[WHATIF_BRANCH_BYTES(STATES, LABELS)];
static uint16_t node_table[WHATIF_NODE_TABLE_LEN(N)], nodes[WHATIF_MAX_CHANGES];
static uint8_t state_table[WHATIF_STATE_TABLE_LEN(N, STATES)], labels[WHATIF_MAX_CHANGES];
static uint8_t four[WHATIF_RULES_BYTES(4, LABELS)], merged[WHATIF_RULES_BYTES(STATES, LABELS)];
static uint16_t lines[4 * WHATIF_MAX_LINES];
static uint8_t planner[WHATIF_PLANNER_BYTES(N / 2)], image[WHATIF_PLANNER_PLAN_BYTES(N / 2)];
static uint16_t places[N / 2];
static uint16_t over_nodes[WHATIF_MAX_CHANGES];
static uint8_t over_labels[WHATIF_MAX_CHANGES];
static uint64_t counts[WHATIF_MAX_STATES], masks[N];
static uint16_t sets[N];
static uint32_t work[WHATIF_FEWEST_WORK(N, STATES)];
static uint8_t marked[WHATIF_RULES_BYTES(STATES, LABELS)]; /* a state that the plan as it is does not end in */
static uint16_t colour_numbers[WHATIF_COLOUR_BRANCH_NUMBERS(N, STATES)];
static uint8_t colour_bytes[WHATIF_COLOUR_BYTES(N, WHATIF_MAX_COLOUR_STATES)];
static uint32_t answer, out[5];
static _Alignas(64) uint8_t stack[ROOM];

#define RULES plan, sizeof plan, rules, sizeof rules
#define BRANCH plan, sizeof plan, branch, sizeof branch
#define TABLES node_table, WHATIF_NODE_TABLE_LEN(N), state_table, sizeof state_table
#define LIST nodes, WHATIF_MAX_CHANGES, labels, WHATIF_MAX_CHANGES
#define RECORD record, sizeof record
#define RUN screens, sizeof screens
#define FOUR four, sizeof four
#define SIXTEEN rules, sizeof rules
#define COLOURS colour_numbers, WHATIF_COLOUR_BRANCH_NUMBERS(N, STATES), colour_bytes, sizeof colour_bytes
#define FOUR_STATES node_table, WHATIF_NODE_TABLE_LEN(N), state_table, WHATIF_STATE_TABLE_LEN(N, 4)

/* The exported calls, and the bytes of stack that each may take. */
/* calls: generated from interface.txt by tools/interface */
#define CALLS(CALL) \
    CALL(load, 4 * 1024) \
    CALL(start, 10 * 1024) \
    CALL(advance, 4 * 1024) \
    CALL(cancel, 4 * 1024) \
    CALL(read, 4 * 1024) \
    CALL(screens_load, 4 * 1024) \
    CALL(screens_start, 10 * 1024) \
    CALL(screens_deal, 4 * 1024) \
    CALL(screens_cancel, 4 * 1024) \
    CALL(screens_read, 4 * 1024) \
    CALL(build, 5 * 1024) \
    CALL(check, 8 * 1024) \
    CALL(fresh_run, 40 * 1024) \
    CALL(ask, 3 * 1024) \
    CALL(allowed, 1 * 1024) \
    CALL(clearing, 1 * 1024) \
    CALL(fewest, 1 * 1024) \
    CALL(branch_build, 5 * 1024) \
    CALL(branch_check, 3 * 1024) \
    CALL(branch, 1 * 1024) \
    CALL(branch_with_upper, 1 * 1024) \
    CALL(colour_build, 5 * 1024) \
    CALL(colour_ask, 3 * 1024) \
    CALL(colour_branch_build, 5 * 1024) \
    CALL(colour_branch, 1 * 1024) \
    CALL(colour_branch_with_upper, 1 * 1024) \
    CALL(count, 35 * 1024) \
    CALL(merge, 1 * 1024) \
    CALL(agree, 12 * 1024) \
    CALL(lay_over, 1 * 1024) \
    CALL(plan_of_planner, 1 * 1024) \
    CALL(planner_of_plan, 1 * 1024) \
    CALL(version, 1 * 1024)
/* end of calls */

#define MOST_OF(name, most) most_of_##name = most,
enum { CALLS(MOST_OF) };

/* The compiler refuses a call that is not made below, or not measured. */
#define MADE_BELOW(name, most) static void make_##name(void);
CALLS(MADE_BELOW)

static void nothing(void) { answer = 0; }
static void make_version(void) { answer = whatif_version() != WHATIF_VERSION_NUMBER; }
static void make_build(void) { answer = whatif_build(RULES, TABLES); }
static void make_check(void) { answer = whatif_check(RULES, TABLES, out); }
static void make_fresh_run(void) { answer = whatif_fresh_run(RULES, LIST, out, out + 1); }
static void make_ask(void) {
    answer = whatif_ask(RULES, TABLES, LIST, out, out + 1, out + 2, out + 3, out + 4);
}
static void make_allowed(void) { answer = whatif_allowed(RULES, masks, N); }
static void make_clearing(void) { answer = whatif_clearing(RULES, sets, N); }
/* Some changes clear the plan, and are listed. */
static void make_fewest(void) {
    answer = whatif_fewest(plan, sizeof plan, marked, sizeof marked, NULL, 0, 1, work, WHATIF_FEWEST_WORK(N, STATES),
                           over_nodes, WHATIF_MAX_CHANGES, over_labels, WHATIF_MAX_CHANGES, out, out + 1);
    answer = answer == WHATIF_ACCEPTED && (out[1] == 0 || out[0] != out[1]) ? 1000u : answer;
}
static void make_branch_build(void) { answer = whatif_branch_build(BRANCH, TABLES); }
static void make_branch_check(void) { answer = whatif_branch_check(BRANCH, TABLES, out); }
static void make_branch(void) { answer = whatif_branch(BRANCH, TABLES, N - 1, 1, out, out + 1, out + 2, out + 3); }
static void make_branch_with_upper(void) {
    answer = whatif_branch_with_upper(BRANCH, TABLES, N - 1, 1, out, out + 1, out + 2, out + 3);
}
static void make_merge(void) { answer = whatif_merge(FOUR, FOUR, merged, sizeof merged); }
static void make_agree(void) { answer = whatif_agree(SIXTEEN, SIXTEEN, lines, 4 * WHATIF_MAX_LINES, out, out + 1); }
static void make_plan_of_planner(void) {
    answer = whatif_plan_of_planner(planner, sizeof planner, image, sizeof image, places, N / 2);
}
static void make_planner_of_plan(void) {
    answer = whatif_planner_of_plan(image, sizeof image, planner, sizeof planner);
}
static void make_lay_over(void) {
    answer = whatif_lay_over(LIST, LIST, over_nodes, WHATIF_MAX_CHANGES, over_labels, WHATIF_MAX_CHANGES, out);
}
/* nine nodes with 64 labels are the most that 26 lets through */
static void make_count(void) {
    answer = whatif_count(RULES, TABLES, nodes, 9, counts, WHATIF_MAX_STATES, out, out + 1);
}
static void make_colour_branch_build(void) { answer = whatif_colour_branch_build(BRANCH, COLOURS); }
static void make_colour_branch(void) {
    answer = whatif_colour_branch(BRANCH, node_table, WHATIF_NODE_TABLE_LEN(N), COLOURS, N - 1, 1, out, out + 1, out + 2,
                                  out + 3);
}
static void make_colour_branch_with_upper(void) {
    answer = whatif_colour_branch_with_upper(BRANCH, node_table, WHATIF_NODE_TABLE_LEN(N), COLOURS, N - 1, 1, out,
                                             out + 1, out + 2, out + 3);
}
/* with the rule table of four states */
static void build_of_four(void) { answer = whatif_build(plan, sizeof plan, FOUR, FOUR_STATES); }
static void make_colour_build(void) { answer = whatif_colour_build(plan, sizeof plan, FOUR, COLOURS); }
static void make_colour_ask(void) {
    answer = whatif_colour_ask(plan, sizeof plan, FOUR, FOUR_STATES, COLOURS, LIST, out, out + 1, out + 2, out + 3,
                               out + 4);
}
static void make_load(void) { answer = whatif_load(RECORD, RULES, TABLES); }
static void make_start(void) { answer = whatif_start(RECORD, RULES, TABLES, LIST, out); }
static void make_cancel(void) { answer = whatif_cancel(RECORD); }
static void make_read(void) { answer = whatif_read(RECORD, out, out + 1, out + 2, out + 3, out + 4); }
static void make_advance(void) {
    do
        answer = whatif_advance(RECORD, RULES, TABLES, out);
    while (!answer && !out[0]);
}
/* the inline functions that need most */
static void confirm(void) {
    const struct whatif_lent lent = {RULES, TABLES};
    uint32_t reason = whatif_confirm(RECORD, &lent, nodes, labels, WHATIF_MAX_CHANGES).reason;
    answer = reason == WHATIF_CONFIRM_CLEARED || reason == WHATIF_CONFIRM_NOT_CLEARED ? WHATIF_ACCEPTED : reason;
}
static void why(void) { answer = !whatif_why_1(RECORD, WHATIF_CALL_ADVANCE); }
static void replace(void) { answer = whatif_screens_replace(RUN, 5, RECORD); }
static void make_screens_load(void) { answer = whatif_screens_load(RUN, RULES, TABLES, out); }
static void make_screens_start(void) { answer = whatif_screens_start(RUN, 5, RULES, TABLES, LIST, out); }
static void make_screens_cancel(void) { answer = whatif_screens_cancel(RUN, 5); }
static void make_screens_read(void) { answer = whatif_screens_read(RUN, 5, out, out + 1, out + 2, out + 3, out + 4); }
static void make_screens_deal(void) {
    do
        answer = whatif_screens_deal(RUN, 0, RULES, TABLES, out, out + 1);
    while (!answer && !out[1]);
}

#define EXPORTED(name) {"whatif_" #name, make_##name, most_of_##name}

/* In an order in which every call is accepted; the bytes that it may take. */
static const struct call {
    const char *name;
    void (*make)(void);
    size_t most;
} calls[] = {
    EXPORTED(build),
    EXPORTED(check),
    EXPORTED(fresh_run),
    EXPORTED(ask),
    EXPORTED(allowed),
    EXPORTED(clearing),
    EXPORTED(fewest),
    EXPORTED(load),
    EXPORTED(start),
    EXPORTED(cancel),
    EXPORTED(start),
    EXPORTED(advance),
    EXPORTED(read),
    {"whatif_confirm", confirm, 42 * 1024},
    {"whatif_why_1", why, 6 * 1024},
    {"whatif_screens_replace", replace, 6 * 1024},
    EXPORTED(screens_load),
    EXPORTED(screens_start),
    EXPORTED(screens_cancel),
    EXPORTED(screens_start),
    EXPORTED(screens_deal),
    EXPORTED(screens_read),
    EXPORTED(count),
    EXPORTED(branch_build),
    EXPORTED(branch_check),
    EXPORTED(branch),
    EXPORTED(branch_with_upper),
    EXPORTED(merge),
    EXPORTED(agree),
    EXPORTED(plan_of_planner),
    EXPORTED(planner_of_plan),
    EXPORTED(lay_over),
    EXPORTED(colour_branch_build),
    EXPORTED(colour_branch),
    EXPORTED(colour_branch_with_upper),
    {"build of four states", build_of_four, most_of_build},
    EXPORTED(colour_build),
    EXPORTED(colour_ask),
    EXPORTED(version),
};

static void *run(void *make) {
    ((const struct call *)make)->make();
    return NULL;
}

static size_t used(const struct call *call) {
    pthread_attr_t attributes;
    pthread_t thread;
    size_t left = 0;
    memset(stack, PAINT, sizeof stack);
    if (pthread_attr_init(&attributes) || pthread_attr_setstack(&attributes, stack, sizeof stack) ||
        pthread_create(&thread, &attributes, run, (void *)(uintptr_t)call) || pthread_join(thread, NULL))
        exit(2);
    pthread_attr_destroy(&attributes);
    while (left < sizeof stack && stack[left] == PAINT)
        left++;
    return sizeof stack - left;
}

static void put(uint8_t *at, size_t number) {
    for (int i = 0; i < 4; i++)
        at[i] = (uint8_t)(number >> (8 * i));
}

static void header(uint8_t *at, size_t count, const size_t *numbers) {
    for (size_t i = 0; i < count; i++)
        put(at + 4 * i, numbers[i]);
}

/* The state that the plan ends in as it is: not by a run on the stack of main. */
static void run_as_it_is(void) { answer = whatif_fresh_run(RULES, NULL, 0, NULL, 0, out, out + 1); }
static const struct call as_it_is = {"a run", run_as_it_is, 0};

/* A comb to the left or to the right; a planner's chain, or pairs of children, below the first of which others are;
 * tables and lists that lead anywhere. */
static void make_inputs(int left) {
    const size_t inner = 20 + LABELS, marks = inner + STATES * LABELS * STATES, branch_marks = 16 + STATES * LABELS;
    header(plan, 3, (const size_t[]){N, 12, 12 + N});
    for (size_t v = 0; v < N; v++) {
        plan[12 + v] = (uint8_t)(v * 7 % LABELS);
        plan[12 + N + v] = left ? v > 0 && v % 2 == 0 : v > N / 2;
    }
    header(rules, 5, (const size_t[]){STATES, LABELS, 20, inner, marks});
    for (size_t i = 20; i < marks; i++)
        rules[i] = (uint8_t)((i * i + i / 3) % STATES);
    header(four, 5, (const size_t[]){4, LABELS, 20, inner, inner + 4 * LABELS * 4});
    for (size_t i = 20; i < inner + 4 * LABELS * 4; i++)
        four[i] = (uint8_t)((i * i + i / 3) % 4);
    header(branch, 4, (const size_t[]){STATES, LABELS, 16, branch_marks});
    for (size_t i = 16; i < branch_marks; i++)
        branch[i] = (uint8_t)((i * i + i / 5) % STATES);
    for (size_t i = 0; i < WHATIF_MAX_CHANGES; i++) {
        nodes[i] = (uint16_t)(1 + i * 1000);
        labels[i] = (uint8_t)((i * 5 + 1) % LABELS);
    }
    header(planner, 3, (const size_t[]){N / 2, 12, 12 + N / 2});
    for (size_t v = 0; v < N / 2; v++) {
        planner[12 + v] = (uint8_t)(v * 7 % 63);
        planner[12 + N / 2 + v] = left ? v + 1 < N / 2 : v == 0 ? 2 : v % 2 == 1 && v + 2 < N / 2 ? 2 : 0;
    }
    memset(record, 0, sizeof record);
    memset(screens, 0, sizeof screens);
    memcpy(marked, rules, sizeof rules);
    used(&as_it_is);
    if (answer == WHATIF_ACCEPTED)
        marked[marks + (out[0] + 5) % STATES] = 1;
}

/* Those that may need so many bytes on the stack of main, the others as always; whether all are accepted. */
static int on_own_stack(size_t most) {
    for (int left = 0; left < 2; left++) {
        make_inputs(left);
        for (size_t i = 0; i < sizeof calls / sizeof *calls; i++) {
            if (calls[i].most <= most)
                calls[i].make();
            else
                used(&calls[i]);
            if (answer != WHATIF_ACCEPTED)
                return 0;
        }
    }
    return 1;
}

int main(int words, char **word) {
    if (words > 1)
        return !on_own_stack((size_t)strtoul(word[1], NULL, 10) * 1024);
    const struct call empty = {"nothing", nothing, 0};
    int wrong = 0;
    for (int left = 0; left < 2; left++) {
        make_inputs(left);
        for (size_t i = 0; i < sizeof calls / sizeof *calls; i++) {
            size_t least = used(&empty), most = used(&calls[i]);
            int fits = answer == WHATIF_ACCEPTED && most - least <= calls[i].most;
            printf("c: stack of %s: %zu bytes%s\n", calls[i].name, most - least, fits ? "" : ", NOT accepted or too much");
            wrong |= !fits;
        }
    }
    return wrong;
}
