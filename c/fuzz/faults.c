/*
 * Wrong libraries, to see that the fuzz target notices: the linker puts these functions before the library's, and
 * FUZZ_FAULT says which of the faults below is laid. Not compiled with the sanitizers, as the archive isn't.
 */
#include "whatif.h"

#include <stdlib.h>
#include <string.h>

#define PLAN_RULES const uint8_t *plan, size_t plan_len, const uint8_t *rules, size_t rules_len
#define WRITTEN uint16_t *nodes, size_t nodes_len, uint8_t *states, size_t states_len
#define READ const uint16_t *nodes, size_t nodes_len, const uint8_t *states, size_t states_len
#define LIST const uint16_t *listed, size_t listed_len, const uint8_t *labels, size_t labels_len
#define MERGED                                                                                                         \
    const uint8_t *first, size_t first_len, const uint8_t *second, size_t second_len, uint8_t *merged, size_t merged_len
#define PLANNER_OUT                                                                                                    \
    const uint8_t *file, size_t file_len, uint8_t *plan, size_t plan_len, uint16_t *places, size_t places_len
#define COLOURS const uint16_t *numbers, size_t numbers_len, const uint8_t *bytes, size_t bytes_len
#define ALL plan, plan_len, rules, rules_len, nodes, nodes_len, states, states_len

uint32_t __real_whatif_build(PLAN_RULES, WRITTEN);
uint32_t __real_whatif_check(PLAN_RULES, READ, uint32_t *yes);
uint32_t __real_whatif_fresh_run(PLAN_RULES, LIST, uint32_t *state, uint32_t *yes);
uint32_t __real_whatif_merge(MERGED);
uint32_t __real_whatif_agree(const uint8_t *first, size_t first_len, const uint8_t *second, size_t second_len,
                             uint16_t *lines, size_t lines_len, uint32_t *agree, uint32_t *count);
uint32_t __real_whatif_count(PLAN_RULES, READ, const uint16_t *listed, size_t listed_len, uint64_t *counts,
                             size_t counts_len, uint32_t *parts, uint32_t *links);
uint32_t __real_whatif_ask(PLAN_RULES, READ, LIST, uint32_t *state, uint32_t *yes, uint32_t *parts, uint32_t *links,
                           uint32_t *passed);
uint32_t __real_whatif_allowed(PLAN_RULES, uint64_t *masks, size_t masks_len);
uint32_t __real_whatif_clearing(PLAN_RULES, uint16_t *sets, size_t sets_len);
uint32_t __real_whatif_fewest(PLAN_RULES, const uint64_t *may, size_t may_len, uint32_t want, uint32_t *work,
                              size_t work_len, uint16_t *nodes, size_t nodes_len, uint8_t *labels, size_t labels_len,
                              uint32_t *least, uint32_t *count);
uint32_t __real_whatif_plan_of_planner(PLANNER_OUT);
uint32_t __real_whatif_planner_of_plan(const uint8_t *plan, size_t plan_len, uint8_t *file, size_t file_len);
uint32_t __real_whatif_start(uint8_t *record, size_t record_len, PLAN_RULES, READ, LIST, uint32_t *parts);
uint32_t __real_whatif_cancel(uint8_t *record, size_t record_len);
uint32_t __real_whatif_read(const uint8_t *record, size_t record_len, uint32_t *state, uint32_t *yes, uint32_t *parts,
                            uint32_t *links, uint32_t *passed);
uint32_t __real_whatif_colour_branch_build(PLAN_RULES, WRITTEN);
uint32_t __real_whatif_colour_branch(PLAN_RULES, const uint16_t *nodes, size_t nodes_len, COLOURS, uint32_t upper,
                                     uint32_t lower, uint32_t *state, uint32_t *yes, uint32_t *drops, uint32_t *links);
uint32_t __real_whatif_colour_build(PLAN_RULES, WRITTEN);
uint32_t __real_whatif_colour_ask(PLAN_RULES, READ, COLOURS, LIST, uint32_t *state, uint32_t *yes, uint32_t *drops,
                                  uint32_t *links, uint32_t *parts);

uint32_t __real_whatif_screens_load(uint8_t *records, size_t records_len, PLAN_RULES, WRITTEN, uint32_t *next);
uint32_t __real_whatif_screens_start(uint8_t *records, size_t records_len, uint32_t screen, PLAN_RULES, READ, LIST,
                                     uint32_t *parts);
uint32_t __real_whatif_screens_deal(uint8_t *records, size_t records_len, uint32_t first, PLAN_RULES, READ,
                                    uint32_t *next, uint32_t *finished);
uint32_t __real_whatif_screens_cancel(uint8_t *records, size_t records_len, uint32_t screen);
uint32_t __real_whatif_screens_read(const uint8_t *records, size_t records_len, uint32_t screen, uint32_t *state,
                                    uint32_t *yes, uint32_t *parts, uint32_t *links, uint32_t *passed);

static int laid(int fault) {
    const char *chosen = getenv("FUZZ_FAULT");
    return chosen && atoi(chosen) == fault;
}

uint32_t __wrap_whatif_build(PLAN_RULES, WRITTEN) {
    uint32_t answer = __real_whatif_build(ALL);
    if (laid(1) && answer != 0 && states_len > 0) /* a refused build writes */
        states[0]++;
    if (laid(2) && answer == 0 && states_len > 21) /* the excess is written */
        states[21]++;
    return answer;
}

uint32_t __wrap_whatif_check(PLAN_RULES, READ, uint32_t *yes) {
    volatile uint8_t read = 0;
    if (laid(3)) /* one byte past the plan */
        read += plan[plan_len];
    if (laid(4) && plan_len > 0) /* one byte before the plan */
        read += plan[-1];
    uint32_t answer = __real_whatif_check(ALL, yes);
    if (laid(5) && answer == 0) /* yes to everything */
        *yes = 1;
    if (laid(44) && answer == 0) /* yes to everything, and Start accepts it */
        *yes = 1;
    return answer;
}

uint32_t __wrap_whatif_fresh_run(PLAN_RULES, LIST, uint32_t *state, uint32_t *yes) {
    uint32_t answer =
        __real_whatif_fresh_run(plan, plan_len, rules, rules_len, listed, listed_len, labels, labels_len, state, yes);
    if (laid(6) && answer != 0) /* refused, and told */
        *state = 0;
    return answer;
}

static uint32_t start_anyhow(uint8_t *record, size_t record_len, PLAN_RULES, READ, LIST, uint32_t *parts) {
    static uint16_t own_nodes[65535];
    static uint8_t own_states[65535];
    (void)nodes, (void)states;
    if (__real_whatif_build(plan, plan_len, rules, rules_len, own_nodes, nodes_len, own_states, states_len) != 0)
        return 18;
    return __real_whatif_start(record, record_len, plan, plan_len, rules, rules_len, own_nodes, nodes_len, own_states,
                               states_len, listed, listed_len, labels, labels_len, parts);
}

uint32_t __wrap_whatif_start(uint8_t *record, size_t record_len, PLAN_RULES, READ, LIST, uint32_t *parts) {
    uint32_t answer = __real_whatif_start(record, record_len, ALL, listed, listed_len, labels, labels_len, parts);
    if (laid(7) && answer == 0) /* the record left breaks its layout */
        record[966] = 1;
    if (laid(8) && answer == 0) /* more parts are told than there are */
        ++*parts;
    if (laid(9) && answer == 0 && listed_len > 0) /* another label is written down */
        record[141] ^= 1;
    if (laid(21) && answer == 0) /* 18 on what the build writes */
        return 18;
    if (laid(25) && answer == 0) /* the last finished answer is emptied */
        memset(record + 967, 0, 8), memset(record + 979, 0, 4);
    if (laid(44) && answer == 18) /* a Start on its own tables, and whatif_check says yes to those that are lent */
        return start_anyhow(record, record_len, ALL, listed, listed_len, labels, labels_len, parts);
    return answer;
}

uint32_t __wrap_whatif_cancel(uint8_t *record, size_t record_len) {
    uint32_t answer = __real_whatif_cancel(record, record_len);
    if (laid(10) && answer == 0) /* the question stays */
        record[0] = 2;
    if (laid(26) && answer == 0) /* the last finished answer is emptied */
        memset(record + 967, 0, 8), memset(record + 979, 0, 4);
    return answer;
}

uint32_t __wrap_whatif_read(const uint8_t *record, size_t record_len, uint32_t *state, uint32_t *yes, uint32_t *parts,
                            uint32_t *links, uint32_t *passed) {
    uint32_t answer = __real_whatif_read(record, record_len, state, yes, parts, links, passed);
    if (laid(11) && answer == 0) /* yes to everything */
        *yes = 1;
    if (laid(27) && answer == 0) /* nothing is passed over */
        *passed = 0;
    return answer;
}

uint32_t __wrap_whatif_merge(MERGED) {
    uint32_t answer = __real_whatif_merge(first, first_len, second, second_len, merged, merged_len);
    if (laid(12) && answer != 0 && merged_len > 0) /* a refused merge writes */
        merged[merged_len - 1]++;
    if (laid(13) && answer == 0) /* one byte past the output */
        merged[merged_len]++;
    if (laid(14) && answer == 0) /* another state of a leaf */
        merged[21] ^= 1;
    return answer;
}

uint32_t __wrap_whatif_agree(const uint8_t *first, size_t first_len, const uint8_t *second, size_t second_len,
                             uint16_t *lines, size_t lines_len, uint32_t *agree, uint32_t *count) {
    uint32_t answer = __real_whatif_agree(first, first_len, second, second_len, lines, lines_len, agree, count);
    if (laid(15) && answer == 0) /* they agree always */
        *agree = 1, *count = 0;
    if (laid(16) && answer == 0 && *count > 0) /* a line that names itself */
        lines[4 * *count - 2] = (uint16_t)(*count - 1), lines[4 * *count - 4] = 1;
    if (laid(17) && answer != 0) /* refused, and told */
        *count = 0;
    return answer;
}

uint32_t __wrap_whatif_plan_of_planner(PLANNER_OUT) {
    uint32_t answer = __real_whatif_plan_of_planner(file, file_len, plan, plan_len, places, places_len);
    if (laid(18) && answer != 0 && places_len > 0) /* a refused call writes */
        places[0]++;
    if (laid(19) && answer == 0) /* a place is told one too early */
        places[0]--;
    return answer;
}

uint32_t __wrap_whatif_planner_of_plan(const uint8_t *plan, size_t plan_len, uint8_t *file, size_t file_len) {
    uint32_t answer = __real_whatif_planner_of_plan(plan, plan_len, file, file_len);
    if (laid(20) && answer == 0) /* another label comes home */
        file[12]++;
    return answer;
}

uint32_t __wrap_whatif_count(PLAN_RULES, READ, const uint16_t *listed, size_t listed_len, uint64_t *counts,
                             size_t counts_len, uint32_t *parts, uint32_t *links) {
    uint32_t answer = __real_whatif_count(ALL, listed, listed_len, counts, counts_len, parts, links);
    if (laid(22) && answer != 0 && counts_len > 0) /* a refused count writes */
        counts[0] = 0;
    if (laid(23) && answer == 0) /* one number past the output */
        counts[counts_len]++;
    if (laid(24) && answer == 0 && counts_len > 1) /* a choice ends in another state */
        counts[0]++, counts[1]--;
    return answer;
}

uint32_t __wrap_whatif_screens_load(uint8_t *records, size_t records_len, PLAN_RULES, WRITTEN, uint32_t *next) {
    static uint8_t was[WHATIF_SCREENS_BYTES];
    int whole = records_len == WHATIF_SCREENS_BYTES;
    if (whole)
        memcpy(was, records, sizeof was);
    uint32_t answer = __real_whatif_screens_load(records, records_len, ALL, next);
    if (laid(28) && answer == 0) /* one record alone is cleared */
        memcpy(records + WHATIF_RECORD_BYTES, was + WHATIF_RECORD_BYTES, sizeof was - WHATIF_RECORD_BYTES);
    return answer;
}

uint32_t __wrap_whatif_screens_start(uint8_t *records, size_t records_len, uint32_t screen, PLAN_RULES, READ, LIST,
                                     uint32_t *parts) {
    uint32_t answer = __real_whatif_screens_start(records, records_len, screen, ALL, listed, listed_len, labels,
                                                  labels_len, parts);
    if (laid(29) && answer == 0) /* the record of another screen is written */
        records[WHATIF_RECORD_BYTES * ((screen + 1) % WHATIF_SCREENS) + 966] ^= 1;
    return answer;
}

uint32_t __wrap_whatif_screens_deal(uint8_t *records, size_t records_len, uint32_t first, PLAN_RULES, READ,
                                    uint32_t *next, uint32_t *finished) {
    if (laid(30)) /* screen 0 is tried first */
        first = 0;
    uint32_t answer = __real_whatif_screens_deal(records, records_len, first, ALL, next, finished);
    if (laid(31) && answer == 0) /* the screen served is told */
        *next = whatif_screens_served(*next);
    if (laid(32) && answer == 18) /* a refused deal tells the next screen */
        *next = (first + 1) % WHATIF_SCREENS;
    return answer;
}

uint32_t __wrap_whatif_screens_cancel(uint8_t *records, size_t records_len, uint32_t screen) {
    if (laid(33)) /* screens are cut to 8 bits */
        screen &= 255;
    return __real_whatif_screens_cancel(records, records_len, screen);
}

uint32_t __wrap_whatif_screens_read(const uint8_t *records, size_t records_len, uint32_t screen, uint32_t *state,
                                    uint32_t *yes, uint32_t *parts, uint32_t *links, uint32_t *passed) {
    if (laid(34) && records_len > WHATIF_SCREENS_BYTES) /* a longer run is taken */
        records_len = WHATIF_SCREENS_BYTES;
    return __real_whatif_screens_read(records, records_len, screen, state, yes, parts, links, passed);
}

uint32_t __wrap_whatif_colour_branch_build(PLAN_RULES, WRITTEN) {
    uint32_t answer = __real_whatif_colour_branch_build(ALL);
    if (laid(35) && answer != 0 && nodes_len > 0) /* a refused build writes */
        nodes[0]++;
    if (laid(36) && answer == 0 && states_len > 0) /* two colours have one state */
        states[0] = states[1];
    return answer;
}

uint32_t __wrap_whatif_colour_branch(PLAN_RULES, const uint16_t *nodes, size_t nodes_len, COLOURS, uint32_t upper,
                                     uint32_t lower, uint32_t *state, uint32_t *yes, uint32_t *drops, uint32_t *links) {
    uint32_t answer = __real_whatif_colour_branch(plan, plan_len, rules, rules_len, nodes, nodes_len, numbers,
                                                  numbers_len, bytes, bytes_len, upper, lower, state, yes, drops, links);
    if (laid(37) && answer == 0 && *drops > 0) /* a drop is told as none */
        --*drops;
    if (laid(38) && answer == 0) /* the state of the lowest colour */
        *state = bytes[lower * rules[0]];
    if (laid(39) && answer != 0) /* refused, and told */
        *links = 0;
    return answer;
}

uint32_t __wrap_whatif_colour_build(PLAN_RULES, WRITTEN) {
    uint32_t answer = __real_whatif_colour_build(ALL);
    if (laid(40) && answer == 27 && nodes_len > 0) /* with too many states a number is written */
        nodes[0]++;
    if (laid(41) && answer == 0) /* the last node's sets are exchanged */
        states[states_len - 1] = states[states_len - 2];
    return answer;
}

uint32_t __wrap_whatif_colour_ask(PLAN_RULES, READ, COLOURS, LIST, uint32_t *state, uint32_t *yes, uint32_t *drops,
                                  uint32_t *links, uint32_t *parts) {
    uint32_t answer = __real_whatif_colour_ask(ALL, numbers, numbers_len, bytes, bytes_len, listed, listed_len, labels,
                                               labels_len, state, yes, drops, links, parts);
    if (laid(42) && answer == 0) /* yes to everything */
        *yes = 1;
    if (laid(43) && answer != 0) /* refused, and told */
        *parts = 1;
    return answer;
}

uint32_t __wrap_whatif_ask(PLAN_RULES, READ, LIST, uint32_t *state, uint32_t *yes, uint32_t *parts, uint32_t *links,
                           uint32_t *passed) {
    uint32_t answer = __real_whatif_ask(ALL, listed, listed_len, labels, labels_len, state, yes, parts, links, passed);
    if (laid(45) && answer == 0) /* yes to everything */
        *yes = 1;
    if (laid(46) && answer == 0) /* the last part is not counted */
        --*parts;
    if (laid(47) && answer == 18) /* refused, and told */
        *state = 0;
    return answer;
}

uint32_t __wrap_whatif_allowed(PLAN_RULES, uint64_t *masks, size_t masks_len) {
    uint32_t answer = __real_whatif_allowed(plan, plan_len, rules, rules_len, masks, masks_len);
    if (laid(48) && answer == 0) /* every label would do at the first leaf */
        masks[0] = (2ull << (rules[4] - 1)) - 1;
    if (laid(49) && answer != 0 && masks_len > 0) /* a refused call writes */
        masks[0] = 0;
    return answer;
}

uint32_t __wrap_whatif_clearing(PLAN_RULES, uint16_t *sets, size_t sets_len) {
    uint32_t answer = __real_whatif_clearing(plan, plan_len, rules, rules_len, sets, sets_len);
    if (laid(50) && answer == 0) /* the first leaf's set is turned round */
        sets[0] ^= (uint16_t)((2u << (rules[0] - 1)) - 1);
    if (laid(51) && answer == 0 && sets_len > plan[0]) /* the excess is written */
        sets[sets_len - 1] = 0;
    return answer;
}

/* One more entry in the lists, in its place; 0 where the node is listed. */
static int listed_too(uint16_t *nodes, uint8_t *labels, uint32_t count, uint16_t node, uint8_t label) {
    uint32_t at = 0;
    while (at < count && nodes[at] < node)
        at++;
    if (at < count && nodes[at] == node)
        return 0;
    memmove(nodes + at + 1, nodes + at, 2 * (count - at)), memmove(labels + at + 1, labels + at, count - at);
    nodes[at] = node, labels[at] = label;
    return 1;
}

/* As whoever changes one node after the other ends: a list that does it, with a change that is not needed. */
static void one_too_many(PLAN_RULES, const uint64_t *may, size_t may_len, uint32_t want, uint16_t *nodes,
                         uint8_t *labels, uint32_t *least, uint32_t *count) {
    uint16_t longer[WHATIF_MAX_CHANGES + 1];
    uint8_t with[WHATIF_MAX_CHANGES + 1];
    uint32_t state, yes, all = plan[0] + 256u * plan[1];
    for (uint32_t i = 0; *count < WHATIF_MAX_CHANGES && i < all * rules[4]; i++) {
        uint32_t v = i / rules[4], a = i % rules[4];
        memcpy(longer, nodes, 2 * *count), memcpy(with, labels, *count);
        if (plan[12 + v] == a || (may_len && !(may[v] >> a & 1)) ||
            !listed_too(longer, with, *count, (uint16_t)v, (uint8_t)a) ||
            __real_whatif_fresh_run(plan, plan_len, rules, rules_len, longer, *count + 1, with, *count + 1, &state,
                                    &yes) ||
            yes != (want != 0))
            continue;
        ++*count, ++*least;
        memcpy(nodes, longer, 2 * *count), memcpy(labels, with, *count);
        return;
    }
}

/* The rules with one accepting state alone, the first; the states that want 0 asks for are those without a mark. */
static const uint8_t *first_state_alone(const uint8_t *rules, size_t rules_len, uint32_t want) {
    static uint8_t other[65536];
    size_t s = rules_len > 0 ? rules[0] : 0, first = s;
    if (rules_len > sizeof other || s == 0 || rules_len < s)
        return rules;
    memcpy(other, rules, rules_len);
    uint8_t *marks = other + rules_len - s;
    for (size_t i = s; i-- > 0;)
        first = marks[i] == (want != 0) ? i : first;
    for (size_t i = 0; i < s && first < s; i++)
        marks[i] = (i == first) == (want != 0);
    return other;
}

uint32_t __wrap_whatif_fewest(PLAN_RULES, const uint64_t *may, size_t may_len, uint32_t want, uint32_t *work,
                              size_t work_len, uint16_t *nodes, size_t nodes_len, uint8_t *labels, size_t labels_len,
                              uint32_t *least, uint32_t *count) {
    const uint8_t *table = laid(52) ? first_state_alone(rules, rules_len, want) : rules; /* the first accepting state */
    uint32_t answer = __real_whatif_fewest(plan, plan_len, table, rules_len, may, may_len, want, work, work_len, nodes,
                                           nodes_len, labels, labels_len, least, count);
    if (laid(53) && answer == 0 && *least > 0 && *count > 0) /* greedy: more changes than are needed */
        one_too_many(plan, plan_len, rules, rules_len, may, may_len, want, nodes, labels, least, count);
    if (laid(54) && answer == 0 && *least == 0) /* a kept label is counted */
        *least = *count = 1, nodes[0] = 0, labels[0] = plan[12];
    if (laid(55) && answer == 0 && *count > 1) /* a node is listed twice */
        nodes[1] = nodes[0];
    if (laid(56) && answer == 0 && *least > WHATIF_MAX_CHANGES) /* no way where the list would be too long */
        *least = WHATIF_NO_WAY;
    if (laid(57) && answer == 0 && *count > 0 && may_len > 0) /* a node that may not be changed */
        labels[0] = labels[0] == 0 ? 1 : 0;
    if (laid(58) && answer != 0 && work_len > 0) /* a refused call writes */
        work[0]++;
    if (laid(59) && answer == 0 && nodes_len > *count) /* the excess is written */
        nodes[*count]++;
    return answer;
}
