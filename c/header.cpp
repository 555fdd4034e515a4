// The header alone, as C++: it compiles, the names link as C's, and each inline function answers as in C.
#include "whatif.h"

#include <cstring>

static int without_a_session() {
    uint32_t yes = 9, state = 9, links = 9, passed = 9;
    uint32_t answers[] = {
        whatif_build(NULL, 0, NULL, 0, NULL, 0, NULL, 0),
        whatif_check(NULL, 0, NULL, 0, NULL, 0, NULL, 0, &yes),
        whatif_fresh_run(NULL, 0, NULL, 0, NULL, 0, NULL, 0, &state, &yes),
        whatif_branch_build(NULL, 0, NULL, 0, NULL, 0, NULL, 0),
        whatif_branch_check(NULL, 0, NULL, 0, NULL, 0, NULL, 0, &yes),
        whatif_colour_branch_build(NULL, 0, NULL, 0, NULL, 0, NULL, 0),
        whatif_colour_build(NULL, 0, NULL, 0, NULL, 0, NULL, 0),
    };
    for (unsigned i = 0; i < sizeof answers / sizeof *answers; i++)
        if (answers[i] != WHATIF_REFUSED_PLAN_SHORT)
            return 1;
    if (whatif_branch(NULL, 0, NULL, 0, NULL, 0, NULL, 0, 0, 0, &state, &yes, &links, &passed) !=
        WHATIF_REFUSED_LENT_LENGTH)
        return 2;
    if (whatif_branch_with_upper(NULL, 0, NULL, 0, NULL, 0, NULL, 0, 0, 0, &state, &yes, &links, &passed) !=
        WHATIF_REFUSED_LENT_LENGTH)
        return 10;
    if (whatif_colour_branch(NULL, 0, NULL, 0, NULL, 0, NULL, 0, NULL, 0, 0, 0, &state, &yes, &links, &passed) !=
        WHATIF_REFUSED_LENT_LENGTH)
        return 13;
    if (whatif_colour_branch_with_upper(NULL, 0, NULL, 0, NULL, 0, NULL, 0, NULL, 0, 0, 0, &state, &yes, &links,
                                        &passed) != WHATIF_REFUSED_LENT_LENGTH)
        return 14;
    if (whatif_colour_ask(NULL, 0, NULL, 0, NULL, 0, NULL, 0, NULL, 0, NULL, 0, NULL, 0, NULL, 0, &state, &yes, &links,
                          &passed, &passed) != WHATIF_REFUSED_LENT_LENGTH)
        return 15;
    if (whatif_count(NULL, 0, NULL, 0, NULL, 0, NULL, 0, NULL, 0, NULL, 0, &state, &links) != WHATIF_REFUSED_LENT_LENGTH)
        return 12;
    if (whatif_allowed(NULL, 0, NULL, 0, NULL, 0) != WHATIF_REFUSED_PLAN_SHORT ||
        whatif_clearing(NULL, 0, NULL, 0, NULL, 0) != WHATIF_REFUSED_PLAN_SHORT ||
        whatif_fewest(NULL, 0, NULL, 0, NULL, 0, 1, NULL, 0, NULL, 0, NULL, 0, &state, &links) !=
            WHATIF_REFUSED_PLAN_SHORT)
        return 16;
    if (whatif_merge(NULL, 0, NULL, 0, NULL, 0) != WHATIF_REFUSED_TABLE_SHORT)
        return 8;
    if (whatif_agree(NULL, 0, NULL, 0, NULL, 0, &yes, &links) != WHATIF_REFUSED_TABLE_SHORT)
        return 9;
    if (whatif_plan_of_planner(NULL, 0, NULL, 0, NULL, 0) != WHATIF_REFUSED_PLANNER_FILE)
        return 10;
    if (whatif_planner_of_plan(NULL, 0, NULL, 0) != WHATIF_REFUSED_PLANNER_FILE)
        return 11;
    return yes == 9 && state == 9 && links == 9 && passed == 9 ? 0 : 3;
}

// No record at all is a broken one.
static int with_a_session() {
    uint32_t out[5] = {9, 9, 9, 9, 9};
    uint32_t answers[] = {
        whatif_load(NULL, 0, NULL, 0, NULL, 0, NULL, 0, NULL, 0),
        whatif_start(NULL, 0, NULL, 0, NULL, 0, NULL, 0, NULL, 0, NULL, 0, NULL, 0, out),
        whatif_advance(NULL, 0, NULL, 0, NULL, 0, NULL, 0, NULL, 0, out),
        whatif_cancel(NULL, 0),
        whatif_read(NULL, 0, out, out + 1, out + 2, out + 3, out + 4),
    };
    for (unsigned i = 0; i < sizeof answers / sizeof *answers; i++)
        if (answers[i] != WHATIF_REFUSED_SESSION_STATE)
            return 4;
    return out[0] == 9 && out[1] == 9 && out[2] == 9 && out[3] == 9 && out[4] == 9 ? 0 : 5;
}

// No run at all has another length than eight records.
static int with_screens() {
    uint32_t out[5] = {9, 9, 9, 9, 9};
    uint32_t answers[] = {
        whatif_screens_load(NULL, 0, NULL, 0, NULL, 0, NULL, 0, NULL, 0, out),
        whatif_screens_start(NULL, 0, 0, NULL, 0, NULL, 0, NULL, 0, NULL, 0, NULL, 0, NULL, 0, out),
        whatif_screens_deal(NULL, 0, 0, NULL, 0, NULL, 0, NULL, 0, NULL, 0, out, out + 1),
        whatif_screens_cancel(NULL, 0, 0),
        whatif_screens_read(NULL, 0, 0, out, out + 1, out + 2, out + 3, out + 4),
    };
    for (unsigned i = 0; i < sizeof answers / sizeof *answers; i++)
        if (answers[i] != WHATIF_REFUSED_SCREEN)
            return 13;
    return out[0] == 9 && out[1] == 9 && out[2] == 9 && out[3] == 9 && out[4] == 9 ? 0 : 14;
}

// Document 01's plan A and table A, from their parts, and a branch table.
static uint8_t plan[WHATIF_PLAN_BYTES(7)], rules[WHATIF_RULES_BYTES(2, 2)], branch[WHATIF_BRANCH_BYTES(3, 2)];
static uint16_t node_table[WHATIF_NODE_TABLE_LEN(7)], places[3];
static uint8_t state_table[WHATIF_STATE_TABLE_LEN(7, 3)], record[WHATIF_RECORD_BYTES], run[WHATIF_SCREENS_BYTES];
static const whatif_buffers buffers = {plan, sizeof plan, rules, sizeof rules, node_table, WHATIF_NODE_TABLE_LEN(7),
                                       state_table, WHATIF_STATE_TABLE_LEN(7, 2)};
static whatif_lent lent;
static const uint16_t nodes[] = {0, 2};
static const uint8_t labels[] = {0, 0};

static bool writes_and_counts() {
    static const uint8_t plan_labels[] = {1, 1, 1, 0, 1, 0, 1}, kinds[] = {0, 0, 1, 0, 0, 1, 1};
    static const uint8_t leaf[] = {0, 1}, inner[2][2][2] = {{{0, 1}, {0, 0}}, {{1, 1}, {0, 1}}}, marks[] = {0, 0, 1};
    static const uint8_t steps[3][2] = {{0, 1}, {2, 1}, {2, 2}};
    static const uint8_t file[] = {3, 0, 0, 0, 12, 0, 0, 0, 15, 0, 0, 0, 5, 6, 7, 2, 0, 0};
    uint8_t of_planner[WHATIF_PLANNER_PLAN_BYTES(3)];
    return whatif_write_plan(plan_labels, 7, kinds, 7, plan, sizeof plan) == WHATIF_ACCEPTED &&
           whatif_write_rules(leaf, 2, &inner[0][0][0], 8, marks + 1, 2, rules, sizeof rules) == WHATIF_ACCEPTED &&
           whatif_write_branch(&steps[0][0], 6, marks, 3, branch, sizeof branch) == WHATIF_ACCEPTED &&
           whatif_plan_nodes(plan, sizeof plan) == 7 && whatif_rules_states(rules, sizeof rules) == 2 &&
           whatif_rules_labels(rules, sizeof rules) == 2 && whatif_branch_states(branch, sizeof branch) == 3 &&
           whatif_branch_labels(branch, sizeof branch) == 2 && whatif_planner_nodes(file, sizeof file) == 3 &&
           whatif_plan_of_planner(file, sizeof file, of_planner, sizeof of_planner, places, 3) == WHATIF_ACCEPTED &&
           places[0] == 6;
}

static bool asks_and_confirms() {
    whatif_told told = {};
    uint32_t parts = 0, finished = 0;
    if (whatif_load_lent(record, sizeof record, &buffers, &lent) != WHATIF_ACCEPTED ||
        whatif_start_lent(record, sizeof record, &lent, nodes, labels, 2, &parts) != WHATIF_ACCEPTED || parts != 3 ||
        whatif_read_current(record, sizeof record, &told) != WHATIF_REFUSED_SESSION_STATE ||
        std::strcmp(whatif_why_1(record, sizeof record, WHATIF_CALL_READ_CURRENT),
                    "The question is still running: an earlier answer is not this one's.") != 0)
        return false;
    while (!finished)
        if (whatif_advance_lent(record, sizeof record, &lent, &finished) != WHATIF_ACCEPTED)
            return false;
    whatif_confirmed yes = whatif_confirm(record, sizeof record, &lent, nodes, labels, 2);
    whatif_confirmed other = whatif_confirm(record, sizeof record, &lent, nodes, labels, 1);
    return whatif_read_current(record, sizeof record, &told) == WHATIF_ACCEPTED && told.state == 1 && told.yes == 1 &&
           told.parts == 3 && whatif_read_told(record, sizeof record, &told) == WHATIF_ACCEPTED && yes.cut == 1 &&
           yes.reason == WHATIF_CONFIRM_CLEARED && other.cut == 0 && other.reason == WHATIF_CONFIRM_OTHER_LIST &&
           whatif_listed(record, sizeof record) == 2 && whatif_listed_node(record, sizeof record, 1) == 2 &&
           whatif_listed_label(record, sizeof record, 1) == 0 && whatif_record_nodes(record, sizeof record) == 7 &&
           whatif_record_states(record, sizeof record) == 2 && whatif_record_labels(record, sizeof record) == 2 &&
           whatif_parts_done(record, sizeof record) == 3 && !whatif_record_damaged(record, sizeof record);
}

static bool serves_screens() {
    whatif_dealt dealt = {};
    whatif_told told = {};
    uint32_t first = 9, parts = 0;
    if (whatif_screens_load_lent(run, sizeof run, &buffers, &lent, &first) != WHATIF_ACCEPTED || first != 0 ||
        whatif_screens_start_lent(run, sizeof run, 5, &lent, nodes, labels, 2, &parts) != WHATIF_ACCEPTED ||
        whatif_screens_running(run, sizeof run) != 1 || whatif_screens_next(run, sizeof run, 6) != 5)
        return false;
    for (; !dealt.finished; first = dealt.next)
        if (whatif_screens_deal_told(run, sizeof run, first, &lent, &dealt) != WHATIF_ACCEPTED || dealt.screen != 5)
            return false;
    if (whatif_screens_read_current(run, sizeof run, 5, &told) != WHATIF_ACCEPTED || told.yes != 1 ||
        whatif_screens_read_told(run, sizeof run, 4, &told) != WHATIF_REFUSED_SESSION_STATE ||
        whatif_screens_confirm(run, sizeof run, 5, &lent, nodes, labels, 2).cut != 1)
        return false;
    run[5 * WHATIF_RECORD_BYTES + 1] = 2;
    return whatif_screens_damaged(run, sizeof run) == 5 &&
           std::strstr(whatif_screens_why_1(run, sizeof run, 5, WHATIF_CALL_READ), "damaged") &&
           whatif_screens_replace(run, sizeof run, 5, record, sizeof record) == WHATIF_ACCEPTED &&
           whatif_screens_damaged(run, sizeof run) == WHATIF_SCREENS;
}

// The other forms, refused and accepted: the struct keeps what it held, or has the values.
static bool tells() {
    whatif_told told = {};
    uint64_t counts[2] = {0, 0};
    uint16_t lines[4] = {0, 0, 0, 0};
    told.yes = 9;
    if (whatif_fresh_run_told(NULL, 0, NULL, 0, NULL, 0, NULL, 0, &told) != WHATIF_REFUSED_PLAN_SHORT ||
        whatif_branch_with_upper_told(NULL, 0, NULL, 0, NULL, 0, NULL, 0, 0, 0, &told) != WHATIF_REFUSED_LENT_LENGTH ||
        whatif_colour_branch_told(NULL, 0, NULL, 0, NULL, 0, NULL, 0, NULL, 0, 0, 0, &told) !=
            WHATIF_REFUSED_LENT_LENGTH ||
        whatif_colour_branch_with_upper_told(NULL, 0, NULL, 0, NULL, 0, NULL, 0, NULL, 0, 0, 0, &told) !=
            WHATIF_REFUSED_LENT_LENGTH ||
        whatif_colour_ask_told(NULL, 0, NULL, 0, NULL, 0, NULL, 0, NULL, 0, NULL, 0, NULL, 0, NULL, 0, &told) !=
            WHATIF_REFUSED_LENT_LENGTH ||
        told.yes != 9)
        return false;
    if (whatif_count_told(plan, sizeof plan, rules, sizeof rules, node_table, WHATIF_NODE_TABLE_LEN(7), state_table,
                          WHATIF_STATE_TABLE_LEN(7, 2), nodes, 2, counts, 2, &told) != WHATIF_ACCEPTED ||
        counts[0] + counts[1] != 4 || told.parts != 3 || told.yes != 0)
        return false;
    if (whatif_agree_told(rules, sizeof rules, rules, sizeof rules, lines, 4, &told) != WHATIF_ACCEPTED ||
        told.yes != 1 || told.lines != 0)
        return false;
    static uint32_t work[WHATIF_FEWEST_WORK(7, 2)];
    whatif_least least = {};
    least.count = 9;
    if (whatif_fewest_told(NULL, 0, NULL, 0, NULL, 0, 1, NULL, 0, &least) != WHATIF_REFUSED_PLAN_SHORT ||
        least.count != 9 ||
        whatif_fewest_told(plan, sizeof plan, rules, sizeof rules, NULL, 0, 0, work, WHATIF_FEWEST_WORK(7, 2), &least) !=
            WHATIF_ACCEPTED ||
        least.least != 1 || least.count != 1)
        return false;
    if (whatif_branch_build(plan, sizeof plan, branch, sizeof branch, node_table, WHATIF_NODE_TABLE_LEN(7), state_table,
                            sizeof state_table) != WHATIF_ACCEPTED)
        return false;
    return whatif_branch_told(plan, sizeof plan, branch, sizeof branch, node_table, WHATIF_NODE_TABLE_LEN(7),
                              state_table, sizeof state_table, 6, 3, &told) == WHATIF_ACCEPTED &&
           told.state == 0 && told.links == 2 && told.passed == 2;
}

int main() {
    if (whatif_version() != WHATIF_VERSION_NUMBER || whatif_session_state(NULL, 0) != WHATIF_NO_STATE)
        return 7;
    for (uint32_t answer = 0; answer <= 28; answer++)
        if (!*whatif_answer_text(answer) || !*whatif_confirm_text(answer))
            return 6;
    int failed = without_a_session();
    failed = failed ? failed : with_a_session();
    failed = failed ? failed : with_screens();
    if (failed)
        return failed;
    return !writes_and_counts() ? 20 : !asks_and_confirms() ? 21 : !serves_screens() ? 22 : !tells() ? 23 : 0;
}
