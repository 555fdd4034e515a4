/*
 * The forms that end in _told and _lent, and what a record says, beside the plain calls. Each has the same answer, each
 * value in its own member, and 0 where the question has none; refused, it writes nothing. On a comb of 21 nodes with 4
 * states and 4 labels, so that state, yes, parts, links, nodes passed over and drops differ. What it prints is compared
 * with told.expected.
 */
#include "sure.h"
#include "whatif.h"

#include <string.h>

enum { N = 21, S = 4, K = 4, UNSET = 77 };

static uint8_t plan[WHATIF_PLAN_BYTES(N)], rules[WHATIF_RULES_BYTES(S, K)], other[WHATIF_RULES_BYTES(S, K)];
static uint8_t branch[WHATIF_BRANCH_BYTES(S, K)];
static uint16_t node_table[WHATIF_NODE_TABLE_LEN(N)], colour_numbers[WHATIF_COLOUR_NUMBERS(N, S)];
static uint8_t state_table[WHATIF_STATE_TABLE_LEN(N, S)], colour_bytes[WHATIF_COLOUR_BYTES(N, S)];
static uint16_t branch_numbers[WHATIF_COLOUR_BRANCH_NUMBERS(N, S)], lines[4 * WHATIF_MAX_LINES];
static uint8_t branch_states[WHATIF_STATE_TABLE_LEN(N, S)], branch_bytes[WHATIF_COLOUR_BRANCH_BYTES(N, S)];
static uint8_t record[WHATIF_RECORD_BYTES], run[WHATIF_SCREENS_BYTES];
static const struct whatif_buffers buffers = {plan,         sizeof plan,       rules,
                                              sizeof rules, node_table,        sizeof node_table / sizeof *node_table,
                                              state_table,  sizeof state_table};
static struct whatif_lent lent;

#define PLAN plan, sizeof plan
#define RULES rules, sizeof rules
#define NODE_TABLE node_table, sizeof node_table / sizeof *node_table
#define TABLES NODE_TABLE, state_table, sizeof state_table
#define BRANCH PLAN, branch, sizeof branch, NODE_TABLE, branch_states, sizeof branch_states
#define COLOURS colour_numbers, sizeof colour_numbers / sizeof *colour_numbers, colour_bytes, sizeof colour_bytes
#define BRANCH_COLOURS branch_numbers, sizeof branch_numbers / sizeof *branch_numbers, branch_bytes, sizeof branch_bytes

/* How often each question was accepted, and with how many different pairs of values. */
static size_t accepted, differing[6][6];

static struct whatif_told unset(void) { return (struct whatif_told){UNSET, UNSET, UNSET, UNSET, UNSET, UNSET, UNSET}; }

/* The told form is the plain form: `plain` has the values of the plain call in their members. */
static void same(const char *what, uint32_t answer, const struct whatif_told *plain, uint32_t told_answer,
                 const struct whatif_told *told) {
    struct whatif_told nothing = unset();
    sure(answer == told_answer, what);
    sure(memcmp(told, answer == WHATIF_ACCEPTED ? plain : &nothing, sizeof *told) == 0, what);
    const uint32_t values[6] = {plain->state, plain->yes, plain->parts, plain->links, plain->passed, plain->drops};
    for (size_t i = 0; answer == WHATIF_ACCEPTED && i < 6; i++)
        for (size_t j = 0; j < 6; j++)
            differing[i][j] += values[i] != values[j];
    accepted += answer == WHATIF_ACCEPTED;
}

/* Every two values that a question has differ somewhere, so that none may be taken for another. */
static void told(const char *what, const char *has) {
    static const char letters[] = "sypldx"; /* state, yes, parts, links, passed (d), drops (x) */
    printf("%s: %zu accepted\n", what, accepted);
    sure(accepted > 0, what);
    for (size_t i = 0; i < 6; i++)
        for (size_t j = 0; j < i; j++)
            if (strchr(has, letters[i]) && strchr(has, letters[j]))
                sure(differing[i][j] > 0, what);
    accepted = 0;
    memset(differing, 0, sizeof differing);
}

/* A question of one or two changes, by a number; node N and label K are among them, and are refused. The third place is
 * asked for, and never listed. */
struct list {
    size_t m;
    uint16_t nodes[3];
    uint8_t labels[3];
};
enum { LISTS = 2 * (N + 1) * (K + 1) };

static struct list list_of(size_t code) {
    struct list one = {1 + code % 2, {(uint16_t)(code / 2 % (N + 1)), 3}, {(uint8_t)(code / 2 / (N + 1)), 2}};
    return one;
}

static void fresh_runs(void) {
    for (size_t code = 0; code < LISTS; code++) {
        struct list q = list_of(code);
        struct whatif_told plain = {0}, one = unset();
        uint32_t answer = whatif_fresh_run(PLAN, RULES, q.nodes, q.m, q.labels, q.m, &plain.state, &plain.yes);
        sure_case = code;
        same("whatif_fresh_run_told", answer, &plain,
             whatif_fresh_run_told(PLAN, RULES, q.nodes, q.m, q.labels, q.m, &one), &one);
    }
    told("whatif_fresh_run_told", "sy");
}

static void branches(void) {
    for (uint32_t pair = 0; pair < (N + 1) * (N + 1); pair++) {
        uint32_t upper = pair / (N + 1), lower = pair % (N + 1);
        struct whatif_told plain = {0}, one = unset();
        sure_case = pair;
        uint32_t answer = whatif_branch(BRANCH, upper, lower, &plain.state, &plain.yes, &plain.links, &plain.passed);
        same("whatif_branch_told", answer, &plain, whatif_branch_told(BRANCH, upper, lower, &one), &one);
    }
    told("whatif_branch_told", "syld");
    for (uint32_t pair = 0; pair < (N + 1) * (N + 1); pair++) {
        uint32_t upper = pair / (N + 1), lower = pair % (N + 1);
        struct whatif_told plain = {0}, one = unset();
        sure_case = pair;
        uint32_t answer =
            whatif_branch_with_upper(BRANCH, upper, lower, &plain.state, &plain.yes, &plain.links, &plain.passed);
        same("whatif_branch_with_upper_told", answer, &plain, whatif_branch_with_upper_told(BRANCH, upper, lower, &one),
             &one);
    }
    told("whatif_branch_with_upper_told", "syld");
}

static void colour_branches(void) {
#define COLOUR_BRANCH PLAN, branch, sizeof branch, NODE_TABLE, BRANCH_COLOURS, upper, lower
#define OUT &plain.state, &plain.yes, &plain.drops, &plain.links
    for (uint32_t pair = 0; pair < (N + 1) * (N + 1); pair++) {
        uint32_t upper = pair / (N + 1), lower = pair % (N + 1);
        struct whatif_told plain = {0}, one = unset();
        sure_case = pair;
        uint32_t answer = whatif_colour_branch(COLOUR_BRANCH, OUT);
        same("whatif_colour_branch_told", answer, &plain, whatif_colour_branch_told(COLOUR_BRANCH, &one), &one);
    }
    told("whatif_colour_branch_told", "sylx");
    for (uint32_t pair = 0; pair < (N + 1) * (N + 1); pair++) {
        uint32_t upper = pair / (N + 1), lower = pair % (N + 1);
        struct whatif_told plain = {0}, one = unset();
        sure_case = pair;
        uint32_t answer = whatif_colour_branch_with_upper(COLOUR_BRANCH, OUT);
        same("whatif_colour_branch_with_upper_told", answer, &plain,
             whatif_colour_branch_with_upper_told(COLOUR_BRANCH, &one), &one);
    }
    told("whatif_colour_branch_with_upper_told", "sylx");
}

static void asks(void) {
    for (size_t code = 0; code < LISTS; code++) {
        struct list q = list_of(code);
        struct whatif_told plain = {0}, one = unset();
        sure_case = code;
        uint32_t answer = whatif_ask(PLAN, RULES, TABLES, q.nodes, q.m, q.labels, q.m, &plain.state, &plain.yes,
                                     &plain.parts, &plain.links, &plain.passed);
        same("whatif_ask_told", answer, &plain,
             whatif_ask_told(PLAN, RULES, TABLES, q.nodes, q.m, q.labels, q.m, &one), &one);
    }
    told("whatif_ask_told", "sypld");
}

static void colour_asks(void) {
    for (size_t code = 0; code < LISTS; code++) {
        struct list q = list_of(code);
        struct whatif_told plain = {0}, one = unset();
        sure_case = code;
        uint32_t answer = whatif_colour_ask(PLAN, RULES, TABLES, COLOURS, q.nodes, q.m, q.labels, q.m, &plain.state,
                                            &plain.yes, &plain.drops, &plain.links, &plain.parts);
        same("whatif_colour_ask_told", answer, &plain,
             whatif_colour_ask_told(PLAN, RULES, TABLES, COLOURS, q.nodes, q.m, q.labels, q.m, &one), &one);
    }
    told("whatif_colour_ask_told", "syplx");
}

static void counts(void) {
    for (uint16_t v = 0; v <= N; v++)
        for (size_t m = 0; m <= 2; m++) {
            const uint16_t nodes[2] = {v, 5};
            uint64_t plain_counts[S] = {UNSET, UNSET, UNSET, UNSET}, told_counts[S] = {UNSET, UNSET, UNSET, UNSET};
            struct whatif_told plain = {0}, one = unset();
            sure_case = v;
            uint32_t answer = whatif_count(PLAN, RULES, TABLES, nodes, m, plain_counts, S, &plain.parts, &plain.links);
            same("whatif_count_told", answer, &plain,
                 whatif_count_told(PLAN, RULES, TABLES, nodes, m, told_counts, S, &one), &one);
            sure(memcmp(plain_counts, told_counts, sizeof plain_counts) == 0, "whatif_count_told writes the counts");
        }
    told("whatif_count_told", "pl");
}

/* The rules with themselves, and with each entry altered: some agree still, some do not, some entries are refused. */
static void agreements(void) {
    uint16_t told_lines[4 * WHATIF_MAX_LINES];
    size_t yes = 0, most = 0;
    for (size_t i = 20; i <= sizeof rules; i++)
        for (uint8_t value = 0; value <= S; value++) {
            struct whatif_told plain = {0}, one = unset();
            memcpy(other, rules, sizeof rules);
            if (i < sizeof rules)
                other[i] = value;
            memset(lines, UNSET, sizeof lines), memset(told_lines, UNSET, sizeof told_lines);
            sure_case = i;
            uint32_t answer =
                whatif_agree(RULES, other, sizeof other, lines, 4 * WHATIF_MAX_LINES, &plain.yes, &plain.lines);
            same("whatif_agree_told", answer, &plain,
                 whatif_agree_told(RULES, other, sizeof other, told_lines, 4 * WHATIF_MAX_LINES, &one), &one);
            sure(memcmp(lines, told_lines, sizeof lines) == 0, "whatif_agree_told writes the lines");
            if (answer == WHATIF_ACCEPTED)
                yes += one.yes, most = one.lines > most ? one.lines : most;
        }
    sure(yes > 0 && most > 1, "some tables agree, and some do not");
    told("whatif_agree_told", "");
}

/* Sets of labels by a number, from none to all: the struct has the plain call's numbers and lists. */
static void fewest(void) {
    static uint32_t work[WHATIF_FEWEST_WORK(N, S)];
    size_t differ = 0, listed = 0;
    for (uint32_t code = 0; code < 3u << K; code++) {
        uint64_t may[N];
        uint32_t want = code & 1, answer;
        struct whatif_least plain, one;
        for (size_t v = 0; v < N; v++)
            may[v] = v % 3 == 0 ? code >> 1 : 0;
        memset(&plain, UNSET, sizeof plain), memset(&one, UNSET, sizeof one);
        size_t sets = code % 5 == 0 ? 0 : N, room = sizeof work / sizeof *work - code % 7 / 6;
        answer = whatif_fewest(PLAN, RULES, may, sets, want, work, room, plain.nodes, WHATIF_MAX_CHANGES, plain.labels,
                               WHATIF_MAX_CHANGES, &plain.least, &plain.count);
        sure_case = code;
        sure(whatif_fewest_told(PLAN, RULES, may, sets, want, work, room, &one) == answer, "whatif_fewest_told");
        sure(memcmp(&plain, &one, sizeof one) == 0, "whatif_fewest_told writes what whatif_fewest writes");
        accepted += answer == WHATIF_ACCEPTED;
        if (answer == WHATIF_ACCEPTED)
            differ += one.least != one.count, listed += one.count > 0;
    }
    sure(differ > 0 && listed > 0, "there is a list, and there is no way");
    told("whatif_fewest_told", "");
}

/* A record says what it was given, in every state. */
static void says(uint32_t state, const struct list *q, uint32_t parts, uint32_t done) {
    size_t len = sizeof record;
    uint32_t m = q ? (uint32_t)q->m : 0;
    sure(whatif_session_state(record, len) == state, "whatif_session_state");
    sure(whatif_record_nodes(record, len) == N && whatif_record_states(record, len) == S &&
             whatif_record_labels(record, len) == K,
         "a record says N, S and K");
    sure(whatif_parts(record, len) == parts && whatif_parts_done(record, len) == done, "a record says its parts");
    sure(whatif_listed(record, len) == m, "whatif_listed");
    for (size_t i = 0; i < 3; i++) {
        sure(whatif_listed_node(record, len, i) == (i < m ? q->nodes[i] : 0u), "whatif_listed_node");
        sure(whatif_listed_label(record, len, i) == (i < m ? q->labels[i] : 0u), "whatif_listed_label");
    }
}

/* Read and the current answer beside the plain Read, and the same on a screen. */
static void reads(int current) {
    struct whatif_told plain = {0}, one = unset(), now = unset(), screen = unset(), screen_now = unset();
    uint32_t answer =
        whatif_read(record, sizeof record, &plain.state, &plain.yes, &plain.parts, &plain.links, &plain.passed);
    memcpy(run + 5 * sizeof record, record, sizeof record);
    same("whatif_read_told", answer, &plain, whatif_read_told(record, sizeof record, &one), &one);
    same("whatif_screens_read_told", answer, &plain, whatif_screens_read_told(run, sizeof run, 5, &screen), &screen);
    answer = current ? answer : (uint32_t)WHATIF_REFUSED_SESSION_STATE;
    same("whatif_read_current", answer, &plain, whatif_read_current(record, sizeof record, &now), &now);
    same("whatif_screens_read_current", answer, &plain, whatif_screens_read_current(run, sizeof run, 5, &screen_now),
         &screen_now);
}

/* A question after the other: Start, an advance, on every third a Cancel, else to the end. */
static void sessions(void) {
    for (size_t code = 0; code < LISTS; code++) {
        struct list q = list_of(code);
        uint32_t parts = 0, finished = 0, done = 0;
        sure_case = code;
        if (whatif_start_lent(record, sizeof record, &lent, q.nodes, q.labels, q.m, &parts) != WHATIF_ACCEPTED)
            continue;
        for (; !finished; done++) {
            says(WHATIF_RUNNING, &q, parts, done), reads(0);
            if (code % 3 == 0 && done == 1)
                break;
            sure(whatif_advance_lent(record, sizeof record, &lent, &finished) == WHATIF_ACCEPTED, "an advance");
        }
        if (finished)
            says(WHATIF_ANSWERED, &q, parts, done), reads(1);
        else if (sure(whatif_cancel(record, sizeof record) == WHATIF_ACCEPTED, "a Cancel"))
            says(WHATIF_LOADED, NULL, 0, 0), reads(0);
    }
    told("reads", "sypld");
}

/* Another length, no state: nothing is said. */
static void says_nothing(void) {
    static uint8_t longer[sizeof record + 1];
    memcpy(longer, record, sizeof record);
    for (int i = 0; i < 3; i++) {
        size_t len = i == 0 ? sizeof record - 1 : i == 1 ? sizeof longer : sizeof record;
        longer[0] = i == 2 ? 4 : record[0];
        sure(whatif_session_state(longer, len) == WHATIF_NO_STATE && !whatif_record_nodes(longer, len) &&
                 !whatif_record_states(longer, len) && !whatif_record_labels(longer, len) &&
                 !whatif_listed(longer, len) && !whatif_listed_node(longer, len, 0) &&
                 !whatif_listed_label(longer, len, 0) && !whatif_parts(longer, len) && !whatif_parts_done(longer, len),
             "bytes that are no record say nothing");
    }
    longer[0] = 3, longer[6] = 65, longer[5] = 3;
    sure(!whatif_listed(longer, sizeof record), "65 changes are none");
    sure(whatif_record_nodes(longer, sizeof record) == 3 * 256 + N, "N has two bytes");
    struct whatif_told one = unset(), nothing = unset();
    sure(whatif_screens_read_current(run, sizeof run, 8, &one) == WHATIF_REFUSED_SCREEN &&
             whatif_screens_read_current(run, sizeof run - 1, 0, &one) == WHATIF_REFUSED_SCREEN &&
             memcmp(&one, &nothing, sizeof one) == 0,
         "whatif_screens_read_current gives 25");
}

/* Two screens dealt in turn, with the plain deal on a copy of the run. */
static void deals(void) {
    static uint8_t copy[sizeof run];
    struct whatif_lent given = {0};
    uint32_t first = 9, plain_first, parts;
    struct list q = list_of(33);
    sure(whatif_screens_load_lent(run, sizeof run - 1, &buffers, &given, &first) == WHATIF_REFUSED_SCREEN &&
             !given.plan && first == 9,
         "a refused whatif_screens_load_lent writes nothing");
    memset(run, 0, sizeof run);
    sure(whatif_screens_load_lent(run, sizeof run, &buffers, &given, &first) == WHATIF_ACCEPTED && first == 0,
         "whatif_screens_load_lent");
    sure(memcmp(&given, &lent, sizeof given) == 0, "both Loads fill the same struct");
    sure(whatif_screens_start_lent(run, sizeof run, 2, &lent, q.nodes, q.labels, q.m, &parts) == WHATIF_ACCEPTED &&
             whatif_screens_start_lent(run, sizeof run, 7, &lent, q.nodes, q.labels, 1, &parts) == WHATIF_ACCEPTED,
         "two Starts");
    memcpy(copy, run, sizeof run), plain_first = first;
    for (size_t i = 0; whatif_screens_running(run, sizeof run); i++) {
        uint32_t finished = UNSET, next = UNSET, wanted = whatif_screens_next(run, sizeof run, first);
        struct whatif_dealt dealt = {UNSET, UNSET, UNSET};
        uint32_t answer = whatif_screens_deal_lent(copy, sizeof copy, plain_first, &lent, &next, &finished);
        sure_case = i;
        sure(whatif_screens_deal_told(run, sizeof run, first, &lent, &dealt) == answer, "a deal's answer");
        sure(dealt.next == next && dealt.finished == finished && dealt.screen == wanted, "a deal's values");
        sure(memcmp(run, copy, sizeof run) == 0, "a deal's record");
        plain_first = first = next;
        printf("deal: screen %u, next %u, finished %u\n", dealt.screen, dealt.next, dealt.finished);
    }
    struct whatif_dealt dealt = {UNSET, UNSET, UNSET};
    sure(whatif_screens_deal_told(run, sizeof run, first, &lent, &dealt) == WHATIF_REFUSED_SESSION_STATE &&
             dealt.screen == UNSET && dealt.next == UNSET && dealt.finished == UNSET,
         "a refused deal writes nothing");
}

static int make_inputs(void) {
    uint8_t labels[N], kinds[N], leaf[K], inner[S][K][S], steps[S][K], marks[S] = {0, 1, 0, 1};
    for (unsigned v = 0; v < N; v++)
        labels[v] = (uint8_t)(v * 3 % K), kinds[v] = v > 0 && v % 2 == 0;
    for (unsigned a = 0; a < K; a++) {
        leaf[a] = (uint8_t)(a * a % S);
        for (unsigned p = 0; p < S; p++) {
            steps[p][a] = (uint8_t)(a == 0 ? p / 2 : (p * 3 + a) % S);
            for (unsigned q = 0; q < S; q++)
                inner[p][a][q] = (uint8_t)((p * 2 + a * 5 + q * 3 + 1) % S);
        }
    }
    uint32_t refused =
        whatif_write_plan(labels, N, kinds, N, plan, sizeof plan) |
        whatif_write_rules(leaf, K, &inner[0][0][0], sizeof inner, marks, S, rules, sizeof rules) |
        whatif_write_branch(&steps[0][0], sizeof steps, marks, S, branch, sizeof branch) |
        whatif_branch_build(PLAN, branch, sizeof branch, NODE_TABLE, branch_states, sizeof branch_states) |
        whatif_colour_branch_build(PLAN, branch, sizeof branch, BRANCH_COLOURS) |
        whatif_colour_build(PLAN, RULES, COLOURS);
    return refused == WHATIF_ACCEPTED;
}

/* Load through the struct: what whatif_load writes, and the struct filled only then. */
static void loads(void) {
    uint8_t plain[WHATIF_RECORD_BYTES] = {0}, states[sizeof state_table];
    uint16_t nodes[sizeof node_table / sizeof *node_table];
    struct whatif_buffers cut = buffers;
    cut.plan_len--;
    sure(whatif_load_lent(record, sizeof record, &cut, &lent) == WHATIF_REFUSED_PLAN_LAYOUT && !lent.plan,
         "a refused whatif_load_lent writes nothing");
    sure(whatif_load_lent(record, sizeof record, &buffers, &lent) == WHATIF_ACCEPTED, "whatif_load_lent");
    sure(whatif_load(plain, sizeof plain, PLAN, RULES, nodes, sizeof nodes / sizeof *nodes, states, sizeof states) ==
                 WHATIF_ACCEPTED &&
             !memcmp(plain, record, sizeof plain) && !memcmp(nodes, node_table, sizeof nodes) &&
             !memcmp(states, state_table, sizeof states),
         "whatif_load_lent is whatif_load");
    sure(lent.plan == plan && lent.plan_len == sizeof plan && lent.rules == rules && lent.rules_len == sizeof rules &&
             lent.node_table == node_table && lent.node_table_len == buffers.node_table_len &&
             lent.state_table == state_table && lent.state_table_len == sizeof state_table,
         "it fills what Start takes");
    says(WHATIF_LOADED, NULL, 0, 0);
}

int main(void) {
    if (!make_inputs())
        return 1;
    loads();
    fresh_runs(), branches(), colour_branches(), asks(), colour_asks(), counts(), agreements(), fewest();
    sessions(), says_nothing(), deals();
    return sure_failed != 0;
}
