/*
 * The answer on the screen is the question's own, and a yes is confirmed before it is cut. whatif_read_current and
 * whatif_confirm are tried in every state and on every list of at most two changes of the sample. Then on other lists,
 * plans and rules, on tables altered between Start and the last advance, and on records with flipped bits. What it
 * prints is compared with confirm.expected.
 */
#define _DEFAULT_SOURCE
#include "guarded.h"
#include "sample.h"
#include "sure.h"

#define UNSET 77u

static uint8_t *record;
static uint16_t *node_table;
static uint8_t *state_table, *plan_bytes, *rule_bytes;
static struct whatif_lent lent;

static void begin(int behind) {
    static const uint8_t zero[WHATIF_RECORD_BYTES];
    record = copied(zero, sizeof zero, behind);
    node_table = guarded(2 * WHATIF_NODE_TABLE_LEN(SAMPLE_NODES), behind);
    state_table = guarded(WHATIF_STATE_TABLE_LEN(SAMPLE_NODES, SAMPLE_STATES), behind);
    plan_bytes = copied(plan, sizeof plan, behind);
    rule_bytes = copied(rules, sizeof rules, behind);
    const struct whatif_buffers buffers = {plan_bytes,  sizeof plan,
                                           rule_bytes,  sizeof rules,
                                           node_table,  WHATIF_NODE_TABLE_LEN(SAMPLE_NODES),
                                           state_table, WHATIF_STATE_TABLE_LEN(SAMPLE_NODES, SAMPLE_STATES)};
    sure(whatif_load_lent(record, WHATIF_RECORD_BYTES, &buffers, &lent) == WHATIF_ACCEPTED, "a Load");
}

static struct whatif_confirmed confirm(const struct question *q) {
    return whatif_confirm(record, WHATIF_RECORD_BYTES, &lent, q->nodes, q->labels, q->m);
}

/* This reason and refusal, and a cut exactly for a confirmed yes. */
static int said(struct whatif_confirmed got, uint32_t reason, uint32_t refusal, const char *what) {
    return sure(got.reason == reason && got.refusal == refusal && got.cut == (reason == WHATIF_CONFIRM_CLEARED), what);
}

static uint32_t start(const struct question *q) {
    uint32_t parts = 0;
    sure(whatif_start_lent(record, WHATIF_RECORD_BYTES, &lent, q->nodes, q->labels, q->m, &parts) == WHATIF_ACCEPTED,
         "a Start");
    return parts;
}

static uint32_t advance(void) {
    uint32_t finished = 1;
    sure(whatif_advance_lent(record, WHATIF_RECORD_BYTES, &lent, &finished) == WHATIF_ACCEPTED, "an advance");
    return finished;
}

static void ask(const struct question *q) {
    start(q);
    while (!advance())
        ;
}

static uint32_t fresh(const struct question *q, uint32_t *state) {
    uint32_t yes = UNSET;
    sure(whatif_fresh_run(plan, sizeof plan, rules, sizeof rules, q->nodes, q->m, q->labels, q->m, state, &yes) ==
             WHATIF_ACCEPTED,
         "a fresh run");
    return yes;
}

/* Neither the current answer nor a confirmation, though Read may have an earlier answer. */
static void no_answer(const struct question *q, const char *what) {
    struct whatif_told told = {UNSET, UNSET, UNSET, UNSET, UNSET, UNSET, UNSET};
    sure(whatif_read_current(record, WHATIF_RECORD_BYTES, &told) == WHATIF_REFUSED_SESSION_STATE, what);
    sure(told.state == UNSET && told.yes == UNSET && told.parts == UNSET && told.links == UNSET &&
             told.passed == UNSET && told.drops == UNSET && told.lines == UNSET,
         "refused, nothing is written");
    said(confirm(q), WHATIF_CONFIRM_NO_ANSWER, WHATIF_REFUSED_SESSION_STATE, what);
}

/* A yes stays for Read while the next question runs, and after its Cancel; it is not the next question's. */
static void earlier_yes(void) {
    const struct question *old = &questions[2], *next = &questions[1];
    struct whatif_told told;
    no_answer(old, "loaded, there is no current answer");
    ask(old);
    said(confirm(old), WHATIF_CONFIRM_CLEARED, 0, "a yes is confirmed");
    uint32_t parts = start(next);
    for (uint32_t done = 0; done < parts; done++) {
        no_answer(next, "running, there is no current answer");
        no_answer(old, "running, the earlier list is not confirmed");
        sure(whatif_read_told(record, WHATIF_RECORD_BYTES, &told) == WHATIF_ACCEPTED && told.yes == 1,
             "Read returns the earlier yes");
        advance();
    }
    sure(whatif_read_current(record, WHATIF_RECORD_BYTES, &told) == WHATIF_ACCEPTED && told.yes == 0,
         "the new question gets no");
    said(confirm(next), WHATIF_CONFIRM_NOT_CLEARED, 0, "a no is confirmed as a no");
    start(old), sure(whatif_cancel(record, WHATIF_RECORD_BYTES) == WHATIF_ACCEPTED, "a Cancel");
    no_answer(old, "cancelled, there is no current answer");
    said(whatif_confirm(record, WHATIF_RECORD_BYTES - 1, &lent, NULL, NULL, 0), WHATIF_CONFIRM_NO_ANSWER, 1,
         "a record of another length");
    static uint8_t longer[WHATIF_RECORD_BYTES + 1];
    said(whatif_confirm(longer, sizeof longer, &lent, NULL, NULL, 0), WHATIF_CONFIRM_NO_ANSWER, 1, "a longer record");
    sure(whatif_read_current(longer, sizeof longer, &told) == WHATIF_REFUSED_SESSION_STATE, "a longer record");
}

/* Every list of at most two changes, confirmed with every such list: a cut exactly for its own with a yes. */
static size_t lists_of(struct question *all) {
    size_t count = 0;
    all[count++] = (struct question){0, {0}, {0}};
    for (uint16_t i = 0; i < 2 * SAMPLE_NODES; i++) {
        all[count++] = (struct question){1, {i / 2}, {i % 2}};
        for (uint16_t j = 0; j < 2 * SAMPLE_NODES; j++)
            all[count++] = (struct question){2, {i / 2, j / 2}, {i % 2, j % 2}};
    }
    return count;
}

static int same_list(const struct question *a, const struct question *b) {
    return a->m == b->m && !memcmp(a->nodes, b->nodes, a->m * sizeof *a->nodes) && !memcmp(a->labels, b->labels, a->m);
}

static void every_list(void) {
    struct question all[1 + 2 * SAMPLE_NODES * (1 + 2 * SAMPLE_NODES)];
    size_t count = lists_of(all), cut = 0, refused = 0;
    for (size_t i = 0; i < count; i++) {
        uint32_t state, yes = fresh(&all[i], &state);
        ask(&all[i]);
        for (size_t j = 0; j < count; j++) {
            sure_case = i * count + j;
            int same = same_list(&all[i], &all[j]);
            uint32_t reason = !same ? WHATIF_CONFIRM_OTHER_LIST
                              : yes ? WHATIF_CONFIRM_CLEARED
                                    : WHATIF_CONFIRM_NOT_CLEARED;
            said(confirm(&all[j]), reason, 0, "a cut exactly for the list asked, with a yes");
            cut += same && yes, refused += !same;
        }
    }
    printf("%zu lists: %zu cut, %zu other lists refused\n", count, cut, refused);
}

/* The list that will be cut lies at the end of its memory; more changes than a list may have are another list. */
static void other_lists(int behind) {
    const struct question *q = &questions[3];
    const uint16_t *nodes = copied(q->nodes, q->m * sizeof *q->nodes, behind);
    const uint8_t *labels = copied(q->labels, q->m, behind);
    ask(q);
    said(whatif_confirm(record, WHATIF_RECORD_BYTES, &lent, nodes, labels, q->m), WHATIF_CONFIRM_NOT_CLEARED, 0,
         "its own list, at the end of a page");
    static const size_t counts[] = {0, 1, 3, 65, 255, 256, 258, SIZE_MAX};
    for (size_t i = 0; i < sizeof counts / sizeof *counts; i++)
        said(whatif_confirm(record, WHATIF_RECORD_BYTES, &lent, nodes, labels, counts[i]), WHATIF_CONFIRM_OTHER_LIST, 0,
             "a list of another length is not read");
}

/* A plan of 9 nodes, tables of other counts, bytes cut short: the session was not asked about these. */
static void other_counts(void) {
    static const uint8_t nine[] = {9, 0, 0, 0, 12, 0, 0, 0, 21, 0, 0, 0, 1, 1, 1,
                                   1, 1, 1, 1, 1,  1, 0, 0, 1,  0, 1, 0, 1, 0, 1};
    uint8_t three_states[WHATIF_RULES_BYTES(3, 2)], three_labels[WHATIF_RULES_BYTES(2, 3)];
    const uint8_t zero[18] = {0}, marks[] = {1, 1, 1};
    struct whatif_lent others[6] = {lent, lent, lent, lent, lent, lent};
    sure(whatif_write_rules(zero, 2, zero, 18, marks, 3, three_states, sizeof three_states) == WHATIF_ACCEPTED &&
             whatif_write_rules(zero, 3, zero, 12, marks, 2, three_labels, sizeof three_labels) == WHATIF_ACCEPTED,
         "two rule tables");
    others[0].plan = nine, others[0].plan_len = sizeof nine;
    others[1].rules = three_states, others[1].rules_len = sizeof three_states;
    others[2].rules = three_labels, others[2].rules_len = sizeof three_labels;
    others[3].plan_len = sizeof plan - 1;
    others[4].rules_len = 0;
    others[5].plan = lent.rules, others[5].plan_len = lent.rules_len, others[5].rules = lent.plan,
    others[5].rules_len = lent.plan_len;
    ask(&questions[0]);
    for (size_t i = 0; i < 6; i++) {
        sure_case = i;
        said(whatif_confirm(record, WHATIF_RECORD_BYTES, &others[i], NULL, NULL, 0), WHATIF_CONFIRM_OTHER_COUNTS, 0,
             "other counts than the session's");
    }
    struct whatif_lent no_tables = {lent.plan, lent.plan_len, lent.rules, lent.rules_len, NULL, 0, NULL, 0};
    said(whatif_confirm(record, WHATIF_RECORD_BYTES, &no_tables, NULL, NULL, 0), WHATIF_CONFIRM_CLEARED, 0,
         "no table is read");
}

/* A plan or a rule table that is damaged after the answer: the fresh run names it. */
static void damaged_plan(void) {
    ask(&questions[0]);
    plan_bytes[19] = 1;
    said(confirm(&questions[0]), WHATIF_CONFIRM_RUN_REFUSED, 5, "kinds that are no tree");
    plan_bytes[19] = 0, plan_bytes[12] = 2;
    said(confirm(&questions[0]), WHATIF_CONFIRM_RUN_REFUSED, 10, "a label that the table does not have");
    plan_bytes[12] = 1, rule_bytes[20] = 2;
    said(confirm(&questions[0]), WHATIF_CONFIRM_RUN_REFUSED, 9, "a state that the table does not have");
    rule_bytes[20] = 0;
    said(confirm(&questions[0]), WHATIF_CONFIRM_CLEARED, 0, "all as before");
    plan_bytes[12] = 0;
    said(confirm(&questions[0]), WHATIF_CONFIRM_DIFFERS, 0, "another label in the plan, and a no");
    plan_bytes[12] = 1;
}

/*
 * Each byte of the state table and each mark, altered after Start and until the last advance. The session may say yes
 * where the fresh run says no, or the other way. Such an answer looks like any other; it is never confirmed.
 */
static void altered_tables(void) {
    size_t wrong = 0, wrong_yes = 0;
    for (size_t q = 0; q < 6; q++)
        for (size_t i = 0; i < lent.state_table_len + 2; i++) {
            uint8_t *byte = i < lent.state_table_len ? state_table + i : rule_bytes + 30 + i - lent.state_table_len;
            struct whatif_told told = {0};
            uint32_t state, yes = fresh(&questions[q], &state);
            start(&questions[q]);
            *byte ^= 1;
            while (!advance())
                ;
            *byte ^= 1;
            sure_case = i;
            sure(whatif_read_current(record, WHATIF_RECORD_BYTES, &told) == WHATIF_ACCEPTED, "it is answered");
            int right = told.state == state && told.yes == yes;
            said(confirm(&questions[q]),
                 !right ? WHATIF_CONFIRM_DIFFERS
                 : yes  ? WHATIF_CONFIRM_CLEARED
                        : WHATIF_CONFIRM_NOT_CLEARED,
                 0, "an answer of altered tables is confirmed only where it is right");
            wrong += !right, wrong_yes += told.yes && !yes;
        }
    printf("altered tables: %zu answers are wrong, %zu of them a yes; none is confirmed\n", wrong, wrong_yes);
    sure(wrong_yes > 0, "some altered tables give a false yes");
}

/* Each bit of an answered record flipped: a cut only where the list is as asked and the fresh run says yes. */
static void flipped_bits(void) {
    size_t counts[8] = {0};
    for (size_t q = 0; q < 6; q++) {
        uint32_t state, yes = fresh(&questions[q], &state);
        ask(&questions[q]);
        for (size_t bit = 0; bit < 8 * WHATIF_RECORD_BYTES; bit++) {
            record[bit / 8] ^= (uint8_t)(1u << bit % 8);
            struct whatif_confirmed got = confirm(&questions[q]);
            sure_case = bit;
            sure(got.reason < 8 && got.reason != WHATIF_CONFIRM_NOTHING, "a reason of this version");
            sure(!got.cut || (yes && got.reason == WHATIF_CONFIRM_CLEARED), "no false cut");
            counts[got.reason % 8]++;
            record[bit / 8] ^= (uint8_t)(1u << bit % 8);
        }
        said(confirm(&questions[q]), yes ? WHATIF_CONFIRM_CLEARED : WHATIF_CONFIRM_NOT_CLEARED, 0, "as before");
    }
    printf("flipped bits, by reason:");
    for (size_t i = 0; i < 8; i++)
        printf(" %zu", counts[i]);
    printf("\n");
}

/* Three states, two of them marked: another state with the same yes is another answer. */
static void other_state(void) {
    static const uint8_t leaf[] = {0, 1}, marks[] = {0, 1, 1};
    uint8_t inner[3][2][3], table[WHATIF_RULES_BYTES(3, 2)], one[WHATIF_RECORD_BYTES] = {0};
    uint16_t numbers[WHATIF_NODE_TABLE_LEN(SAMPLE_NODES)];
    uint8_t states[WHATIF_STATE_TABLE_LEN(SAMPLE_NODES, 3)];
    uint32_t parts, finished;
    struct whatif_lent own;
    memset(inner, 1, sizeof inner);
    sure(!whatif_write_rules(leaf, 2, &inner[0][0][0], sizeof inner, marks, 3, table, sizeof table), "a rule table");
    const struct whatif_buffers buffers = {
        plan, sizeof plan, table, sizeof table, numbers, sizeof numbers / sizeof *numbers, states, sizeof states};
    sure(!whatif_load_lent(one, sizeof one, &buffers, &own) &&
             !whatif_start_lent(one, sizeof one, &own, NULL, NULL, 0, &parts) &&
             !whatif_advance_lent(one, sizeof one, &own, &finished) && finished,
         "a question without changes");
    said(whatif_confirm(one, sizeof one, &own, NULL, NULL, 0), WHATIF_CONFIRM_CLEARED, 0, "state 1 is a yes");
    one[713] = one[968] = 2; /* the root's state, and the answer's */
    sure(!whatif_record_damaged(one, sizeof one), "the record is whole");
    said(whatif_confirm(one, sizeof one, &own, NULL, NULL, 0), WHATIF_CONFIRM_DIFFERS, 0, "state 2 is a yes, too");
}

/* The same on a screen; a screen that is not there; a struct that is all zero. */
static void on_a_screen(void) {
    static uint8_t run[WHATIF_SCREENS_BYTES];
    struct whatif_confirmed nothing = {0, 0, 0};
    const struct question *q = &questions[2];
    ask(q);
    memcpy(run + 6 * WHATIF_RECORD_BYTES, record, WHATIF_RECORD_BYTES);
    for (uint32_t screen = 0; screen < 10; screen++) {
        struct whatif_confirmed got = whatif_screens_confirm(run, sizeof run, screen, &lent, q->nodes, q->labels, q->m);
        sure_case = screen;
        said(got, screen == 6 ? WHATIF_CONFIRM_CLEARED : WHATIF_CONFIRM_NO_ANSWER,
             screen > 7 ? WHATIF_REFUSED_SCREEN : screen != 6, "a screen's own answer");
    }
    said(whatif_screens_confirm(run, sizeof run - 1, 6, &lent, q->nodes, q->labels, q->m), WHATIF_CONFIRM_NO_ANSWER,
         WHATIF_REFUSED_SCREEN, "a run of another length");
    said(nothing, WHATIF_CONFIRM_NOTHING, 0, "all zero is no cut");
}

int main(void) {
    for (int behind = 0; behind < 2; behind++) {
        begin(behind), earlier_yes();
        begin(behind), every_list(), other_lists(behind), other_counts(), damaged_plan(), altered_tables();
        begin(behind), flipped_bits(), on_a_screen();
    }
    other_state();
    for (uint32_t reason = 0; reason <= 8; reason++)
        printf("%u: %s\n", reason, whatif_confirm_text(reason));
    return sure_failed != 0;
}
