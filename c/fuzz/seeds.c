/*
 * Writes the seeds of the fuzz target into the folder it is given: for each call inputs that are accepted, and some
 * that are not, on document 01's sample and on a deeper plan with more labels and states. c/fuzz/run holds c/fuzz/seeds
 * to it.
 */
#define _GNU_SOURCE
#include "../sample.h"
#include "calls.h"

#include <stdio.h>
#include <stdlib.h>
#include <string.h>
#include <sys/stat.h>

/* A plan with its tables. */
struct plan {
    const char *name;
    size_t n, s, k, branch_states;
    const uint8_t *plan, *rules, *branch;
    uint32_t upper, lower; /* of a branch question */
};

static const struct plan sample = {
    "a", SAMPLE_NODES, SAMPLE_STATES, 2, SAMPLE_BRANCH_STATES, plan, rules, branch, 6, 3,
};

/* A comb of 20 leaves: below each inner node the path and a leaf. */
#define N 39
#define S 4
#define K 8
static uint8_t plan_b[WHATIF_PLAN_BYTES(N)] = {N, 0, 0, 0, 12, 0, 0, 0, 12 + N};
static uint8_t rules_b[WHATIF_RULES_BYTES(S, K)] = {
    S, 0, 0, 0, K, 0, 0, 0, 20, 0, 0, 0, 20 + K, 0, 0, 0, 20 + K + S *K *S};
static uint8_t branch_b[WHATIF_BRANCH_BYTES(S, K)] = {S, 0, 0, 0, K, 0, 0, 0, 16, 0, 0, 0, 16 + S *K};
static const struct plan comb = {"b", N, S, K, S, plan_b, rules_b, branch_b, 30, 1};

static void fill_b(void) {
    for (size_t v = 0; v < N; v++) {
        plan_b[12 + v] = (uint8_t)(1 + v % (K - 2));
        plan_b[12 + N + v] = v > 0 && v % 2 == 0;
    }
    for (size_t i = 20; i < sizeof rules_b - S; i++)
        rules_b[i] = (uint8_t)((7 * i + i / 5) % S);
    for (size_t i = 16; i < sizeof branch_b - S; i++)
        branch_b[i] = (uint8_t)((3 * i + i / K) % S);
    for (size_t i = 1; i <= S; i++)
        rules_b[sizeof rules_b - i] = branch_b[sizeof branch_b - i] = i % 2;
}

static const struct question far = {3, {0, 9, 25}, {3, 5, 2}};

static const char *folder;
static FILE *file;
static uint16_t nodes[WHATIF_NODE_TABLE_LEN(N)];
static uint8_t states[WHATIF_STATE_TABLE_LEN(N, S)];

static void must(int holds) {
    if (!holds)
        exit(1);
}

static void put(uint32_t number, size_t bytes) {
    for (size_t i = 0; i < bytes; i++)
        fputc((int)(number >> (8 * i) & 255), file);
}

static const char *const folders[TRIES] = {
#define TRY(number, constant, name, folder, answers) [constant] = folder,
    CALL_TRIES(TRY)
#undef TRY
    [QUESTION] = "question",
    [PANEL] = "panel",
    [SCREEN] = "screen",
    [SCREENS] = "screens",
    [CONFIRM] = "confirm",
    [RECORD] = "record",
    [RUN] = "run",
    [WRITTEN] = "written",
};

/* A file in the folder of its call. */
static void begin(enum try which, const char *name, const char *more) {
    char path[4096];
    must(snprintf(path, sizeof path, "%s/%s/%s%s", folder, folders[which], name, more) < (int)sizeof path);
    file = fopen(path, "wb");
    must(file != NULL);
    put(which, 1);
}

/* The buffers lie before a page that must not be touched, or behind one. */
enum side { BEFORE, BEHIND };

static void end(void) { must(fclose(file) == 0); }

static void bytes(const uint8_t *list, size_t count) {
    put((uint32_t)count, 2);
    for (size_t i = 0; i < count; i++)
        put(list[i], 1);
}

static void numbers(const uint16_t *list, size_t count) {
    put((uint32_t)count, 2);
    for (size_t i = 0; i < count; i++)
        put(list[i], 2);
}

static void changes(const struct question *list) {
    numbers(list->nodes, list->m);
    bytes(list->labels, list->m);
}

#define RULES(p) (p)->rules, WHATIF_RULES_BYTES((p)->s, (p)->k)
#define BRANCH_TABLE(p) (p)->branch, WHATIF_BRANCH_BYTES((p)->branch_states, (p)->k)
#define PLAN(p) (p)->plan, WHATIF_PLAN_BYTES((p)->n)

static void plan_and_rules(const struct plan *p) {
    bytes(PLAN(p));
    bytes(RULES(p));
}

static void plan_and_branch(const struct plan *p) {
    bytes(PLAN(p));
    bytes(BRANCH_TABLE(p));
}

static void tables(const struct plan *p, size_t s) {
    numbers(nodes, WHATIF_NODE_TABLE_LEN(p->n));
    bytes(states, WHATIF_STATE_TABLE_LEN(p->n, s));
}

/* The lengths of tables that are written, with some excess. */
static void lengths(const struct plan *p, size_t s) {
    put((uint32_t)WHATIF_NODE_TABLE_LEN(p->n) + 1, 2);
    put((uint32_t)WHATIF_STATE_TABLE_LEN(p->n, s) + 1, 2);
}

static void on_tables(const struct plan *p) {
    size_t numbers_len = WHATIF_NODE_TABLE_LEN(p->n);
    must(whatif_build(PLAN(p), RULES(p), nodes, numbers_len, states, WHATIF_STATE_TABLE_LEN(p->n, p->s)) == 0);
    begin(BUILD, p->name, ""), put(BEFORE, 1), plan_and_rules(p), lengths(p, p->s), end();
    begin(BUILD, p->name, "-short"), put(BEFORE, 1), plan_and_rules(p), put(27, 2), put(20, 2), end();
    begin(CHECK, p->name, ""), put(BEFORE, 1), plan_and_rules(p), tables(p, p->s), end();
    begin(CHECK, p->name, "-behind"), put(BEHIND, 1), plan_and_rules(p), tables(p, p->s), end();
    size_t s = p->branch_states, bytes_len = WHATIF_STATE_TABLE_LEN(p->n, s);
    must(whatif_branch_build(PLAN(p), BRANCH_TABLE(p), nodes, numbers_len, states, bytes_len) == 0);
    begin(BRANCH_BUILD, p->name, ""), put(BEFORE, 1), plan_and_branch(p), lengths(p, s), end();
    begin(BRANCH_CHECK, p->name, ""), put(BEFORE, 1), plan_and_branch(p), tables(p, s), end();
    begin(BRANCH, p->name, ""), put(BEFORE, 1), put(p->upper, 4), put(p->lower, 4), plan_and_branch(p), tables(p, s),
        end();
}

/* With the record as it is before each call of a question. */
static void on_records(const struct plan *p, const struct question *list) {
    uint8_t record[WHATIF_RECORD_BYTES] = {0};
    uint32_t parts, finished;
    size_t numbers_len = WHATIF_NODE_TABLE_LEN(p->n), bytes_len = WHATIF_STATE_TABLE_LEN(p->n, p->s);
    begin(LOAD, p->name, ""), put(BEFORE, 1), bytes(record, 0), plan_and_rules(p), lengths(p, p->s), end();
    must(whatif_load(record, sizeof record, PLAN(p), RULES(p), nodes, numbers_len, states, bytes_len) == 0);
    begin(START, p->name, ""), put(BEFORE, 1), changes(list), bytes(record, sizeof record), plan_and_rules(p);
    tables(p, p->s), end();
    must(whatif_start(record, sizeof record, PLAN(p), RULES(p), nodes, numbers_len, states, bytes_len, list->nodes,
                      list->m, list->labels, list->m, &parts) == 0);
    begin(CANCEL, p->name, ""), put(BEFORE, 1), bytes(record, sizeof record), end();
    for (uint32_t i = 1; i <= parts; i++) {
        if (i == 1 || i == parts) {
            begin(ADVANCE, p->name, i == 1 ? "" : "-last"), put(BEFORE, 1), bytes(record, sizeof record);
            plan_and_rules(p), tables(p, p->s), end();
        }
        must(whatif_advance(record, sizeof record, PLAN(p), RULES(p), nodes, numbers_len, states, bytes_len,
                            &finished) == 0);
    }
    begin(READ, p->name, ""), put(BEFORE, 1), bytes(record, sizeof record), end();
    begin(LOAD, p->name, "-answered"), put(BEFORE, 1), bytes(record, sizeof record), plan_and_rules(p);
    lengths(p, p->s), end();
    begin(START, p->name, "-answered"), put(BEFORE, 1), changes(list), bytes(record, sizeof record), plan_and_rules(p);
    tables(p, p->s), end();
    must(whatif_start(record, sizeof record, PLAN(p), RULES(p), nodes, numbers_len, states, bytes_len, list->nodes,
                      list->m, list->labels, list->m, &parts) == 0);
    begin(CANCEL, p->name, "-with-answer"), put(BEFORE, 1), bytes(record, sizeof record), end();
    begin(ADVANCE, p->name, "-with-answer"), put(BEFORE, 1), bytes(record, sizeof record);
    plan_and_rules(p), tables(p, p->s), end();
    must(whatif_cancel(record, sizeof record) == 0);
    begin(READ, p->name, "-cancelled"), put(BEFORE, 1), bytes(record, sizeof record), end();
}

static void start_with(const char *which, const struct question *list, size_t labels, const uint8_t *record) {
    begin(START, sample.name, which), put(BEFORE, 1), numbers(list->nodes, list->m), bytes(list->labels, labels);
    bytes(record, WHATIF_RECORD_BYTES), plan_and_rules(&sample), tables(&sample, SAMPLE_STATES), end();
}

/*
 * Every refusal of Start but 1 and 17: a list without labels, the last questions of the sample; of 18 a byte of the last
 * map altered, and a table of 1s.
 */
static void refused_starts(void) {
    uint8_t record[WHATIF_RECORD_BYTES] = {0};
    must(whatif_load(record, sizeof record, PLAN(&sample), RULES(&sample), nodes, 28, states, 21) == 0);
    start_with("-12", &questions[1], 0, record);
    start_with("-13", &questions[6], 1, record);
    start_with("-14", &questions[7], 1, record);
    start_with("-twice", &questions[8], 2, record);
    states[20] ^= 1;
    start_with("-18-byte", &questions[3], 2, record);
    states[20] ^= 1;
    for (size_t i = 0; i < 28; i++)
        nodes[i] = 1;
    start_with("-18", &questions[3], 2, record);
}

static void screen_on(const char *which, enum screen_step call, const uint8_t *record, const struct question *list,
                      size_t labels, const uint8_t *of_plan, size_t plan_len, size_t rules_len, size_t states_len) {
    begin(SCREEN, sample.name, which), put(BEFORE, 1), put(call, 1), put(3, 4), put(0, 1), put(0xff, 1);
    bytes(record, WHATIF_RECORD_BYTES), numbers(list->nodes, list->m), bytes(list->labels, labels);
    bytes(of_plan, plan_len), bytes(rules, rules_len);
    if (call == ON_LOAD)
        put(WHATIF_NODE_TABLE_LEN(N), 2), put(WHATIF_STATE_TABLE_LEN(N, S), 2);
    else
        numbers(nodes, 28), bytes(states, states_len);
    end();
}

/* The refusals of a screen's Load and Start that a single byte does not lead to; lists
 * of calls that end with such a refusal, Load being 0 and Start 1 in both. */
static void refused_screens(void) {
    uint8_t record[WHATIF_RECORD_BYTES] = {0};
    must(whatif_load(record, sizeof record, PLAN(&sample), RULES(&sample), nodes, 28, states, 21) == 0);
    screen_on("-load-6", ON_LOAD, record, &questions[0], 0, PLAN(&sample), 19, 21);
    screen_on("-load-10", ON_LOAD, record, &questions[0], 0, PLAN(&comb), sizeof rules, 21);
    screen_on("-start-12", ON_START, record, &questions[1], 0, PLAN(&sample), sizeof rules, 21);
    screen_on("-start-13", ON_START, record, &questions[6], 1, PLAN(&sample), sizeof rules, 21);
    screen_on("-start-14", ON_START, record, &questions[7], 1, PLAN(&sample), sizeof rules, 21);
    screen_on("-start-17", ON_START, record, &questions[1], 1, PLAN(&sample), sizeof rules, 20);
    states[20] ^= 1;
    screen_on("-start-18", ON_START, record, &questions[1], 1, PLAN(&sample), sizeof rules, 21);
    states[20] ^= 1;
    for (enum try list = PANEL; list <= SCREENS; list += SCREENS - PANEL) {
        begin(list, sample.name, "-6"), put(BEFORE, 1), bytes(PLAN(&sample)), bytes(rules, 19), put(0, 1), end();
        begin(list, sample.name, "-10"), put(BEFORE, 1), bytes(PLAN(&comb)), bytes(RULES(&sample)), put(0, 1), end();
        begin(list, sample.name, "-14"), put(BEFORE, 1), plan_and_rules(&sample), put(0, 1), put(1, 1);
        if (list == SCREENS)
            put(7, 4);
        changes(&questions[7]), end();
    }
}

static void step(enum step which) { put(which, 1); }

/* Load, Start, some advances, Cancel, Start, the first state byte altered to 1, advances, Read; the byte altered back, Start,
 * Read, Cancel, Read, Load, Read. */
static void panel(const struct plan *p, const struct question *list) {
    begin(PANEL, p->name, ""), put(BEFORE, 1), plan_and_rules(p);
    step(DO_LOAD), step(DO_START), changes(list);
    for (int i = 0; i < 4; i++)
        step(DO_ADVANCE);
    step(DO_CANCEL), step(DO_START), changes(list);
    step(DO_ALTER), put(3, 1), put(0, 2), put(1, 1);
    for (int i = 0; i < 12; i++)
        step(DO_ADVANCE);
    step(DO_READ), step(DO_ALTER), put(3, 1), put(0, 2), put(states[0], 1);
    step(DO_START), changes(list), step(DO_READ), step(DO_CANCEL), step(DO_READ), step(DO_LOAD), step(DO_READ);
    step(DO_START), changes(list), end();
}

static void question(const struct plan *p, const struct question *list, const char *which) {
    begin(FRESH_RUN, p->name, which), put(BEFORE, 1), plan_and_rules(p), changes(list), end();
    begin(QUESTION, p->name, which), put(BEFORE, 1), plan_and_rules(p), changes(list), end();
}

/* A plan's rules with themselves (4 states, or 16), with some excess; too short; with another K; with too many states. */
static void merges(const struct plan *p, const struct plan *other) {
    size_t len = WHATIF_RULES_BYTES(p->s * p->s, p->k);
    begin(MERGE, p->name, ""), put(BEFORE, 1), bytes(PLAN(p)), bytes(RULES(p)), bytes(RULES(p));
    put((uint32_t)len + 1, 2), end();
    begin(MERGE, p->name, "-behind"), put(BEHIND, 1), bytes(PLAN(p)), bytes(RULES(p)), bytes(RULES(p));
    put((uint32_t)len, 2), end();
    begin(MERGE, p->name, "-11"), put(BEFORE, 1), bytes(PLAN(p)), bytes(RULES(p)), bytes(RULES(p));
    put((uint32_t)len - 1, 2), end();
    begin(MERGE, p->name, "-23"), put(BEFORE, 1), bytes(PLAN(p)), bytes(RULES(p)), bytes(RULES(other));
    put((uint32_t)len, 2), end();
    uint8_t five[WHATIF_RULES_BYTES(5, K)] = {5, 0, 0, 0, (uint8_t)p->k, 0, 0, 0, 20};
    size_t inner = 20 + p->k, marks = inner + 5 * p->k * 5, five_len = marks + 5;
    five[12] = (uint8_t)inner, five[16] = (uint8_t)marks;
    begin(MERGE, p->name, "-24"), put(BEFORE, 1), bytes(PLAN(p)), bytes(five, five_len), bytes(five, five_len);
    put((uint32_t)len, 2), end();
}

/* A plan's rules with themselves; with another mark, with room for all lines and for none; with another K. */
static void agreements(const struct plan *p, const struct plan *other) {
    uint8_t changed[WHATIF_RULES_BYTES(S, K)];
    size_t len = WHATIF_RULES_BYTES(p->s, p->k);
    memcpy(changed, p->rules, len);
    changed[len - 1] ^= 1;
    begin(AGREE, p->name, ""), put(BEFORE, 1), bytes(PLAN(p)), bytes(RULES(p)), bytes(RULES(p)), put(0, 2), end();
    begin(AGREE, p->name, "-no"), put(BEFORE, 1), bytes(PLAN(p)), bytes(RULES(p)), bytes(changed, len);
    put(4 * WHATIF_MAX_LINES, 2), end();
    begin(AGREE, p->name, "-behind"), put(BEHIND, 1), bytes(PLAN(p)), bytes(changed, len), bytes(RULES(p));
    put(60, 2), end();
    begin(AGREE, p->name, "-11"), put(BEFORE, 1), bytes(PLAN(p)), bytes(RULES(p)), bytes(changed, len);
    put(3, 2), end();
    begin(AGREE, p->name, "-23"), put(BEFORE, 1), bytes(PLAN(p)), bytes(RULES(p)), bytes(RULES(other));
    put(60, 2), end();
}

/* A planner's file of n nodes by its labels and child counts, out and home: with some excess, exact behind a page; a label
 * of 63, two trees, too short outputs; a plan that comes from no file. */
static void planner_files(const char *name, const uint8_t *labels, const uint8_t *counts, size_t n) {
    uint8_t bytes_of[WHATIF_PLANNER_BYTES(9)] = {(uint8_t)n, 0, 0, 0, 12, 0, 0, 0, (uint8_t)(12 + n)};
    uint8_t out[WHATIF_PLANNER_PLAN_BYTES(9)];
    uint16_t places[9];
    size_t len = WHATIF_PLANNER_BYTES(n), plan_len = WHATIF_PLANNER_PLAN_BYTES(n);
    memcpy(bytes_of + 12, labels, n), memcpy(bytes_of + 12 + n, counts, n);
    must(whatif_plan_of_planner(bytes_of, len, out, plan_len, places, n) == 0);
    begin(PLAN_OF_PLANNER, name, ""), put(BEFORE, 1), bytes(bytes_of, len), put((uint32_t)plan_len + 1, 2);
    put((uint32_t)n + 1, 2), end();
    begin(PLAN_OF_PLANNER, name, "-behind"), put(BEHIND, 1), bytes(bytes_of, len), put((uint32_t)plan_len, 2);
    put((uint32_t)n, 2), end();
    begin(PLAN_OF_PLANNER, name, "-21"), put(BEFORE, 1), bytes(bytes_of, len), put((uint32_t)plan_len, 2);
    put((uint32_t)n - 1, 2), end();
    begin(PLANNER_OF_PLAN, name, ""), put(BEFORE, 1), bytes(out, plan_len), put((uint32_t)len + 1, 2), end();
    begin(PLANNER_OF_PLAN, name, "-behind"), put(BEHIND, 1), bytes(out, plan_len), put((uint32_t)len, 2), end();
    begin(PLANNER_OF_PLAN, name, "-21"), put(BEFORE, 1), bytes(out, plan_len), put((uint32_t)len - 1, 2), end();
    out[12] = 62;
    begin(PLANNER_OF_PLAN, name, "-19"), put(BEFORE, 1), bytes(out, plan_len), put((uint32_t)len, 2), end();
    bytes_of[12] = 63;
    begin(PLAN_OF_PLANNER, name, "-20"), put(BEFORE, 1), bytes(bytes_of, len), put((uint32_t)plan_len, 2);
    put((uint32_t)n, 2), end();
    bytes_of[12 + n] ^= 1;
    begin(PLAN_OF_PLANNER, name, "-19"), put(BEFORE, 1), bytes(bytes_of, len), put((uint32_t)plan_len, 2);
    put((uint32_t)n, 2), end();
}

/* Two questions' lists, into buffers of one more than remain and of one less; 64 nodes over 64 others; 65 of three nodes. */
static void lists_over(void) {
    uint16_t many[128];
    uint8_t same[128] = {0};
    for (uint16_t i = 0; i < 128; i++)
        many[i] = (uint16_t)(511 * i);
    const struct question *low = &questions[8], *high = &questions[3];
    begin(LAY_OVER, "a", ""), put(BEFORE, 1), changes(low), changes(high), put(3, 2), put(3, 2), end();
    begin(LAY_OVER, "a", "-behind"), put(BEHIND, 1), changes(high), changes(low), put(64, 2), put(2, 2), end();
    begin(LAY_OVER, "a", "-11"), put(BEFORE, 1), changes(low), changes(high), put(1, 2), put(2, 2), end();
    begin(LAY_OVER, "a", "-22"), put(BEFORE, 1), numbers(many, 64), bytes(same, 64), numbers(many + 64, 64);
    bytes(same, 64), put(64, 2), put(64, 2), end();
    for (size_t i = 0; i < 65; i++)
        many[i] = (uint16_t)(i % 3);
    begin(LAY_OVER, "a", "-12"), put(BEFORE, 1), changes(low), numbers(many, 65), bytes(same, 65), put(64, 2);
    put(64, 2), end();
}

static void count_of(const struct plan *p, const char *which, enum side side, size_t m, const uint16_t *list, size_t room) {
    begin(COUNT, p->name, which), put(side, 1), numbers(list, m), plan_and_rules(p), tables(p, p->s);
    put((uint32_t)room, 2), end();
}

/* No node, one, three, of buffers with some excess and of one that is exact behind a page; each refusal but 17. */
static void counts(const struct plan *p) {
    const uint16_t list[] = {0, 2, 5, 2}, none_there[] = {0, (uint16_t)p->n};
    uint16_t many[65];
    for (uint16_t v = 0; v < 65; v++)
        many[v] = v;
    size_t numbers_len = WHATIF_NODE_TABLE_LEN(p->n);
    must(whatif_build(PLAN(p), RULES(p), nodes, numbers_len, states, WHATIF_STATE_TABLE_LEN(p->n, p->s)) == 0);
    count_of(p, "", BEFORE, 0, list, p->s + 1);
    count_of(p, "-one", BEFORE, 1, list, p->s);
    count_of(p, "-three", BEFORE, 3, list, p->s + 1);
    count_of(p, "-behind", BEHIND, 1, list + 2, p->s);
    count_of(p, "-11", BEFORE, 2, list, p->s - 1);
    count_of(p, "-12", BEFORE, 65, many, p->s);
    count_of(p, "-13", BEFORE, 2, none_there, p->s);
    count_of(p, "-15", BEFORE, 4, list, p->s);
    if (p->k == K)
        count_of(p, "-26", BEFORE, 20, many, p->s);
    for (size_t i = 0; i < numbers_len; i++)
        nodes[i] = 1;
    count_of(p, "-18", BEFORE, 3, list, p->s);
}

/* Masks and sets with some excess, exact behind a page, and one too short. */
static void for_every_node(const struct plan *p) {
    const enum try calls[] = {ALLOWED, CLEARING};
    for (size_t i = 0; i < 2; i++) {
        begin(calls[i], p->name, ""), put(BEFORE, 1), put(0, 4), plan_and_rules(p), put((uint32_t)p->n + 1, 2), end();
        begin(calls[i], p->name, "-behind"), put(BEHIND, 1), put(5, 4), plan_and_rules(p), put((uint32_t)p->n, 2), end();
        begin(calls[i], p->name, "-11"), put(BEFORE, 1), put(0, 4), plan_and_rules(p), put((uint32_t)p->n - 1, 2), end();
    }
}

/* One set for all of the first `sets` nodes. */
static void fewest_of(const struct plan *p, const char *which, enum side side, uint32_t want, size_t sets, uint32_t set,
                      uint32_t room) {
    begin(FEWEST, p->name, which), put(side, 1), put(want, 1), plan_and_rules(p), put((uint32_t)sets, 2);
    for (size_t v = 0; v < sets; v++)
        put(set, 4), put(0, 4);
    put((uint32_t)WHATIF_FEWEST_WORK(p->n, p->s) + room, 2), put(64, 1), put(63 + room, 1), end();
}

/* Both wants, with a set for each node and without, or with nothing open; sets for some nodes, room one too short. */
static void fewest(const struct plan *p) {
    fewest_of(p, "", BEFORE, 1, 0, 0, 2), fewest_of(p, "-lost", BEFORE, 0, 0, 0, 1);
    fewest_of(p, "-behind", BEHIND, 1, p->n, 5, 1), fewest_of(p, "-set", BEHIND, 0, p->n, 2, 1);
    fewest_of(p, "-closed", BEFORE, 0, p->n, 0, 1), fewest_of(p, "-17", BEFORE, 1, p->n - 1, 5, 1);
    fewest_of(p, "-11", BEFORE, 1, 0, 0, 0);
}

/* A comb whose leaves must all have label 1, and `wrong` of them have 0: the fewest changes are that many. */
static void many_changes(const char *name, size_t leaves, size_t wrong) {
    static const uint8_t leaf[] = {0, 1}, marks[] = {0, 1}, inner[2][2][2] = {{{0, 0}, {0, 0}}, {{0, 1}, {0, 1}}};
    uint8_t labels[199], kinds[199], plan_bytes[WHATIF_PLAN_BYTES(199)], rule_bytes[WHATIF_RULES_BYTES(2, 2)];
    struct plan p = {name, 2 * leaves - 1, 2, 2, 2, plan_bytes, rule_bytes, branch, 0, 0};
    for (size_t v = 0; v < p.n; v++)
        kinds[v] = v > 0 && v % 2 == 0, labels[v] = kinds[v] || (v + 1) / 2 >= wrong;
    must(whatif_write_plan(labels, p.n, kinds, p.n, plan_bytes, sizeof plan_bytes) == 0 &&
         whatif_write_rules(leaf, 2, &inner[0][0][0], 8, marks, 2, rule_bytes, sizeof rule_bytes) == 0);
    fewest_of(&p, "", BEFORE, 1, 0, 0, 1);
}

static void ask_of(const struct plan *p, const char *which, enum side side, const struct question *list) {
    begin(ASK, p->name, which), put(side, 1), changes(list), plan_and_rules(p), tables(p, p->s), end();
}

/* A question on the tables, before and behind a page; each refusal but 17. */
static void asks(const struct plan *p, const struct question *list) {
    static const struct question no_label = {1, {0}, {63}};
    const struct question outside = {1, {(uint16_t)p->n}, {0}};
    size_t numbers_len = WHATIF_NODE_TABLE_LEN(p->n);
    must(whatif_build(PLAN(p), RULES(p), nodes, numbers_len, states, WHATIF_STATE_TABLE_LEN(p->n, p->s)) == 0);
    ask_of(p, "", BEFORE, list), ask_of(p, "-behind", BEHIND, list);
    ask_of(p, "-13", BEFORE, &outside), ask_of(p, "-14", BEFORE, &no_label);
    begin(ASK, p->name, "-12"), put(BEFORE, 1), numbers(list->nodes, list->m), bytes(list->labels, list->m - 1);
    plan_and_rules(p), tables(p, p->s), end();
    for (size_t i = 0; i < numbers_len; i++)
        nodes[i] = 1;
    ask_of(p, "-18", BEFORE, list);
}

static void screen_call(const char *name, const char *which, enum side side, enum screen_step call, uint32_t number) {
    begin(SCREEN, name, which), put(side, 1), put(call == ON_DEAL ? 4 : call, 1), put(number, 4);
}

/* The five calls on a run of loaded, running or answered records; a number that is cut to one below 8, a run a byte
 * short and a byte long, a record that is broken, and nobody who runs. */
static void on_screens(const struct plan *p, const struct question *list) {
    uint8_t loaded[WHATIF_RECORD_BYTES] = {0}, running[WHATIF_RECORD_BYTES], answered[WHATIF_RECORD_BYTES];
    uint32_t parts, finished = 0;
    size_t numbers_len = WHATIF_NODE_TABLE_LEN(p->n), bytes_len = WHATIF_STATE_TABLE_LEN(p->n, p->s);
    must(whatif_load(loaded, sizeof loaded, PLAN(p), RULES(p), nodes, numbers_len, states, bytes_len) == 0);
    memcpy(running, loaded, sizeof running);
    must(whatif_start(running, sizeof running, PLAN(p), RULES(p), nodes, numbers_len, states, bytes_len, list->nodes,
                      list->m, list->labels, list->m, &parts) == 0);
    memcpy(answered, running, sizeof answered);
    while (!finished)
        must(whatif_advance(answered, sizeof answered, PLAN(p), RULES(p), nodes, numbers_len, states, bytes_len,
                            &finished) == 0);
#define RUN(length, on, record) put(length, 1), put(on, 1), bytes(record, sizeof record)
    screen_call(p->name, "-load", BEFORE, ON_LOAD, 0), RUN(0, 0xff, answered), changes(list), plan_and_rules(p);
    lengths(p, p->s), end();
    screen_call(p->name, "-load-1", BEHIND, ON_LOAD, 0), RUN(0, 0x40, running), changes(list), plan_and_rules(p);
    lengths(p, p->s), end();
    screen_call(p->name, "-start", BEHIND, ON_START, 7), RUN(0, 0xff, loaded), changes(list), plan_and_rules(p);
    tables(p, p->s), end();
    screen_call(p->name, "-cancel", BEFORE, ON_CANCEL, 2), RUN(0, 0x3c, running), end();
    screen_call(p->name, "-cancel-25", BEFORE, ON_CANCEL, 259), RUN(0, 0xff, running), end();
    screen_call(p->name, "-read", BEHIND, ON_READ, 0), RUN(0, 0x01, answered), end();
    screen_call(p->name, "-read-short", BEFORE, ON_READ, 0), RUN(1, 0x01, answered), end();
    screen_call(p->name, "-read-long", BEFORE, ON_READ, 0), RUN(2, 0x01, answered), end();
    screen_call(p->name, "-deal", BEFORE, ON_DEAL, 5), RUN(0, 0x0e, running), changes(list), plan_and_rules(p);
    tables(p, p->s), end();
    screen_call(p->name, "-deal-last", BEHIND, ON_DEAL, 7), RUN(0, 0x81, running), changes(list), plan_and_rules(p);
    tables(p, p->s), end();
    screen_call(p->name, "-deal-25", BEFORE, ON_DEAL, 8), RUN(0, 0xff, loaded), changes(list), plan_and_rules(p);
    tables(p, p->s), end();
    screen_call(p->name, "-deal-1", BEFORE, ON_DEAL, 3), RUN(0, 0xff, answered), changes(list), plan_and_rules(p);
    tables(p, p->s), end();
    running[1] = 2;
    screen_call(p->name, "-deal-broken", BEFORE, ON_DEAL, 3), RUN(0, 0x18, running), changes(list), plan_and_rules(p);
    tables(p, p->s), end();
#undef RUN
}

static void on(enum screen_step which, uint32_t screen) { put(which, 1), put(screen, 4); }

/* Load, three screens started, deals, one cancelled, a Load too early, two leaf states of the rules altered to one that
 * is none and back, a number of its own, deals to the end, Reads, Load, Read. */
static void screens_list(const struct plan *p, const struct question *list) {
    begin(SCREENS, p->name, ""), put(BEFORE, 1), plan_and_rules(p);
    put(ON_LOAD, 1), on(ON_START, 1), changes(list), on(ON_START, 6), changes(list), on(ON_START, 7), changes(list);
    for (int i = 0; i < 4; i++)
        put(ON_DEAL, 1);
    on(ON_CANCEL, 6), put(ON_LOAD, 1), on(ON_READ, 1), on(ON_START, 256), changes(list);
    for (int i = 0; i < 4; i++)
        put(ON_ALTER, 1), put(1, 1), put((uint32_t)(20 + i % 2), 2), put(i < 2 ? 99 : p->rules[20 + i % 2], 1),
            put(ON_DEAL, 1);
    on(ON_NUMBER, 3), on(ON_NUMBER, 8), on(ON_START, 0), changes(list);
    for (int i = 0; i < 30; i++)
        put(ON_DEAL, 1);
    on(ON_READ, 0), on(ON_READ, 1), on(ON_READ, 7), on(ON_READ, 6), put(ON_LOAD, 1), on(ON_READ, 0);
    on(ON_START, 3), changes(list), end();
}

static uint16_t colour_numbers[WHATIF_COLOUR_BRANCH_NUMBERS(N, S)];
static uint8_t colour_bytes[WHATIF_COLOUR_BRANCH_BYTES(N, S)];

/* The build with some excess, exact behind a page, and too short. */
static void colour_build(const struct plan *p, const char *which, enum side side, size_t numbers_len, size_t bytes_len) {
    begin(COLOUR_BRANCH_BUILD, p->name, which), put(side, 1), plan_and_branch(p), put((uint32_t)numbers_len, 2);
    put((uint32_t)bytes_len, 2), put(p->lower, 2), end();
}

static void colour_question(const struct plan *p, const char *which, enum side side, uint32_t upper, uint32_t lower) {
    size_t s = p->branch_states;
    begin(COLOUR_BRANCH, p->name, which), put(side, 1), put(upper, 4), put(lower, 4), plan_and_branch(p);
    numbers(nodes, WHATIF_NODE_TABLE_LEN(p->n)), numbers(colour_numbers, WHATIF_COLOUR_BRANCH_NUMBERS(p->n, s));
    bytes(colour_bytes, WHATIF_COLOUR_BRANCH_BYTES(p->n, s)), end();
}

/* Questions on tables as built, from the upper node and from the root, and each refusal but 17. */
static void colours(const struct plan *p) {
    size_t s = p->branch_states, numbers_len = WHATIF_COLOUR_BRANCH_NUMBERS(p->n, s);
    size_t bytes_len = WHATIF_COLOUR_BRANCH_BYTES(p->n, s);
    must(whatif_colour_branch_build(PLAN(p), BRANCH_TABLE(p), colour_numbers, numbers_len, colour_bytes, bytes_len) == 0);
    memcpy(nodes, colour_numbers, 2 * WHATIF_NODE_TABLE_LEN(p->n));
    colour_build(p, "", BEFORE, numbers_len + 1, bytes_len + 1);
    colour_build(p, "-behind", BEHIND, numbers_len, bytes_len);
    colour_build(p, "-11", BEFORE, numbers_len, bytes_len - 1);
    uint32_t root = (uint32_t)p->n - 1;
    colour_question(p, "", BEFORE, p->upper, p->lower);
    colour_question(p, "-behind", BEHIND, root, p->lower);
    colour_question(p, "-root", BEFORE, root, 0);
    colour_question(p, "-13", BEFORE, root, root + 65537);
    colour_question(p, "-16", BEFORE, 0, root);
    memset(colour_bytes, 31, bytes_len);
    colour_question(p, "-18", BEFORE, root, p->lower);
    memset(colour_bytes, 0, bytes_len), memset(colour_numbers, 1, 2 * numbers_len);
    colour_question(p, "-other", BEFORE, root, 0);
}

static uint16_t set_numbers[WHATIF_COLOUR_NUMBERS(N, 2)];
static uint8_t set_bytes[WHATIF_COLOUR_BYTES(N, 2)];

/* A rule table of two states for the comb, since that of four states would need more bytes than an input has. */
static void sets_build(const char *name, const uint8_t *p, size_t n, const uint8_t *r, size_t k, size_t s) {
    size_t plan_len = WHATIF_PLAN_BYTES(n), rules_len = WHATIF_RULES_BYTES(s, k);
    size_t numbers_len = WHATIF_COLOUR_NUMBERS(n, s), bytes_len = WHATIF_COLOUR_BYTES(n, s);
    begin(COLOUR_BUILD, name, ""), put(BEFORE, 1), bytes(p, plan_len), bytes(r, rules_len);
    put((uint32_t)numbers_len + 1, 2), put((uint32_t)bytes_len + 1, 2), end();
    begin(COLOUR_BUILD, name, "-behind"), put(BEHIND, 1), bytes(p, plan_len), bytes(r, rules_len);
    put((uint32_t)numbers_len, 2), put((uint32_t)bytes_len, 2), end();
    begin(COLOUR_BUILD, name, "-11"), put(BEFORE, 1), bytes(p, plan_len), bytes(r, rules_len);
    put((uint32_t)numbers_len - 1, 2), put((uint32_t)bytes_len, 2), end();
}

static void sets_ask(const char *name, const char *which, enum side side, const struct question *list, const uint8_t *p,
                     size_t n, const uint8_t *r, size_t k) {
    begin(COLOUR_ASK, name, which), put(side, 1), changes(list), bytes(p, WHATIF_PLAN_BYTES(n));
    bytes(r, WHATIF_RULES_BYTES(2, k)), numbers(set_numbers, WHATIF_NODE_TABLE_LEN(n));
    bytes(set_bytes, WHATIF_STATE_TABLE_LEN(n, 2)), numbers(set_numbers, WHATIF_COLOUR_NUMBERS(n, 2));
    bytes(set_bytes, WHATIF_COLOUR_BYTES(n, 2)), end();
}

/* Questions on tables as built, and each refusal but 12 and 17; the tables begin with those of whatif_build. */
static void sets_of(const char *name, const uint8_t *p, size_t n, const uint8_t *r, size_t k) {
    const struct question none_there = {1, {(uint16_t)n}, {0}}, no_label = {1, {0}, {(uint8_t)k}};
    must(whatif_colour_build(p, WHATIF_PLAN_BYTES(n), r, WHATIF_RULES_BYTES(2, k), set_numbers,
                             WHATIF_COLOUR_NUMBERS(n, 2), set_bytes, WHATIF_COLOUR_BYTES(n, 2)) == 0);
    sets_build(name, p, n, r, k, 2);
    sets_ask(name, "", BEFORE, &questions[1], p, n, r, k);
    sets_ask(name, "-none", BEFORE, &questions[0], p, n, r, k);
    sets_ask(name, "-behind", BEHIND, &questions[3], p, n, r, k);
    sets_ask(name, "-13", BEFORE, &none_there, p, n, r, k);
    sets_ask(name, "-14", BEFORE, &no_label, p, n, r, k);
    memset(set_bytes + WHATIF_STATE_TABLE_LEN(n, 2), 0, n * 4);
    sets_ask(name, "-18", BEFORE, &questions[1], p, n, r, k);
}

/* The sample's plan with other rules and tables of 1s as long as they need: 12 with a node and no label, or 27. */
static void sets_refused(const char *name, const uint8_t *r, size_t len, size_t s, size_t listed) {
    static const uint16_t ones[WHATIF_COLOUR_NUMBERS(SAMPLE_NODES, 5)] = {1, 1, 1};
    static const uint8_t more[WHATIF_COLOUR_BYTES(SAMPLE_NODES, 5)] = {1, 1, 1};
    begin(COLOUR_ASK, name, ""), put(BEFORE, 1), numbers(ones, listed), bytes(more, 0), bytes(PLAN(&sample));
    bytes(r, len), numbers(ones, WHATIF_NODE_TABLE_LEN(SAMPLE_NODES)), bytes(more, WHATIF_STATE_TABLE_LEN(SAMPLE_NODES, s));
    numbers(ones, WHATIF_COLOUR_NUMBERS(SAMPLE_NODES, s)), bytes(more, WHATIF_COLOUR_BYTES(SAMPLE_NODES, s)), end();
}

/* The comb under a table that keeps the state from below where a label is odd; five states get 27. */
static void sets(void) {
    static uint8_t two[WHATIF_RULES_BYTES(2, K)] = {2, 0, 0, 0, K, 0, 0, 0, 20, 0, 0, 0, 20 + K, 0, 0, 0, 20 + 5 * K};
    static uint8_t five[WHATIF_RULES_BYTES(5, 2)] = {5, 0, 0, 0, 2, 0, 0, 0, 20, 0, 0, 0, 22, 0, 0, 0, 72};
    for (size_t i = 0; i < K; i++) {
        two[20 + i] = i % 2;
        for (size_t l = 0; l < 2; l++)
            for (size_t q = 0; q < 2; q++)
                two[20 + K + (l * K + i) * 2 + q] = i % 2 ? (uint8_t)l : (uint8_t)(i % 4 < 2 ? l & q : l ^ q);
    }
    two[sizeof two - 1] = 1;
    sets_of("a", plan, SAMPLE_NODES, rules, 2), sets_of("b", plan_b, N, two, K);
    sets_build("five", plan, SAMPLE_NODES, five, 2, 5);
    sets_refused("a-12", rules, sizeof rules, 2, 1), sets_refused("five-27", five, sizeof five, 5, 0);
}

static void confirmation(const struct plan *p, const char *which, const struct question *list, const uint8_t *record) {
    begin(CONFIRM, p->name, which), put(BEFORE, 1), changes(list), bytes(record, WHATIF_RECORD_BYTES), plan_and_rules(p);
    end();
}

static void record_alone(const struct plan *p, const char *which, const uint8_t *record, size_t len) {
    begin(RECORD, p->name, which), put(BEHIND, 1), bytes(record, len), end();
}

/* A record on some screens, and another to put in the place of the one with this number. */
static void run_of(const struct plan *p, const char *which, uint32_t number, uint32_t length, uint32_t on,
                   const uint8_t *record, const uint8_t *other) {
    begin(RUN, p->name, which), put(BEFORE, 1), put(number, 4), put(length, 1), put(on, 1);
    bytes(record, WHATIF_RECORD_BYTES), bytes(other, WHATIF_RECORD_BYTES), end();
}

/* Records in each state; confirmed with their list and with others; alone, short, damaged; as runs. */
static void on_own_functions(const struct plan *p, const struct question *list) {
    uint8_t fresh[WHATIF_RECORD_BYTES] = {0}, loaded[WHATIF_RECORD_BYTES] = {0}, running[WHATIF_RECORD_BYTES];
    uint8_t answered[WHATIF_RECORD_BYTES], other_plan[WHATIF_PLAN_BYTES(N)];
    uint32_t parts, finished = 0;
    size_t numbers_len = WHATIF_NODE_TABLE_LEN(p->n), bytes_len = WHATIF_STATE_TABLE_LEN(p->n, p->s);
    struct question other = *list;
    struct plan altered = *p;
    other.labels[list->m - 1] ^= 1;
    memcpy(other_plan, p->plan, WHATIF_PLAN_BYTES(p->n));
    altered.plan = other_plan;
    must(whatif_load(loaded, sizeof loaded, PLAN(p), RULES(p), nodes, numbers_len, states, bytes_len) == 0);
    memcpy(running, loaded, sizeof running);
    must(whatif_start(running, sizeof running, PLAN(p), RULES(p), nodes, numbers_len, states, bytes_len, list->nodes,
                      list->m, list->labels, list->m, &parts) == 0);
    memcpy(answered, running, sizeof answered);
    while (!finished)
        must(whatif_advance(answered, sizeof answered, PLAN(p), RULES(p), nodes, numbers_len, states, bytes_len,
                            &finished) == 0);
    confirmation(p, "", list, answered), confirmation(p, "-running", list, running);
    confirmation(p, "-other-list", &other, answered);
    other = *list, other.nodes[0]++, confirmation(p, "-other-node", &other, answered);
    other = *list, other.m--, confirmation(p, "-fewer", &other, answered);
    other_plan[12 + p->n - 1] ^= 1, confirmation(&altered, "-other-root", list, answered);
    other_plan[12 + p->n] = 1, confirmation(&altered, "-no-tree", list, answered);
    altered = p == &sample ? comb : sample, altered.name = p->name;
    confirmation(&altered, "-other-plan", list, answered);
    record_alone(p, "-fresh", fresh, sizeof fresh), record_alone(p, "-loaded", loaded, sizeof loaded);
    record_alone(p, "-running", running, sizeof running), record_alone(p, "-answered", answered, sizeof answered);
    record_alone(p, "-short", answered, sizeof answered - 1);
    run_of(p, "", 2, 0, 0x34, running, loaded), run_of(p, "-idle", 7, 0, 0xff, answered, fresh);
    run_of(p, "-not-at-rest", 5, 0, 0xff, loaded, running), run_of(p, "-25", 8, 0, 0x01, running, loaded);
    run_of(p, "-short", 1, 1, 0x81, running, loaded), run_of(p, "-long", 1, 2, 0x81, running, loaded);
    answered[1] ^= 2, running[1] ^= 2;
    confirmation(p, "-damaged", list, answered), record_alone(p, "-damaged", running, sizeof running);
    run_of(p, "-damaged", 6, 0, 0x0c, running, answered);
    run_of(p, "-damaged-at-rest", 0, 0, 0x40, answered, loaded);
}

/* Bytes to count; labels and kinds of the plan; the parts of its rule table. */
static void written(const struct plan *p, const char *which, const uint8_t *counted, size_t len, size_t kinds,
                    size_t room) {
    const uint8_t *of_plan = p->plan + 12, *of_rules = p->rules + 20;
    size_t inner = p->s * p->k * p->s;
    begin(WRITTEN, p->name, which), put(BEFORE, 1), bytes(counted, len), bytes(of_plan, p->n);
    bytes(of_plan + p->n, kinds), put((uint32_t)room, 2), bytes(of_rules, p->k), bytes(of_rules + p->k, inner);
    bytes(of_rules + p->k + inner, p->s), put((uint32_t)WHATIF_RULES_BYTES(p->s, p->k) + 1, 2), end();
}

static void counts_and_writers(const struct plan *p) {
    static const uint8_t file_of_three[] = {3, 0, 0, 0, 12, 0, 0, 0, 15, 0, 0, 0, 5, 6, 7, 2, 0, 0};
    uint8_t other[WHATIF_PLAN_BYTES(N)], longer[WHATIF_BRANCH_BYTES(S, K) + 1] = {0};
    size_t len = WHATIF_PLAN_BYTES(p->n), branch_len = WHATIF_BRANCH_BYTES(p->branch_states, p->k);
    struct plan leaves = *p;
    leaves.plan = other;
    memcpy(other, p->plan, len), memset(other + 12 + p->n, 0, p->n), other[8]++;
    memcpy(longer, p->branch, branch_len);
    written(&leaves, "-leaves", other, len, p->n, len), written(p, "-longer", longer, branch_len + 1, p->n, len);
    written(p, "-plan", PLAN(p), p->n, len + 1), written(p, "-rules", RULES(p), p->n, len);
    written(p, "-branch", BRANCH_TABLE(p), p->n - 1, len), written(p, "-11", PLAN(p), p->n, len - 1);
    written(p, "-planner", file_of_three, sizeof file_of_three, p->n, len);
    written(p, "-short", p->plan, 11, p->n, len);
}

int main(int argc, char **argv) {
    must(argc == 2);
    folder = argv[1];
    for (size_t i = 0; i < TRIES; i++) {
        char path[4096];
        must(snprintf(path, sizeof path, "%s/%s", folder, folders[i]) < (int)sizeof path);
        mkdir(path, 0777);
    }
    fill_b();
    on_tables(&sample), on_records(&sample, &questions[1]), panel(&sample, &questions[3]);
    refused_starts(), refused_screens();
    merges(&sample, &comb), merges(&comb, &sample);
    agreements(&sample, &comb), agreements(&comb, &sample);
    planner_files("one", (const uint8_t[]){7}, (const uint8_t[]){0}, 1);
    planner_files("nine", (const uint8_t[]){5, 6, 8, 7, 0, 62, 1, 1, 9}, (const uint8_t[]){3, 1, 0, 0, 2, 1, 1, 0, 0}, 9);
    lists_over();
    counts(&sample), counts(&comb);
    for_every_node(&sample), for_every_node(&comb);
    fewest(&sample), fewest(&comb);
    many_changes("two", 9, 2), many_changes("64", 70, 64), many_changes("65", 70, 65), many_changes("99", 100, 99);
    asks(&sample, &questions[1]), asks(&comb, &far);
    on_screens(&sample, &questions[1]), screens_list(&sample, &questions[3]);
    on_screens(&comb, &far), screens_list(&comb, &far);
    colours(&sample), colours(&comb), sets();
    on_own_functions(&sample, &questions[2]), on_own_functions(&comb, &far);
    counts_and_writers(&sample), counts_and_writers(&comb);
    on_tables(&comb), on_records(&comb, &far), panel(&comb, &far), question(&comb, &far, "");
    for (size_t i = 0; i < QUESTIONS; i++) {
        char which[] = {'-', (char)('1' + i), 0};
        question(&sample, &questions[i], which);
    }
    return 0;
}
