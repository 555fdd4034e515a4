/*
 * The functions that the header has by itself, on whatever an input has. Each is compared with the library's own
 * answers and with the bytes as LAYOUT.md places them, which are read here a second time.
 */
#include "calls.h"
#include "session.h"
#include "told.h"

#define FRESH WHATIF_RECORD_BYTES

/* The counts of a header that is exact but for its contents; all 0 where it is not. */
static int names_counts(const struct lent *plan, const struct lent *rules, const uint8_t *record) {
    uint32_t run[2], answer = whatif_fresh_run(LENT(*plan), LENT(*rules), NULL, 0, NULL, 0, &run[0], &run[1]);
    uint32_t of_rules = whatif_merge(LENT(*rules), LENT(*rules), NULL, 0);
    if ((answer >= 2 && answer <= 4) || (of_rules >= 6 && of_rules <= 8))
        return 0;
    return named(plan, 0) == record[4] + 256u * record[5] && named(rules, 0) == record[2] &&
           named(rules, 4) == record[3];
}

static int lists(const uint8_t *record, const uint16_t *nodes, const uint8_t *labels, size_t count) {
    if (record[6] != count)
        return 0;
    for (size_t i = 0; i < count; i++)
        if (record[13 + 2 * i] + 256u * record[14 + 2 * i] != nodes[i] || record[141 + i] != labels[i])
            return 0;
    return 1;
}

/* What whatif_confirm is to say: the first check that does not hold, in the header's order. */
static struct whatif_confirmed wanted(const struct lent *record, const struct whatif_lent *lent,
                                      const struct lent *plan, const struct lent *rules, const uint16_t *nodes,
                                      const uint8_t *labels, size_t count) {
    const uint8_t *bytes = record->at;
    uint32_t read[5], run[2];
    if (whatif_read(LENT(*record), &read[0], &read[1], &read[2], &read[3], &read[4]) || bytes[0] != 3)
        return (struct whatif_confirmed){0, WHATIF_CONFIRM_NO_ANSWER, 1};
    if (!names_counts(plan, rules, bytes))
        return (struct whatif_confirmed){0, WHATIF_CONFIRM_OTHER_COUNTS, 0};
    if (!lists(bytes, nodes, labels, count))
        return (struct whatif_confirmed){0, WHATIF_CONFIRM_OTHER_LIST, 0};
    uint32_t refused = whatif_fresh_run(lent->plan, lent->plan_len, lent->rules, lent->rules_len, nodes, count, labels,
                                        count, &run[0], &run[1]);
    if (refused)
        return (struct whatif_confirmed){0, WHATIF_CONFIRM_RUN_REFUSED, refused};
    if (run[0] != read[0] || run[1] != read[1])
        return (struct whatif_confirmed){0, WHATIF_CONFIRM_DIFFERS, 0};
    return (struct whatif_confirmed){run[1], run[1] ? WHATIF_CONFIRM_CLEARED : WHATIF_CONFIRM_NOT_CLEARED, 0};
}

uint32_t confirmed(const struct lent *record, const struct lent *plan, const struct lent *rules, const uint16_t *nodes,
                   const uint8_t *labels, size_t count) {
    struct whatif_lent lent = {plan->at, plan->count, rules->at, rules->count, NULL, 0, NULL, 0};
    struct whatif_confirmed want = wanted(record, &lent, plan, rules, nodes, labels, count);
    struct whatif_confirmed got = whatif_confirm(LENT(*record), &lent, nodes, labels, count);
    sure(got.cut == want.cut && got.reason == want.reason && got.refusal == want.refusal,
         "a confirmation is the first check that does not hold");
    return got.reason <= WHATIF_CONFIRM_NOT_CLEARED ? 0 : got.reason == WHATIF_CONFIRM_NO_ANSWER ? 1 : got.reason;
}

/* A list, a record, a plan and rules. */
uint32_t try_confirm(struct input *in) {
    struct lent listed = lend(in, 2), labels = lend(in, 1), record = lend(in, 1), plan = lend(in, 1),
                rules = lend(in, 1);
    size_t count = listed.count < labels.count ? listed.count : labels.count;
    uint32_t answer = confirmed(&record, &plan, &rules, listed.at, labels.at, count);
    const struct lent all[] = {listed, labels, record, plan, rules};
    for (size_t i = 0; i < sizeof all / sizeof *all; i++)
        held(&all[i], 0, "a confirmation alters nothing");
    return answer;
}

/* Whether this call refuses the record with 1. Nothing else is lent, so that only Cancel and Read are ever accepted. */
static int refuses(struct lent *record, enum whatif_call call) {
    uint8_t copy[FRESH];
    uint32_t out[5];
    struct whatif_told told;
    switch (call) {
    case WHATIF_CALL_LOAD:
        return whatif_load(LENT(*record), NULL, 0, NULL, 0, NULL, 0, NULL, 0) == 1;
    case WHATIF_CALL_START:
        return whatif_start(LENT(*record), NULL, 0, NULL, 0, NULL, 0, NULL, 0, NULL, 0, NULL, 0, out) == 1;
    case WHATIF_CALL_ADVANCE:
        return whatif_advance(LENT(*record), NULL, 0, NULL, 0, NULL, 0, NULL, 0, out) == 1;
    case WHATIF_CALL_CANCEL:
        if (record->count != sizeof copy)
            return whatif_cancel(LENT(*record)) == 1;
        memcpy(copy, record->at, sizeof copy);
        return whatif_cancel(copy, sizeof copy) == 1;
    case WHATIF_CALL_READ:
        return whatif_read(LENT(*record), &out[0], &out[1], &out[2], &out[3], &out[4]) == 1;
    default:
        return whatif_read_current(LENT(*record), &told) == 1;
    }
}

static int says(const char *sentence, const char *word) { return strstr(sentence, word) != NULL; }

/* A record: damaged where every call refuses it, and the cause that is named; 1 where it is damaged. */
uint32_t try_record(struct input *in) {
    struct lent record = lend(in, 1);
    const uint8_t *bytes = record.at;
    uint32_t damaged = whatif_record_damaged(LENT(record)), state = whatif_session_state(LENT(record));
    int all = 1, whole_length = record.count == FRESH;
    for (int call = WHATIF_CALL_LOAD; call <= WHATIF_CALL_READ_CURRENT; call++) {
        int one = refuses(&record, (enum whatif_call)call);
        const char *why = whatif_why_1(LENT(record), (enum whatif_call)call);
        all &= one || call == WHATIF_CALL_READ_CURRENT;
        sure(one != says(why, "allows this call"), "a cause is named exactly where the call is refused");
        sure((damaged && whole_length) == says(why, "damaged"), "damage is named exactly where there is some");
        sure(whole_length != says(why, "WHATIF_RECORD_BYTES"), "the length is named exactly where it is another");
    }
    sure((damaged == 1) == all, "a record is damaged exactly where every call refuses it");
    sure(damaged || state <= WHATIF_ANSWERED, "a whole record has a state");
    size_t m = state == WHATIF_NO_STATE || bytes[6] > WHATIF_MAX_CHANGES ? 0 : bytes[6];
    sure(whatif_listed(LENT(record)) == m, "the changes listed");
    for (size_t i = 0; i < WHATIF_MAX_CHANGES; i++) {
        uint32_t node = i < m ? bytes[13 + 2 * i] + 256u * bytes[14 + 2 * i] : 0, label = i < m ? bytes[141 + i] : 0;
        sure(whatif_listed_node(LENT(record), i) == node && whatif_listed_label(LENT(record), i) == label,
             "the entries");
    }
    held(&record, 0, "nothing alters the record");
    return damaged;
}

/* What the state bytes say: the next running screen from `first`, and how many there are. */
static uint32_t next_running(const struct lent *run, uint32_t first, uint32_t *running) {
    uint32_t next = WHATIF_SCREENS;
    *running = 0;
    for (uint32_t i = WHATIF_SCREENS; run->count == WHATIF_SCREENS_BYTES && i-- > 0;) {
        uint32_t screen = (first + i) % WHATIF_SCREENS;
        int runs = ((const uint8_t *)run->at)[FRESH * screen] == 2;
        *running += (uint32_t)runs;
        next = runs && first < WHATIF_SCREENS ? screen : next;
    }
    return next;
}

/* Deal and Load with nothing lent are refused with 17 and 2 where they may be made. */
static void as_deal_and_load(struct lent *run, uint32_t first, uint32_t next, uint32_t damaged, uint32_t running) {
    uint32_t out[2];
    int is_run = run->count == WHATIF_SCREENS_BYTES;
    uint32_t deal = whatif_screens_deal(LENT(*run), first, NULL, 0, NULL, 0, NULL, 0, NULL, 0, &out[0], &out[1]);
    uint32_t load = whatif_screens_load(LENT(*run), NULL, 0, NULL, 0, NULL, 0, NULL, 0, &out[0]);
    const uint8_t *record = (const uint8_t *)run->at + FRESH * (next % WHATIF_SCREENS);
    int stops = next == WHATIF_SCREENS || whatif_record_damaged(record, FRESH);
    sure(deal == (!is_run || first > 7 ? 25u
                  : stops              ? 1u
                                       : 17u),
         "a deal is stopped where nobody runs or one is damaged");
    sure(load == (!is_run ? 25u : damaged < 8 || running ? 1u : 2u), "a Load waits for the running and the damaged");
    const char *why = whatif_screens_why_1(LENT(*run), first, WHATIF_CALL_ADVANCE);
    sure((deal == 1 && next == WHATIF_SCREENS) == says(why, "nothing to deal"), "an idle mill is named");
    sure((deal == 1 && next < WHATIF_SCREENS) == says(why, "is damaged"), "a damaged record is named");
    why = whatif_screens_why_1(LENT(*run), first, WHATIF_CALL_LOAD);
    sure((load == 1 && damaged < 8) == says(why, "is damaged"), "a damaged record is named to a Load");
    sure((load == 2) == says(why, "allow a Load"), "a Load that may be made is named");
}

/* A number, and a run: its length (exact, a byte short, a byte long), a record and on which screens it is. Then another
 * record to put in the place of the one with that number. The answer of that replacement. */
uint32_t try_run(struct input *in) {
    static const size_t lengths[4] = {WHATIF_SCREENS_BYTES, WHATIF_SCREENS_BYTES - 1, WHATIF_SCREENS_BYTES + 1,
                                      WHATIF_SCREENS_BYTES};
    uint32_t number = take(in, 4), length = take(in, 1) % 4, on = take(in, 1), running, damaged = WHATIF_SCREENS;
    struct lent record = lend(in, 1), other = lend(in, 1), run = lend_filled(lengths[length], 1, 0);
    uint8_t *bytes = run.at;
    for (uint32_t i = 0; i < WHATIF_SCREENS; i++)
        if (on >> i & 1 && record.count <= FRESH && FRESH * (i + 1) <= run.count)
            memcpy(bytes + FRESH * i, record.at, record.count);
    keep(&run);
    uint32_t next = next_running(&run, number, &running);
    for (uint32_t i = WHATIF_SCREENS; run.count == WHATIF_SCREENS_BYTES && i-- > 0;)
        damaged = whatif_record_damaged(bytes + FRESH * i, FRESH) ? i : damaged;
    sure(whatif_screens_next(LENT(run), number) == next, "the next running screen");
    sure(whatif_screens_running(LENT(run)) == running, "the running screens");
    sure(whatif_screens_damaged(LENT(run)) == damaged, "the first damaged screen");
    as_deal_and_load(&run, number, next, damaged, running);
    held(&run, 0, "nothing alters the run");
    int there = run.count == WHATIF_SCREENS_BYTES && number < WHATIF_SCREENS;
    int at_rest = !whatif_record_damaged(LENT(other)) && ((const uint8_t *)other.at)[0] != 2;
    uint32_t answer = whatif_screens_replace(LENT(run), number, LENT(other));
    sure(answer == (!there ? 25u : !at_rest ? 1u : 0u), "a replacement is a whole record at rest");
    if (answer == WHATIF_ACCEPTED) {
        sure(memcmp(bytes + FRESH * number, other.at, FRESH) == 0, "it is in its place");
        memcpy(bytes + FRESH * number, run.was + FRESH * number, FRESH);
    }
    held(&run, 0, "the other seven stay");
    held(&other, 0, "the replacement stays");
    return answer;
}

static void put_number(uint8_t *at, size_t number) {
    for (size_t i = 0; i < 4; i++)
        at[i] = (uint8_t)(number >> (8 * i));
}

/* Bytes as plan, rule table, branch table and planner's file: counts are 0 exactly where the header is refused. */
static void counted(const struct lent *bytes) {
    static const uint8_t leaf_alone[] = {1, 0, 0, 0, 12, 0, 0, 0, 13, 0, 0, 0, 0, 0};
    uint32_t plan = whatif_build(LENT(*bytes), NULL, 0, NULL, 0, NULL, 0), rules, branch, n = named(bytes, 0);
    sure(whatif_plan_nodes(LENT(*bytes)) == (plan >= 2 && plan <= 4 ? 0 : n), "N of a plan");
    int same = named(bytes, 4) == 12 && named(bytes, 8) == 12 + n && bytes->count == WHATIF_PLANNER_BYTES(n);
    sure(whatif_planner_nodes(LENT(*bytes)) == (same && n >= 1 && n <= 32767 ? n : 0), "n of a planner's file");
    rules = whatif_merge(LENT(*bytes), LENT(*bytes), NULL, 0);
    int none = rules >= 6 && rules <= 8;
    sure(whatif_rules_states(LENT(*bytes)) == (none ? 0 : n), "S of a rule table");
    sure(whatif_rules_labels(LENT(*bytes)) == (none ? 0 : named(bytes, 4)), "K of a rule table");
    branch = whatif_branch_build(leaf_alone, sizeof leaf_alone, LENT(*bytes), NULL, 0, NULL, 0);
    none = branch >= 6 && branch <= 8;
    sure(whatif_branch_states(LENT(*bytes)) == (none ? 0 : n), "S of a branch table");
    sure(whatif_branch_labels(LENT(*bytes)) == (none ? 0 : named(bytes, 4)), "K of a branch table");
}

/* A plan from labels and kinds: refused as the library refuses it, with the bytes written here. */
static uint32_t write_plan(struct input *in) {
    struct lent labels = lend(in, 1), kinds = lend(in, 1), out = lend_filled(take(in, 2), 1, 0x77);
    struct lent by_hand = lend_filled(WHATIF_PLAN_BYTES(labels.count) % 65536, 1, 0);
    uint32_t answer = whatif_write_plan(LENT(labels), LENT(kinds), LENT(out)), want = WHATIF_REFUSED_PLAN_LAYOUT;
    if (labels.count == 0)
        want = WHATIF_REFUSED_NODE_COUNT;
    else if (labels.count == kinds.count) {
        uint8_t *to = by_hand.at;
        put_number(to, labels.count), put_number(to + 4, 12), put_number(to + 8, 12 + labels.count);
        memcpy(to + 12, labels.at, labels.count), memcpy(to + 12 + labels.count, kinds.at, kinds.count);
        want = whatif_build(LENT(by_hand), NULL, 0, NULL, 0, NULL, 0); /* 6: there are no rules */
        want = want != 6 ? want : out.count < by_hand.count ? WHATIF_REFUSED_BUFFER_SHORT : WHATIF_ACCEPTED;
    }
    sure(answer == want, "whatif_write_plan refuses what the library refuses");
    int same = answer != WHATIF_ACCEPTED || memcmp(out.at, by_hand.at, by_hand.count) == 0;
    sure(same, "it writes the plan");
    held(&out, answer == WHATIF_ACCEPTED ? by_hand.count : 0, "and nothing else");
    return answer;
}

/* A rule table from its parts: accepted where the library takes it, and its counts are those of the parts. */
static void write_rules(struct input *in) {
    struct lent leaf = lend(in, 1), inner = lend(in, 1), marks = lend(in, 1), out = lend_filled(take(in, 2), 1, 0x77);
    size_t s = marks.count, k = leaf.count, len = WHATIF_RULES_BYTES(s, k);
    uint32_t answer = whatif_write_rules(LENT(leaf), LENT(inner), LENT(marks), LENT(out));
    sure((answer == 7) == (s < 1 || s > 16 || k < 1 || k > 64), "7 for counts outside their limits");
    sure(answer == 7 || (answer == 8) == (inner.count != s * k * s), "8 for another number of inner states");
    held(&out, answer == WHATIF_ACCEPTED ? len : 0, "nothing else is written");
    if (answer != WHATIF_ACCEPTED)
        return;
    uint32_t taken = whatif_merge(out.at, len, out.at, len, NULL, 0);
    sure(taken == 11 || taken == 24, "the library takes the table");
    const uint8_t *at = out.at;
    sure(!memcmp(at + 20, leaf.at, k) && !memcmp(at + 20 + k, inner.at, inner.count) &&
             !memcmp(at + len - s, marks.at, s),
         "the table has its parts in their places");
}

/* Bytes to count, then labels and kinds, then the parts of a rule table. The answer of whatif_write_plan. */
uint32_t try_written(struct input *in) {
    struct lent bytes = lend(in, 1);
    counted(&bytes);
    held(&bytes, 0, "counting alters nothing");
    uint32_t answer = write_plan(in);
    write_rules(in);
    return answer;
}
