/*
 * Eight screens on the sample: lists of calls, each held to the session's own calls on single records, and what is
 * refused. The run, and all that is lent, ends at a page that must not be touched, or begins behind one. What it prints
 * is held to screens.expected.
 */
#define _DEFAULT_SOURCE
#include "guarded.h"
#include "sample.h"

#include <stdio.h>
#include <string.h>

#define UNSET 77u

static uint8_t *run;
/* The same sessions as single records. */
static uint8_t alone[WHATIF_SCREENS][WHATIF_RECORD_BYTES];
static uint32_t first;
static uint16_t *node_table;
static uint8_t *state_table, *rule_bytes;
static struct whatif_lent lent;

/* The run is the single records, one after the other. */
static void same(const char *what, uint32_t answer, uint32_t single) {
    if (answer != single || memcmp(run, alone, WHATIF_SCREENS_BYTES))
        printf("%s: NOT as a session alone\n", what);
}

static uint32_t load(void) {
    uint32_t single = 0, answer = whatif_screens_load(run, WHATIF_SCREENS_BYTES, lent.plan, lent.plan_len, lent.rules,
                                                      lent.rules_len, node_table, lent.node_table_len, state_table,
                                                      lent.state_table_len, &first);
    for (uint32_t i = 0; answer == WHATIF_ACCEPTED && i < WHATIF_SCREENS; i++)
        single |= whatif_load(alone[i], sizeof alone[i], lent.plan, lent.plan_len, lent.rules, lent.rules_len,
                              node_table, lent.node_table_len, state_table, lent.state_table_len);
    same("load", answer, answer == WHATIF_ACCEPTED ? single : answer);
    printf("load: %u, first %u\n", answer, first);
    return answer;
}

static void start(uint32_t screen, const struct question *q) {
    uint32_t parts = UNSET, other = UNSET;
    uint32_t answer =
        whatif_screens_start_lent(run, WHATIF_SCREENS_BYTES, screen, &lent, q->nodes, q->labels, q->m, &parts);
    same("start", answer,
         whatif_start_lent(alone[screen], WHATIF_RECORD_BYTES, &lent, q->nodes, q->labels, q->m, &other));
    printf("start %u: %u, %u parts%s\n", screen, answer, parts, parts == other ? "" : ", NOT as alone");
}

/* Refused, neither number nor finished is told. */
static void deal(void) {
    uint32_t next = UNSET, finished = UNSET, other = UNSET;
    uint32_t answer = whatif_screens_deal_lent(run, WHATIF_SCREENS_BYTES, first, &lent, &next, &finished);
    if (answer != WHATIF_ACCEPTED) {
        same("deal", answer, answer);
        printf("deal: %u%s\n", answer, next == UNSET && finished == UNSET ? "" : ", and TOLD");
        return;
    }
    uint32_t screen = whatif_screens_served(next);
    same("deal", answer, whatif_advance_lent(alone[screen], WHATIF_RECORD_BYTES, &lent, &other));
    printf("deal: screen %u, finished %u, next %u, part %u of %u%s\n", screen, finished, next,
           whatif_screens_parts_done(run, WHATIF_SCREENS_BYTES, screen),
           whatif_screens_parts(run, WHATIF_SCREENS_BYTES, screen), finished == other ? "" : ", NOT as alone");
    first = next;
}

static void cancel(uint32_t screen) {
    uint32_t answer = whatif_screens_cancel(run, WHATIF_SCREENS_BYTES, screen);
    same("cancel", answer, whatif_cancel(alone[screen], WHATIF_RECORD_BYTES));
    printf("cancel %u: %u\n", screen, answer);
}

static void tell(uint32_t screen) {
    uint32_t out[5] = {UNSET, UNSET, UNSET, UNSET, UNSET}, other[5] = {UNSET, UNSET, UNSET, UNSET, UNSET};
    uint32_t answer =
        whatif_screens_read(run, WHATIF_SCREENS_BYTES, screen, out, out + 1, out + 2, out + 3, out + 4);
    same("read", answer,
         whatif_read(alone[screen], WHATIF_RECORD_BYTES, other, other + 1, other + 2, other + 3, other + 4));
    printf("read %u: %u, %u %u %u %u %u%s\n", screen, answer, out[0], out[1], out[2], out[3], out[4],
           memcmp(out, other, sizeof out) ? ", NOT as alone" : "");
}

/* All five with such a screen number and such a length are refused with 25, and tell and alter nothing. */
static void refused(uint8_t *records, size_t len, uint32_t number) {
    static uint8_t was[WHATIF_SCREENS_BYTES + 1];
    uint32_t out[6] = {UNSET, UNSET, UNSET, UNSET, UNSET, UNSET};
    if (len > 0)
        memcpy(was, records, len);
    uint32_t answers[] = {
        number < WHATIF_SCREENS ? whatif_screens_load(records, len, NULL, 0, NULL, 0, NULL, 0, NULL, 0, out)
                                : (uint32_t)WHATIF_REFUSED_SCREEN,
        whatif_screens_start(records, len, number, NULL, 0, NULL, 0, NULL, 0, NULL, 0, NULL, 0, NULL, 0, out),
        whatif_screens_deal(records, len, number, NULL, 0, NULL, 0, NULL, 0, NULL, 0, out, out + 1),
        whatif_screens_cancel(records, len, number),
        whatif_screens_read(records, len, number, out, out + 1, out + 2, out + 3, out + 4),
    };
    int kept = len == 0 || memcmp(was, records, len) == 0;
    for (size_t i = 0; i < sizeof answers / sizeof *answers; i++)
        kept &= answers[i] == WHATIF_REFUSED_SCREEN && out[i] == UNSET;
    printf("%zu bytes, number %u: %s\n", len, number, kept ? "refused 25, kept" : "NOT so");
}

static void wrong_numbers(int behind) {
    static const uint32_t numbers[] = {8, 9, 255, 256, 259, 65539, 0x80000003u, 0xffffffffu};
    for (size_t i = 0; i < sizeof numbers / sizeof *numbers; i++)
        refused(run, WHATIF_SCREENS_BYTES, numbers[i]);
    static uint8_t longer[WHATIF_SCREENS_BYTES + 1];
    memcpy(longer, run, WHATIF_SCREENS_BYTES);
    static const size_t lengths[] = {0, WHATIF_RECORD_BYTES, WHATIF_SCREENS_BYTES - 1, WHATIF_SCREENS_BYTES + 1};
    for (size_t i = 0; i < sizeof lengths / sizeof *lengths; i++)
        refused(copied(longer, lengths[i], behind), lengths[i], 3);
    if (whatif_screens_state(run, WHATIF_SCREENS_BYTES - 1, 3) != WHATIF_NO_STATE ||
        whatif_screens_state(run, WHATIF_SCREENS_BYTES, 8) != WHATIF_NO_STATE ||
        whatif_screens_parts(run, WHATIF_SCREENS_BYTES, 8) || whatif_screens_parts_done(run, 0, 0))
        printf("a screen that is NOT there has a state\n");
}

/* A broken record on screen 4, with the state that it had: a deal gives 1 at its turn and goes by the others else. */
static void broken(void) {
    uint8_t *record = run + 4 * WHATIF_RECORD_BYTES;
    record[1] = alone[4][1] = 2;
    printf("screen 4 is broken\n");
    first = 3, deal(), deal();
    first = 5, deal();
    cancel(4), tell(4), load();
    record[1] = alone[4][1] = 0;
}

static void walk(int behind) {
    uint16_t none[WHATIF_NODE_TABLE_LEN(SAMPLE_NODES)] = {0};
    uint8_t zero[WHATIF_SCREENS_BYTES] = {0};
    memset(alone, 0, sizeof alone);
    run = copied(zero, sizeof zero, behind);
    node_table = copied(none, sizeof none, behind);
    state_table = copied(zero, WHATIF_STATE_TABLE_LEN(SAMPLE_NODES, SAMPLE_STATES), behind);
    rule_bytes = copied(rules, sizeof rules, behind);
    lent = (struct whatif_lent){copied(plan, sizeof plan, behind),
                                sizeof plan,
                                rule_bytes,
                                sizeof rules,
                                node_table,
                                WHATIF_NODE_TABLE_LEN(SAMPLE_NODES),
                                state_table,
                                WHATIF_STATE_TABLE_LEN(SAMPLE_NODES, SAMPLE_STATES)};
    first = 7;
    deal(), start(0, &questions[1]), load(), deal();
    start(1, &questions[3]), start(4, &questions[2]), start(7, &questions[1]), load();
    for (int i = 0; i < 5; i++)
        deal();
    wrong_numbers(behind), broken();
    /* rules that lead outside, and a table that is too short: the same screen is the next */
    for (size_t i = 20; i < sizeof rules; i++)
        rule_bytes[i] ^= 64;
    deal();
    for (size_t i = 20; i < sizeof rules; i++)
        rule_bytes[i] ^= 64;
    lent.state_table_len--, deal(), lent.state_table_len++;
    deal();
    cancel(1), cancel(1), tell(7), start(7, &questions[6]), start(7, &questions[4]), cancel(7), tell(7);
    while (whatif_screens_state(run, WHATIF_SCREENS_BYTES, 4) == WHATIF_RUNNING)
        deal();
    tell(4), deal(), load(), tell(4), tell(7);
}

int main(void) {
    for (int behind = 0; behind < 2; behind++)
        walk(behind);
    return 0;
}
