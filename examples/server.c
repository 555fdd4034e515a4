/*
 * Eight screens served in a loop, with recovery. Each asks three questions, a deal handles one part of whoever is next,
 * and every answer is confirmed before it counts. Four times a bit of a record flips, in four different ways. The
 * server finds the screen, puts a loaded record in its place and asks again; the other seven go on. A server would wait
 * for its panels where this one looks for the next question.
 * Build it with: cc examples/server.c $(PKG_CONFIG_PATH=build pkg-config --cflags --libs whatif), after tools/archive.
 */
#include "whatif.h"

#include <stdio.h>
#include <string.h>

/* Plan A of document 01: nodes 0 and 1 below 2, nodes 3 and 4 below 5, nodes 2 and 5 below the root 6. */
static const uint8_t plan[] = {7, 0, 0, 0, 12, 0, 0, 0, 19, 0, 0, 0, 1, 1, 1, 0, 1, 0, 1, 0, 0, 1, 0, 0, 1, 1};
/* Table A: label 0 takes the greater state of two children, label 1 the lesser; state 1 clears the plan. */
static const uint8_t rules[] = {2,  0, 0, 0, 2, 0, 0, 0, 20, 0, 0, 0, 22, 0, 0, 0,
                                30, 0, 0, 0, 0, 1, 0, 1, 0,  0, 1, 1, 0,  1, 0, 1};

enum { QUESTIONS = 3, MOST_DEALS = 1000 };

/* The question of a screen: two changes. `asked` is 1 from its Start until its answer is confirmed. */
struct screen {
    uint16_t nodes[2];
    uint8_t labels[2];
    int asked, answered;
};

static struct screen screens[WHATIF_SCREENS];
static uint8_t run[WHATIF_SCREENS_BYTES], loaded[WHATIF_RECORD_BYTES];
static uint32_t first;
static uint16_t node_table[WHATIF_NODE_TABLE_LEN(7)];
static uint8_t state_table[WHATIF_STATE_TABLE_LEN(7, 2)];
static const struct whatif_buffers buffers = {
    .plan = plan,
    .plan_len = sizeof plan,
    .rules = rules,
    .rules_len = sizeof rules,
    .node_table = node_table,
    .node_table_len = sizeof node_table / sizeof *node_table,
    .state_table = state_table,
    .state_table_len = sizeof state_table,
};
static struct whatif_lent lent;

/* Flipped after so many deals: a damaged record, one without a state, another count of states, another label. */
static const struct {
    unsigned deals;
    uint32_t screen;
    size_t byte, bit;
} flips[] = {{9, 2, 1, 1}, {20, 5, 0, 3}, {27, 7, 2, 0}, {32, 6, 141, 0}};

static void flip_bits(unsigned deals) {
    for (size_t i = 0; i < sizeof flips / sizeof *flips; i++)
        if (flips[i].deals == deals) {
            run[WHATIF_RECORD_BYTES * flips[i].screen + flips[i].byte] ^= (uint8_t)(1u << flips[i].bit);
            printf("a bit of screen %u's record flips\n", flips[i].screen);
        }
}

/* Asks the screen's question, again or for the first time. */
static int ask(uint32_t i) {
    uint32_t parts;
    uint32_t answer =
        whatif_screens_start_lent(run, sizeof run, i, &lent, screens[i].nodes, screens[i].labels, 2, &parts);
    if (answer != WHATIF_ACCEPTED)
        printf("screen %u: refused %u: %s\n", i, answer, whatif_answer_text(answer));
    return screens[i].asked = answer == WHATIF_ACCEPTED;
}

/* A loaded record in the place of this screen's, and its question again. */
static int replace(uint32_t i, const char *why) {
    printf("screen %u: %s Replaced.\n", i, why);
    return whatif_screens_replace(run, sizeof run, i, loaded, sizeof loaded) == WHATIF_ACCEPTED &&
           (!screens[i].asked || ask(i));
}

/* Every screen that has no question and is to have one gets its next. */
static int ask_next(void) {
    for (uint32_t i = 0; i < WHATIF_SCREENS; i++) {
        struct screen *one = &screens[i];
        if (one->asked || one->answered == QUESTIONS)
            continue;
        unsigned code = 5 * i + 3 * (unsigned)one->answered;
        one->nodes[0] = (uint16_t)(code % 7), one->nodes[1] = (uint16_t)((code + 2) % 7);
        one->labels[0] = (uint8_t)(code / 2 % 2), one->labels[1] = (uint8_t)(code / 3 % 2);
        if (!ask(i))
            return 0;
    }
    return 1;
}

/* A finished question counts only where a fresh run says the same; else it is asked again. */
static int confirm(uint32_t i) {
    struct screen *one = &screens[i];
    struct whatif_confirmed got = whatif_screens_confirm(run, sizeof run, i, &lent, one->nodes, one->labels, 2);
    printf("screen %u: node %u to %u, node %u to %u: %s\n", i, one->nodes[0], one->labels[0], one->nodes[1],
           one->labels[1], whatif_confirm_text(got.reason));
    if (got.reason != WHATIF_CONFIRM_CLEARED && got.reason != WHATIF_CONFIRM_NOT_CLEARED)
        return replace(i, "This answer is not cut.");
    one->asked = 0, one->answered++;
    return 1;
}

/* A deal was refused: an idle mill, or the record of the screen whose turn it was is damaged. */
static int recover(uint32_t answer) {
    uint32_t next = whatif_screens_next(run, sizeof run, first);
    if (answer == WHATIF_REFUSED_SCREEN || next == WHATIF_SCREENS)
        return 0;
    return replace(next, answer == WHATIF_REFUSED_SESSION_STATE
                             ? whatif_screens_why_1(run, sizeof run, first, WHATIF_CALL_ADVANCE)
                             : whatif_answer_text(answer));
}

/* A record that is damaged and not running is passed over by the deals: a server looks for it, too. */
static int look_for_damage(void) {
    uint32_t i = whatif_screens_damaged(run, sizeof run);
    return i == WHATIF_SCREENS || whatif_screens_state(run, sizeof run, i) == WHATIF_RUNNING ||
           replace(i, whatif_screens_why_1(run, sizeof run, i, WHATIF_CALL_READ_CURRENT));
}

int main(void) {
    unsigned deals = 0, refused = 0;
    if (whatif_version() != WHATIF_VERSION_NUMBER)
        return fprintf(stderr, "header %s, archive %u\n", WHATIF_VERSION, whatif_version()), 1;
    if (whatif_screens_load_lent(run, sizeof run, &buffers, &lent, &first) != WHATIF_ACCEPTED)
        return 1;
    memcpy(loaded, run, sizeof loaded);
    for (; deals < MOST_DEALS && ask_next() && whatif_screens_running(run, sizeof run) > 0; deals++) {
        struct whatif_dealt dealt = {0};
        flip_bits(deals);
        uint32_t answer = whatif_screens_deal_told(run, sizeof run, first, &lent, &dealt);
        refused += answer != WHATIF_ACCEPTED;
        if (answer == WHATIF_ACCEPTED)
            first = dealt.next;
        if (answer != WHATIF_ACCEPTED ? !recover(answer) : dealt.finished && !confirm(dealt.screen))
            return 1;
        if (!look_for_damage())
            return 1;
    }
    for (uint32_t i = 0; i < WHATIF_SCREENS; i++)
        if (screens[i].answered != QUESTIONS)
            return printf("screen %u has %d answers\n", i, screens[i].answered), 1;
    printf("%u screens, %d answers each, %u deals, %u of them refused\n", WHATIF_SCREENS, QUESTIONS, deals, refused);
    return 0;
}
