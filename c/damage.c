/*
 * Damaged records. Each bit of a record flipped, in every state of a session: whatif_record_damaged and whatif_why_1
 * say what the library's own refusals say. Then each bit of each of eight screens' records, by each of the header's
 * three ways out. The other seven end byte for byte as without the damage. What it prints is compared with
 * damage.expected.
 */
#include "sample.h"
#include "sure.h"

#include <string.h>

#define RECORD WHATIF_RECORD_BYTES
#define BITS (8 * RECORD)
#define ALLOWS "This record allows this call: the refusal was another record's or another call's."
#define DAMAGED "The record is damaged: put a loaded one in its place, or zero it and call Load."

static uint16_t node_table[WHATIF_NODE_TABLE_LEN(SAMPLE_NODES)];
static uint8_t state_table[WHATIF_STATE_TABLE_LEN(SAMPLE_NODES, SAMPLE_STATES)];
static const struct whatif_buffers buffers = {plan,         sizeof plan,       rules,
                                              sizeof rules, node_table,        sizeof node_table / sizeof *node_table,
                                              state_table,  sizeof state_table};
static struct whatif_lent lent;

static void flip(uint8_t *bytes, size_t bit) { bytes[bit / 8] ^= (uint8_t)(1u << bit % 8); }

static void start(uint8_t *record, const struct question *q) {
    uint32_t parts;
    sure(whatif_start_lent(record, RECORD, &lent, q->nodes, q->labels, q->m, &parts) == WHATIF_ACCEPTED, "a Start");
}

/* So many advances, or to the end. */
static void advance(uint8_t *record, size_t times) {
    uint32_t finished = 0;
    for (size_t i = 0; i < times && !finished; i++)
        sure(whatif_advance_lent(record, RECORD, &lent, &finished) == WHATIF_ACCEPTED, "an advance");
}

/* A record in each state, with and without an earlier answer. */
static const char *const names[] = {"empty",    "loaded",        "running",  "running on",
                                    "answered", "running again", "cancelled"};
#define STATES_OF (sizeof names / sizeof *names)
static uint8_t records[STATES_OF][RECORD];

static void make_records(void) {
    uint8_t one[RECORD] = {0};
    sure(whatif_load_lent(one, RECORD, &buffers, &lent) == WHATIF_ACCEPTED, "a Load");
    memcpy(records[1], one, RECORD);
    start(one, &questions[3]), memcpy(records[2], one, RECORD);
    advance(one, 2), memcpy(records[3], one, RECORD);
    advance(one, WHATIF_MAX_PARTS), memcpy(records[4], one, RECORD);
    start(one, &questions[1]), memcpy(records[5], one, RECORD);
    sure(whatif_cancel(one, RECORD) == WHATIF_ACCEPTED, "a Cancel"), memcpy(records[6], one, RECORD);
}

static const char *const calls[] = {"Load", "Start", "advance", "Cancel", "Read", "read_current"};
#define CALLS 6

/* Whether this call refuses the record with 1, tried on a copy. */
static int refused(const uint8_t *record, enum whatif_call call) {
    uint8_t copy[RECORD];
    uint32_t out;
    struct whatif_told told;
    memcpy(copy, record, RECORD);
    switch (call) {
    case WHATIF_CALL_LOAD:
        return whatif_load(copy, RECORD, NULL, 0, NULL, 0, NULL, 0, NULL, 0) == WHATIF_REFUSED_SESSION_STATE;
    case WHATIF_CALL_START:
        return whatif_start_lent(copy, RECORD, &lent, NULL, NULL, 0, &out) == WHATIF_REFUSED_SESSION_STATE;
    case WHATIF_CALL_ADVANCE:
        return whatif_advance_lent(copy, RECORD, &lent, &out) == WHATIF_REFUSED_SESSION_STATE;
    case WHATIF_CALL_CANCEL:
        return whatif_cancel(copy, RECORD) == WHATIF_REFUSED_SESSION_STATE;
    case WHATIF_CALL_READ:
        return whatif_read_told(copy, RECORD, &told) == WHATIF_REFUSED_SESSION_STATE;
    default:
        return whatif_read_current(copy, RECORD, &told) == WHATIF_REFUSED_SESSION_STATE;
    }
}

/* Damaged exactly where all five calls refuse it; a cause is named exactly where a call does. */
static int says_why(const uint8_t *record) {
    int all = 1, damaged = (int)whatif_record_damaged(record, RECORD);
    for (int call = 0; call < CALLS; call++) {
        int one = refused(record, (enum whatif_call)call);
        const char *why = whatif_why_1(record, RECORD, (enum whatif_call)call);
        all &= call == WHATIF_CALL_READ_CURRENT || one;
        sure(one != (strcmp(why, ALLOWS) == 0), "a cause is named exactly where the call is refused");
        sure(damaged == (strcmp(why, DAMAGED) == 0), "the cause is damage exactly where the record is damaged");
    }
    sure(damaged == all, "a record is damaged exactly where every call refuses it");
    return damaged;
}

static void single_records(void) {
    for (size_t i = 0; i < STATES_OF; i++) {
        size_t seen = 0;
        sure_case = BITS;
        sure(!says_why(records[i]), "a record as written is not damaged");
        for (size_t bit = 0; bit < BITS; bit++) {
            sure_case = bit;
            flip(records[i], bit), seen += (size_t)says_why(records[i]), flip(records[i], bit);
        }
        printf("%s: %zu of %u flipped bits break the record\n", names[i], seen, BITS);
    }
}

/* The sentence of each call in each state, and for what is no record. */
static void sentences(void) {
    static uint8_t longer[RECORD + 1];
    for (int call = 0; call < CALLS; call++)
        for (size_t i = 0; i < STATES_OF; i++)
            printf("%s, %s: %s\n", calls[call], names[i], whatif_why_1(records[i], RECORD, (enum whatif_call)call));
    printf("shorter: %s\n", whatif_why_1(records[0], RECORD - 1, WHATIF_CALL_READ));
    printf("longer: %s\n", whatif_why_1(longer, sizeof longer, WHATIF_CALL_READ));
    printf("no call: %s\n", whatif_why_1(records[0], RECORD, (enum whatif_call)6));
    sure(whatif_record_damaged(longer, sizeof longer) && whatif_record_damaged(longer, 0), "another length is damage");
}

/* Eight screens in different states, each with its question; what the run is to end as; a loaded record kept aside. */
static uint8_t run[WHATIF_SCREENS_BYTES], before[WHATIF_SCREENS_BYTES], after[WHATIF_SCREENS_BYTES], kept[RECORD];
static uint32_t first;
static const size_t asked[WHATIF_SCREENS] = {3, 1, 2, 3, 4, 0, 5, 1};

static uint8_t *record_of(uint8_t *of, uint32_t screen) { return of + RECORD * screen; }

/* 0 to 3 and 6 are running, 1 and 3 with an earlier answer and some advances; 4 is answered, 5 loaded, 7 cancelled. */
static void make_run(void) {
    sure(whatif_screens_load_lent(run, sizeof run, &buffers, &lent, &first) == WHATIF_ACCEPTED, "a Load of eight");
    memcpy(kept, run, RECORD);
    for (uint32_t i = 0; i < WHATIF_SCREENS; i++) {
        if (i == 5)
            continue;
        start(record_of(run, i), &questions[asked[i]]);
        if (i == 1 || i == 3 || i == 4 || i == 7)
            advance(record_of(run, i), WHATIF_MAX_PARTS);
        if (i == 1 || i == 3 || i == 7)
            start(record_of(run, i), &questions[asked[i]]);
        if (i == 3)
            advance(record_of(run, i), 2);
        if (i == 7)
            sure(whatif_cancel(record_of(run, i), RECORD) == WHATIF_ACCEPTED, "a Cancel");
    }
    memcpy(before, run, sizeof run);
}

enum way { REPLACED, ZEROED, HANDED_ON, WAYS };
static const char *const ways[] = {"replaced by a loaded record", "zeroed", "left, and the number handed on"};

/* What is done with the screen whose turn was refused, as the header says; whether there is more to deal. */
static int recover(enum way way, uint32_t screen) {
    static const uint8_t fresh[RECORD];
    if (way == REPLACED)
        return sure(whatif_screens_replace(run, sizeof run, screen, kept, RECORD) == WHATIF_ACCEPTED,
                    "a loaded record");
    if (way == ZEROED)
        return sure(whatif_screens_replace(run, sizeof run, screen, fresh, RECORD) == WHATIF_ACCEPTED,
                    "a fresh record");
    first = (screen + 1) % WHATIF_SCREENS;
    return whatif_screens_next(run, sizeof run, first) != screen;
}

/* How many deals were refused with 17 or 18: the record is whole, but not as it was. */
static size_t by_length_or_value;

/* Deals until nobody runs, or only the screen that is handed on; the refusals on the way. */
static size_t serve(enum way way, uint32_t damaged) {
    size_t refusals = 0;
    first = 3;
    for (size_t deals = 0; sure(deals < 2000, "the deals end"); deals++) {
        struct whatif_dealt dealt;
        uint32_t next = whatif_screens_next(run, sizeof run, first);
        uint32_t answer = whatif_screens_deal_told(run, sizeof run, first, &lent, &dealt);
        if (next == WHATIF_SCREENS) {
            sure(answer == WHATIF_REFUSED_SESSION_STATE && whatif_screens_running(run, sizeof run) == 0,
                 "an idle mill");
            break;
        }
        if (answer == WHATIF_ACCEPTED) {
            sure(dealt.screen == next, "whatif_screens_next is the screen served");
            first = dealt.next;
            continue;
        }
        refusals++;
        by_length_or_value += answer == WHATIF_REFUSED_LENT_LENGTH || answer == WHATIF_REFUSED_LENT_VALUE;
        sure(next == damaged, "the refused turn is the damaged screen's");
        sure((answer == WHATIF_REFUSED_SESSION_STATE) == (whatif_record_damaged(record_of(run, next), RECORD) == 1),
             "a deal's 1 with a screen running is a damaged record");
        if (!recover(way, next))
            break;
    }
    return refusals;
}

/* Where a record keeps a Load from being made, whatif_screens_damaged has its screen. */
static size_t load_again(uint32_t damaged) {
    size_t replaced = 0;
    uint32_t next;
    struct whatif_lent again;
    if (whatif_screens_state(run, sizeof run, damaged) == WHATIF_RUNNING &&
        !whatif_record_damaged(record_of(run, damaged), RECORD))
        sure(whatif_screens_cancel(run, sizeof run, damaged) == WHATIF_ACCEPTED, "a Cancel of the screen handed on");
    uint32_t screen = whatif_screens_damaged(run, sizeof run);
    uint32_t answer = whatif_screens_load_lent(run, sizeof run, &buffers, &again, &next);
    sure(answer == (screen < WHATIF_SCREENS ? WHATIF_REFUSED_SESSION_STATE : WHATIF_ACCEPTED),
         "a Load is refused exactly while a record is damaged");
    if (screen < WHATIF_SCREENS) {
        sure(screen == damaged, "whatif_screens_damaged names the screen");
        sure(whatif_screens_replace(run, sizeof run, screen, kept, RECORD) == WHATIF_ACCEPTED, "a loaded record");
        sure(whatif_screens_load_lent(run, sizeof run, &buffers, &again, &next) == WHATIF_ACCEPTED, "then a Load");
        replaced++;
    }
    return replaced;
}

/* The other seven end as without the damage. */
static void others_as_before(uint32_t damaged) {
    for (uint32_t i = 0; i < WHATIF_SCREENS; i++)
        sure(i == damaged || !memcmp(record_of(run, i), record_of(after, i), RECORD), "the other seven go on");
}

/* The damaged screen: started again where it was replaced; else its answer, which is cut only where it is right. */
static size_t damaged_screen(enum way way, uint32_t screen, size_t refusals) {
    const struct question *q = &questions[asked[screen]];
    uint8_t *record = record_of(run, screen);
    uint32_t state, yes;
    struct whatif_told told;
    sure(!whatif_fresh_run(plan, sizeof plan, rules, sizeof rules, q->nodes, q->m, q->labels, q->m, &state, &yes),
         "a run");
    if (way == REPLACED && refusals > 0)
        start(record, q), advance(record, WHATIF_MAX_PARTS);
    struct whatif_confirmed got = whatif_screens_confirm(run, sizeof run, screen, &lent, q->nodes, q->labels, q->m);
    sure(!got.cut || yes, "no false cut");
    sure(!(way == REPLACED && refusals > 0) ||
             got.reason == (yes ? WHATIF_CONFIRM_CLEARED : WHATIF_CONFIRM_NOT_CLEARED),
         "a replaced screen asks again, and its answer is confirmed");
    int wrong =
        whatif_read_current(record, RECORD, &told) == WHATIF_ACCEPTED && (told.state != state || told.yes != yes);
    sure(!wrong || got.reason == WHATIF_CONFIRM_DIFFERS || got.reason == WHATIF_CONFIRM_OTHER_LIST ||
             got.reason == WHATIF_CONFIRM_OTHER_COUNTS,
         "a wrong answer is not confirmed");
    return (size_t)wrong;
}

static void eight_screens(void) {
    serve(REPLACED, WHATIF_SCREENS), memcpy(after, run, sizeof run);
    for (int way = 0; way < WAYS; way++) {
        size_t stopped = 0, held_up = 0, wrong = 0;
        by_length_or_value = 0;
        for (uint32_t screen = 0; screen < WHATIF_SCREENS; screen++)
            for (size_t bit = 0; bit < BITS; bit++) {
                memcpy(run, before, sizeof run);
                flip(record_of(run, screen), bit);
                sure_case = screen * BITS + bit;
                size_t refusals = serve((enum way)way, screen);
                others_as_before(screen);
                wrong += damaged_screen((enum way)way, screen, refusals);
                stopped += refusals > 0;
                held_up += load_again(screen);
            }
        printf("%s: of %u flipped bits %zu stop the deals, %zu a Load; %zu answers are wrong, none is cut\n", ways[way],
               WHATIF_SCREENS * BITS, stopped, held_up, wrong);
        if (way == REPLACED)
            printf("of these deals %zu got 17 or 18\n", by_length_or_value);
    }
}

/* What each call of the screens says to a run at rest, a run with a damaged record, and what is no run. */
static void screen_sentences(void) {
    static const char *const what[] = {"deal", "Load", "Start", "Cancel", "Read", "read_current"};
    static const enum whatif_call which[] = {WHATIF_CALL_ADVANCE, WHATIF_CALL_LOAD, WHATIF_CALL_START,
                                             WHATIF_CALL_CANCEL,  WHATIF_CALL_READ, WHATIF_CALL_READ_CURRENT};
    for (int damage = 0; damage < 3; damage++) {
        memcpy(run, damage == 0 ? after : before, sizeof run);
        if (damage == 2)
            record_of(run, 6)[1] = 2;
        for (size_t i = 0; i < sizeof which / sizeof *which; i++)
            printf("%s, %s: %s\n",
                   damage == 0   ? "idle"
                   : damage == 1 ? "running"
                                 : "damaged",
                   what[i], whatif_screens_why_1(run, sizeof run, i == 0 ? 4 : 6, which[i]));
    }
    sure(whatif_screens_damaged(run, sizeof run) == 6 && whatif_screens_running(run, sizeof run) == 5 &&
             whatif_screens_next(run, sizeof run, 4) == 6 && whatif_screens_next(run, sizeof run, 7) == 0,
         "screen 6 is damaged and next");
    sure(whatif_screens_next(run, sizeof run, 8) == WHATIF_SCREENS &&
             whatif_screens_next(run, sizeof run - 1, 0) == WHATIF_SCREENS &&
             whatif_screens_running(run, sizeof run - 1) == 0 &&
             whatif_screens_damaged(run, sizeof run - 1) == WHATIF_SCREENS,
         "what is no run has no screens");
    printf("screen 8: %s\n", whatif_screens_why_1(run, sizeof run, 8, WHATIF_CALL_READ));
    printf("Load, screen 8: %s\n", whatif_screens_why_1(run, sizeof run, 8, WHATIF_CALL_LOAD));
    printf("shorter: %s\n", whatif_screens_why_1(run, sizeof run - 1, 0, WHATIF_CALL_LOAD));
}

/* A replacement is a whole record at rest, put on a screen that is there. */
static void replacements(void) {
    static uint8_t was[sizeof run];
    memcpy(was, run, sizeof run);
    sure(whatif_screens_replace(run, sizeof run, 8, kept, RECORD) == WHATIF_REFUSED_SCREEN &&
             whatif_screens_replace(run, sizeof run - 1, 0, kept, RECORD) == WHATIF_REFUSED_SCREEN &&
             whatif_screens_replace(run, sizeof run, 6, kept, RECORD - 1) == WHATIF_REFUSED_SESSION_STATE &&
             whatif_screens_replace(run, sizeof run, 6, record_of(run, 6), RECORD) == WHATIF_REFUSED_SESSION_STATE &&
             whatif_screens_replace(run, sizeof run, 6, record_of(run, 0), RECORD) == WHATIF_REFUSED_SESSION_STATE &&
             !memcmp(was, run, sizeof run),
         "a refused replacement writes nothing");
    sure(whatif_screens_replace(run, sizeof run, 6, record_of(run, 5), RECORD) == WHATIF_ACCEPTED &&
             !memcmp(record_of(run, 6), record_of(run, 5), RECORD),
         "another screen's loaded record");
    memcpy(record_of(run, 6), record_of(was, 6), RECORD);
    sure(!memcmp(was, run, sizeof run), "the other seven stay");
}

int main(void) {
    make_records(), single_records(), sentences();
    make_run(), eight_screens(), screen_sentences(), replacements();
    return sure_failed != 0;
}
