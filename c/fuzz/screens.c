/*
 * The calls of the eight screens: each is held to the session's call on a copy of the record whose it is, and to what
 * is said of the numbers, of who is served and of the other records. One call on whatever an input has as run; and
 * lists of calls from a fresh run on, with lent bytes altered between them.
 */
#include "calls.h"
#include "session.h"
#include "told.h"

#define MOST_STEPS 80
#define MOST_TABLE 65535

/* What is lent, and the run. */
struct screens {
    struct session s;
    struct lent run;
};

/* What a call is to answer, tell and leave. */
static struct {
    uint32_t answer, out[5];
    uint8_t run[WHATIF_SCREENS_BYTES + 1];
    uint16_t nodes[MOST_TABLE];
    uint8_t states[MOST_TABLE];
} wanted;

/* The record of a screen in what is wanted of the run; as an argument with its count. */
#define RECORD(i) wanted.run + WHATIF_RECORD_BYTES * (i), WHATIF_RECORD_BYTES
#define LENDS(s) LENT((s).plan), LENT((s).rules), LENT((s).nodes), LENT((s).states)

/* Nothing is told yet and nothing altered; whether the run has its length and this screen. */
static int begin(const struct screens *all, uint32_t number) {
    wanted.answer = WHATIF_REFUSED_SCREEN;
    for (size_t i = 0; i < 5; i++)
        wanted.out[i] = UNSET;
    if (all->run.count > 0)
        memcpy(wanted.run, all->run.at, all->run.count);
    return all->run.count == WHATIF_SCREENS_BYTES && number < WHATIF_SCREENS;
}

static void as_wanted(struct screens *all, uint32_t answer, const uint32_t *out) {
    sure(answer == wanted.answer, "a screen's call is answered as its session's");
    sure(memcmp(out, wanted.out, sizeof wanted.out) == 0, "it tells what its session's call tells, and the number");
    sure(all->run.count == 0 || memcmp(all->run.at, wanted.run, all->run.count) == 0, "one record alone is altered");
    held(&all->s.plan, 0, "the plan stays");
    held(&all->s.rules, 0, "the rule table stays");
    held(&all->s.nodes, 0, "the node table stays");
    held(&all->s.states, 0, "the state table stays");
    keep(&all->run);
}

/* A Load with nothing lent is refused with 2 where it may be made. */
static int busy(uint32_t i) { return whatif_load(RECORD(i), NULL, 0, NULL, 0, NULL, 0, NULL, 0) == 1; }

static uint32_t load_all(struct screens *all) {
    struct session *s = &all->s;
    uint32_t out[5] = {UNSET, UNSET, UNSET, UNSET, UNSET}, first = 0;
    if (begin(all, 0)) {
        while (first < WHATIF_SCREENS && !busy(first))
            first++;
        memcpy(wanted.nodes, s->nodes.was, 2 * s->nodes.count);
        memcpy(wanted.states, s->states.was, s->states.count);
        wanted.answer = first < WHATIF_SCREENS ? (uint32_t)WHATIF_REFUSED_SESSION_STATE
                                               : whatif_load(RECORD(0), LENT(s->plan), LENT(s->rules), wanted.nodes,
                                                             s->nodes.count, wanted.states, s->states.count);
        for (uint32_t i = 1; wanted.answer == WHATIF_ACCEPTED && i < WHATIF_SCREENS; i++)
            memcpy(wanted.run + WHATIF_RECORD_BYTES * i, RECORD(0));
        wanted.out[0] = wanted.answer == WHATIF_ACCEPTED ? 0 : UNSET;
    }
    uint32_t answer = whatif_screens_load(LENT(all->run), LENDS(*s), &out[0]);
    if (answer == WHATIF_ACCEPTED) {
        sure(memcmp(s->nodes.at, wanted.nodes, 2 * s->nodes.count) == 0, "the node table is as Load writes it");
        sure(memcmp(s->states.at, wanted.states, s->states.count) == 0, "the state table is as Load writes it");
        keep(&s->nodes);
        keep(&s->states);
    }
    as_wanted(all, answer, out);
    return answer;
}

static uint32_t start_on(struct screens *all, uint32_t screen, struct lent *listed, struct lent *labels) {
    uint32_t out[5] = {UNSET, UNSET, UNSET, UNSET, UNSET};
    if (begin(all, screen))
        wanted.answer = whatif_start(RECORD(screen), LENDS(all->s), LENT(*listed), LENT(*labels), &wanted.out[0]);
    uint32_t answer =
        whatif_screens_start(LENT(all->run), screen, LENDS(all->s), LENT(*listed), LENT(*labels), &out[0]);
    held(listed, 0, "the listed nodes stay");
    held(labels, 0, "the listed labels stay");
    as_wanted(all, answer, out);
    return answer;
}

static uint32_t cancel_on(struct screens *all, uint32_t screen) {
    uint32_t out[5] = {UNSET, UNSET, UNSET, UNSET, UNSET};
    if (begin(all, screen))
        wanted.answer = whatif_cancel(RECORD(screen));
    uint32_t answer = whatif_screens_cancel(LENT(all->run), screen);
    as_wanted(all, answer, out);
    return answer;
}

static uint32_t read_on(struct screens *all, uint32_t screen) {
    uint32_t out[5] = {UNSET, UNSET, UNSET, UNSET, UNSET}, *to = wanted.out;
    if (begin(all, screen))
        wanted.answer = whatif_read(RECORD(screen), to, to + 1, to + 2, to + 3, to + 4);
    uint32_t answer = whatif_screens_read(LENT(all->run), screen, out, out + 1, out + 2, out + 3, out + 4);
    struct whatif_told one = nothing_told(), now = nothing_told();
    struct whatif_told plain = {.state = out[0], .yes = out[1], .parts = out[2], .links = out[3], .passed = out[4]};
    as_told(answer, plain, whatif_screens_read_told(LENT(all->run), screen, &one), &one);
    int there = all->run.count == WHATIF_SCREENS_BYTES && screen < WHATIF_SCREENS;
    int current = there && ((const uint8_t *)all->run.at)[WHATIF_RECORD_BYTES * screen] == ANSWERED;
    as_told(!there ? 25 : current ? answer : 1, plain, whatif_screens_read_current(LENT(all->run), screen, &now), &now);
    as_wanted(all, answer, out);
    return answer;
}

/* The next running screen from this one on; WHATIF_SCREENS where none runs. */
static uint32_t next_from(uint32_t first) {
    for (uint32_t i = 0; i < WHATIF_SCREENS; i++)
        if (wanted.run[WHATIF_RECORD_BYTES * ((first + i) % WHATIF_SCREENS)] == WHATIF_RUNNING)
            return (first + i) % WHATIF_SCREENS;
    return WHATIF_SCREENS;
}

static uint32_t deal_from(struct screens *all, uint32_t *first) {
    uint32_t out[5] = {UNSET, UNSET, UNSET, UNSET, UNSET}, served;
    if (begin(all, *first)) {
        served = next_from(*first);
        wanted.answer = served == WHATIF_SCREENS
                            ? (uint32_t)WHATIF_REFUSED_SESSION_STATE
                            : whatif_advance(RECORD(served), LENDS(all->s), &wanted.out[1]);
        if (wanted.answer == WHATIF_ACCEPTED)
            wanted.out[0] = served == 7 ? 0 : served + 1;
    }
    uint32_t answer = whatif_screens_deal(LENT(all->run), *first, LENDS(all->s), &out[0], &out[1]);
    as_wanted(all, answer, out);
    if (answer == WHATIF_ACCEPTED)
        *first = out[0];
    return answer;
}

/* One call: which, a screen or number to try first, and the run: its length (exact, a byte short, a byte long), a
 * record and on which screens it stands; elsewhere are fresh ones. */
uint32_t try_screen(struct input *in) {
    static const size_t lengths[4] = {WHATIF_SCREENS_BYTES, WHATIF_SCREENS_BYTES - 1, WHATIF_SCREENS_BYTES + 1,
                                      WHATIF_SCREENS_BYTES};
    uint32_t which = take(in, 1) % 5, number = take(in, 4), length = take(in, 1) % 4, screens = take(in, 1);
    struct lent record = lend(in, 1);
    struct screens all = {{record, record, record, record, record}, lend_filled(lengths[length], 1, 0)};
    for (size_t i = 0; i < WHATIF_SCREENS; i++) {
        size_t at = i * WHATIF_RECORD_BYTES, count = all.run.count - at;
        count = count < WHATIF_RECORD_BYTES ? count : WHATIF_RECORD_BYTES;
        if (screens >> i & 1)
            memcpy((uint8_t *)all.run.at + at, record.at, record.count < count ? record.count : count);
    }
    keep(&all.run);
    struct lent listed = lend(in, 2), labels = lend(in, 1);
    all.s.plan = lend(in, 1), all.s.rules = lend(in, 1);
    if (which == ON_LOAD) {
        all.s.nodes = lend_filled(take(in, 2), 2, 0x77), all.s.states = lend_filled(take(in, 2), 1, 0x77);
        return load_all(&all);
    }
    all.s.nodes = lend(in, 2), all.s.states = lend(in, 1);
    switch (which) {
    case ON_START:
        return start_on(&all, number, &listed, &labels);
    case ON_CANCEL:
        return cancel_on(&all, number);
    case ON_READ:
        return read_on(&all, number);
    default:
        return deal_from(&all, &number);
    }
}

/* Accepted deals since each running screen was served, or started. */
struct waiting {
    uint32_t deals[WHATIF_SCREENS];
};

static void served_in_time(const struct screens *all, struct waiting *wait, uint32_t next) {
    for (uint32_t i = 0; i < WHATIF_SCREENS; i++) {
        int runs = whatif_screens_state(LENT(all->run), i) == WHATIF_RUNNING;
        wait->deals[i] = runs && i != whatif_screens_served(next) ? wait->deals[i] + 1 : 0;
        sure(wait->deals[i] < WHATIF_SCREENS, "a running screen is served within eight accepted deals");
    }
}

static uint32_t screen_step(struct screens *all, uint32_t *first, struct waiting *wait, struct input *in) {
    uint32_t answer, screen;
    switch (take(in, 1) % (ON_DEAL + 2)) {
    case ON_LOAD:
        answer = load_all(all);
        if (answer == WHATIF_ACCEPTED)
            *first = 0;
        return answer;
    case ON_START: {
        screen = take(in, 4);
        struct lent listed = lend(in, 2), labels = lend(in, 1);
        answer = start_on(all, screen, &listed, &labels);
        give_back_last(2);
        if (answer == WHATIF_ACCEPTED)
            wait->deals[screen] = 0;
        return answer;
    }
    case ON_CANCEL:
        return cancel_on(all, take(in, 4));
    case ON_READ:
        return read_on(all, take(in, 4));
    case ON_ALTER:
        alter(&all->s, in);
        return WHATIF_ACCEPTED;
    case ON_NUMBER:
        screen = take(in, 4);
        memset(wait, 0, sizeof *wait);
        answer = deal_from(all, &screen);
        if (answer == WHATIF_ACCEPTED)
            *first = screen;
        return answer;
    default:
        answer = deal_from(all, first);
        if (answer == WHATIF_ACCEPTED)
            served_in_time(all, wait, *first);
        return answer;
    }
}

uint32_t try_screens(struct input *in) {
    struct session s = fresh(in);
    struct screens all = {s, lend_filled(WHATIF_SCREENS_BYTES, 1, 0)};
    struct waiting wait = {{0}};
    uint32_t answer = WHATIF_ACCEPTED, first = 0;
    for (size_t i = 0; i < MOST_STEPS && in->left > 0; i++)
        answer = screen_step(&all, &first, &wait, in);
    return answer;
}
