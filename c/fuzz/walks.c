/* Lists of session calls from a fresh record on, on one plan. */
#include "calls.h"
#include "session.h"
#include "whatif.h"

#include <string.h>

#define MOST_STEPS 60

/* A session's phase, whether there is a finished answer, and which; the list that was started last. */
struct walk {
    enum phase phase;
    int answered;
    struct answer last;
    size_t count;
    uint16_t nodes[WHATIF_MAX_CHANGES];
    uint8_t labels[WHATIF_MAX_CHANGES];
};

struct session fresh(struct input *in) {
    struct lent plan = lend(in, 1), rules = lend(in, 1);
    size_t n = named(&plan, 0), s = named(&rules, 0), most = plan.count;
    n = n < most ? n : most;
    s = s < WHATIF_MAX_STATES ? s : WHATIF_MAX_STATES;
    size_t numbers = WHATIF_NODE_TABLE_LEN(n), bytes = WHATIF_STATE_TABLE_LEN(n, s);
    struct lent nodes = lend_filled(numbers < 65535 ? numbers : 65535, 2, 0x77);
    struct lent states = lend_filled(bytes < 65535 ? bytes : 65535, 1, 0x77);
    struct session one = {lend_filled(WHATIF_RECORD_BYTES, 1, 0), plan, rules, nodes, states};
    return one;
}

/* Of an accepted list, the nodes whose last entry is not the label that they have in the plan. */
static size_t left_of(const struct session *s, const struct lent *listed, const struct lent *labels) {
    const uint16_t *nodes = listed->at;
    const uint8_t *plan = s->plan.at, *to = labels->at;
    size_t count = 0;
    for (size_t i = 0; i < listed->count; i++) {
        size_t later = i + 1;
        while (later < listed->count && nodes[later] != nodes[i])
            later++;
        count += later == listed->count && to[i] != plan[12 + nodes[i]];
    }
    return count;
}

/* A question on tables as built: as many advances as parts, and the answer of a fresh run. */
static void finish(struct session *s, size_t left, uint32_t parts, uint32_t state, uint32_t yes) {
    struct answer read;
    sure(parts <= (left == 0 ? 1 : 4 * left - 2), "m changes that are left have at most 4m - 2 parts");
    for (uint32_t i = 1, finished = 0; i <= parts; i++) {
        sure(advance(s, &finished) == WHATIF_ACCEPTED, "an advance on tables as built is accepted");
        sure(finished == (i == parts), "it is finished at the last part");
    }
    sure(tell(s, &read) == WHATIF_ACCEPTED, "a finished question may be read");
    sure(read.state == state && read.yes == yes, "it is answered as by a fresh run");
    /* 15 binary digits of the greatest depth */
    sure(read.parts == parts && read.links <= 3 * 15 * parts, "a part has at most 3 links for each binary digit");
    sure(read.links <= read.passed && read.passed <= WHATIF_MAX_DEPTH * parts, "a part passes over as many nodes as lie above");
}

uint32_t try_question(struct input *in) {
    struct session s = fresh(in);
    struct lent listed = lend(in, 2), labels = lend(in, 1);
    uint32_t parts, state = UNSET, yes = UNSET;
    uint32_t loaded = load(&s);
    uint32_t run = whatif_fresh_run(LENT(s.plan), LENT(s.rules), LENT(listed), LENT(labels), &state, &yes);
    if (loaded != WHATIF_ACCEPTED) {
        sure(loaded == run || loaded == WHATIF_REFUSED_BUFFER_SHORT, "Load and a fresh run refuse a plan alike");
        return loaded;
    }
    uint32_t answer = start(&s, &listed, &labels, &parts);
    sure(answer == run, "Start and a fresh run refuse a list alike");
    if (answer == WHATIF_ACCEPTED) {
        finish(&s, left_of(&s, &listed, &labels), parts, state, yes);
        sure(confirmed(&s.record, &s.plan, &s.rules, listed.at, labels.at, listed.count) == 0, "it is confirmed");
    }
    return answer;
}

void alter(struct session *s, struct input *in) {
    struct lent *lends[] = {&s->plan, &s->rules, &s->nodes, &s->states};
    struct lent *one = lends[take(in, 1) % 4];
    size_t bytes = one->count * one->width, at = take(in, 2);
    uint8_t to = (uint8_t)take(in, 1);
    if (bytes > 0)
        ((uint8_t *)one->at)[at % bytes] = to;
    keep(one);
}

static uint32_t start_from(struct session *s, struct walk *walk, struct input *in) {
    uint32_t parts;
    struct lent listed = lend(in, 2), labels = lend(in, 1);
    uint32_t answer = start(s, &listed, &labels, &parts);
    if (answer == WHATIF_ACCEPTED) {
        walk->count = listed.count;
        memcpy(walk->nodes, listed.at, listed.count * sizeof *walk->nodes);
        memcpy(walk->labels, labels.at, labels.count);
    }
    give_back_last(2);
    return answer;
}

/* One call: its answer, and the phase after it. It is refused with 1 exactly where the phase forbids it, Read where there is no
 * finished answer. */
static uint32_t step(struct session *s, struct walk *walk, struct input *in) {
    struct answer read;
    uint32_t answer, finished = 0;
    enum phase was = walk->phase, next;
    int allowed;
    switch (take(in, 1) % (DO_ADVANCE + 2)) {
    case DO_LOAD:
        answer = load(s), next = LOADED, allowed = was != RUNNING;
        walk->answered &= answer != WHATIF_ACCEPTED;
        break;
    case DO_START:
        answer = start_from(s, walk, in), next = RUNNING, allowed = was == LOADED || was == ANSWERED;
        break;
    case DO_CANCEL:
        answer = cancel(s), next = LOADED, allowed = was == RUNNING;
        break;
    case DO_READ:
        answer = tell(s, &read), next = was, allowed = walk->answered;
        sure(!allowed || memcmp(&read, &walk->last, sizeof read) == 0, "Read tells the last finished answer");
        break;
    case DO_ALTER:
        alter(s, in);
        return WHATIF_ACCEPTED;
    default:
        answer = advance(s, &finished), next = finished == 1 ? ANSWERED : RUNNING, allowed = was == RUNNING;
    }
    sure((answer == WHATIF_REFUSED_SESSION_STATE) == !allowed, "1 exactly where the session's state forbids the call");
    if (answer == WHATIF_ACCEPTED)
        walk->phase = next;
    if (finished == 1) {
        sure(tell(s, &walk->last) == WHATIF_ACCEPTED, "a finished question may be read");
        walk->answered = 1;
    }
    return answer;
}

uint32_t try_panel(struct input *in) {
    struct session s = fresh(in);
    struct walk walk = {.phase = EMPTY};
    uint32_t answer = WHATIF_ACCEPTED;
    for (size_t i = 0; i < MOST_STEPS && in->left > 0; i++)
        answer = step(&s, &walk, in), confirmed(&s.record, &s.plan, &s.rules, walk.nodes, walk.labels, walk.count);
    return answer;
}
