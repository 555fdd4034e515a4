/* The session's calls (session.h), and each of them on whatever an input lends. */
#include "session.h"

#include "calls.h"
#include "plain.h"
#include "told.h"

/* What Read answers now, with its five values. */
struct last {
    uint32_t answer, out[5];
};

static struct last last_of(const struct session *s) {
    struct last last = {0, {UNSET, UNSET, UNSET, UNSET, UNSET}};
    last.answer =
        whatif_read(LENT(s->record), &last.out[0], &last.out[1], &last.out[2], &last.out[3], &last.out[4]);
    return last;
}

/* An accepted call kept the last finished answer, or that there is none. */
static void kept(const struct session *s, const struct last *before) {
    struct last now = last_of(s);
    sure(memcmp(&now, before, sizeof now) == 0, "the last finished answer is kept");
}

/*
 * The record allows exactly the calls of its phase, Read aside, and so does not break its layout. Load is asked with nothing lent,
 * which is refused with 2 where it may be made; Cancel is asked of a copy.
 */
static void allows(const struct session *s, enum phase phase) {
    uint8_t copy[WHATIF_RECORD_BYTES];
    uint32_t loaded = whatif_load(LENT(s->record), NULL, 0, NULL, 0, NULL, 0, NULL, 0);
    sure(loaded == (phase == RUNNING ? 1 : 2), "the record allows Load unless running");
    sure(phase != ANSWERED || last_of(s).answer == 0, "the record allows Read once answered");
    memcpy(copy, s->record.at, sizeof copy);
    uint32_t cancelled = whatif_cancel(copy, sizeof copy);
    sure(cancelled == (phase == RUNNING ? 0 : 1), "the record allows Cancel while running");
}

static void done(struct session *s, uint32_t answer, enum phase phase) {
    held(&s->plan, 0, "the plan stays");
    held(&s->rules, 0, "the rule table stays");
    held(&s->nodes, 0, "the node table stays");
    held(&s->states, 0, "the state table stays");
    if (answer != WHATIF_ACCEPTED) {
        held(&s->record, 0, "a refused call leaves the record");
        return;
    }
    sure(s->record.count == WHATIF_RECORD_BYTES, "only a whole record is accepted");
    allows(s, phase);
    keep(&s->record);
}

uint32_t load(struct session *s) {
    uint32_t yes = UNSET;
    uint32_t answer = whatif_load(LENT(s->record), LENT(s->plan), LENT(s->rules), LENT(s->nodes), LENT(s->states));
    if (answer == WHATIF_ACCEPTED) {
        size_t n = named(&s->plan, 0);
        held(&s->nodes, WHATIF_NODE_TABLE_LEN(n), "the node table's excess stays");
        held(&s->states, WHATIF_STATE_TABLE_LEN(n, named(&s->rules, 0)), "the state table's excess stays");
        keep(&s->nodes);
        keep(&s->states);
        uint32_t checked = whatif_check(LENT(s->plan), LENT(s->rules), LENT(s->nodes), LENT(s->states), &yes);
        sure(checked == WHATIF_ACCEPTED && yes == 1, "a full check after Load says yes");
        sure(plainly_built(&s->plan, &s->rules, &s->nodes, &s->states), "Load writes what the definitions say");
        sure(last_of(s).answer == WHATIF_REFUSED_SESSION_STATE, "after Load there is no answer to read");
    }
    done(s, answer, LOADED);
    return answer;
}

/* The record's N, S and K; plan and rules name them, and the tables are theirs. No call of the library is asked. */
static int sound(const struct session *s) {
    const uint8_t *r = s->record.was;
    size_t n = r[4] + 256u * r[5];
    int named_so = named(&s->plan, 0) == n && named(&s->rules, 0) == r[2] && named(&s->rules, 4) == r[3];
    return named_so && plainly_built(&s->plan, &s->rules, &s->nodes, &s->states);
}

uint32_t start(struct session *s, struct lent *listed, struct lent *labels, uint32_t *parts) {
    *parts = UNSET;
    struct last before = last_of(s);
    uint32_t answer = whatif_start(LENT(s->record), LENT(s->plan), LENT(s->rules), LENT(s->nodes), LENT(s->states),
                                   LENT(*listed), LENT(*labels), parts);
    held(listed, 0, "the listed nodes stay");
    held(labels, 0, "the listed labels stay");
    told(answer, parts, 1);
    sure(answer != WHATIF_ACCEPTED || (*parts >= 1 && *parts <= WHATIF_MAX_PARTS), "there are 1 to 254 parts");
    sure(answer != WHATIF_ACCEPTED || sound(s), "an accepted Start was lent what the build writes");
    sure(answer != WHATIF_REFUSED_LENT_VALUE || !sound(s), "a Start is refused with 18 on nothing that the build writes");
    if (answer == WHATIF_ACCEPTED) {
        kept(s, &before);
        reached(*parts);
    }
    done(s, answer, RUNNING);
    return answer;
}

uint32_t advance(struct session *s, uint32_t *finished) {
    *finished = UNSET;
    struct last before = last_of(s);
    uint32_t answer =
        whatif_advance(LENT(s->record), LENT(s->plan), LENT(s->rules), LENT(s->nodes), LENT(s->states), finished);
    told(answer, finished, 1);
    sure(answer != WHATIF_ACCEPTED || *finished <= 1, "an advance tells more or finished");
    if (answer == WHATIF_ACCEPTED && *finished == 0)
        kept(s, &before);
    done(s, answer, *finished == 1 ? ANSWERED : RUNNING);
    return answer;
}

uint32_t cancel(struct session *s) {
    struct last before = last_of(s);
    uint32_t answer = whatif_cancel(LENT(s->record));
    if (answer == WHATIF_ACCEPTED)
        kept(s, &before);
    done(s, answer, LOADED);
    return answer;
}

uint32_t tell(struct session *s, struct answer *read) {
    uint32_t out[5] = {UNSET, UNSET, UNSET, UNSET, UNSET};
    uint32_t answer = whatif_read(LENT(s->record), &out[0], &out[1], &out[2], &out[3], &out[4]);
    told(answer, out, 5);
    struct whatif_told one = nothing_told(), now = nothing_told();
    struct whatif_told plain = {.state = out[0], .yes = out[1], .parts = out[2], .links = out[3], .passed = out[4]};
    as_told(answer, plain, whatif_read_told(LENT(s->record), &one), &one);
    int current = s->record.count > 0 && ((const uint8_t *)s->record.at)[0] == ANSWERED;
    as_told(current ? answer : 1, plain, whatif_read_current(LENT(s->record), &now), &now);
    held(&s->record, 0, "Read leaves the record");
    int fits = out[0] < WHATIF_MAX_STATES && out[1] <= 1 && out[2] >= 1 && out[2] <= WHATIF_MAX_PARTS;
    sure(answer != WHATIF_ACCEPTED || fits, "Read tells a state, yes or no, and 1 to 254 parts");
    int climbs = out[3] <= out[4] && out[4] <= 65535 * out[2];
    sure(answer != WHATIF_ACCEPTED || climbs, "each link passes over a node at least, each part over 65,535 at most");
    done(s, answer, (enum phase)whatif_session_state(LENT(s->record)));
    if (answer == WHATIF_ACCEPTED)
        reached(out[3]);
    *read = (struct answer){out[0], out[1], out[2], out[3], out[4]};
    return answer;
}

/* Everything from the input, the record too. */
static struct session lend_session(struct input *in) {
    struct lent record = lend(in, 1), plan = lend(in, 1), rules = lend(in, 1), nodes = lend(in, 2),
                states = lend(in, 1);
    struct session s = {record, plan, rules, nodes, states};
    return s;
}

/* No record in the input stands for a fresh one. */
uint32_t try_load(struct input *in) {
    struct lent record = lend(in, 1), plan = lend(in, 1), rules = lend(in, 1);
    if (record.count == 0)
        record = lend_filled(WHATIF_RECORD_BYTES, 1, 0);
    struct lent nodes = lend_filled(take(in, 2), 2, 0x77), states = lend_filled(take(in, 2), 1, 0x77);
    struct session s = {record, plan, rules, nodes, states};
    return load(&s);
}

uint32_t try_start(struct input *in) {
    uint32_t parts;
    struct lent listed = lend(in, 2), labels = lend(in, 1);
    struct session s = lend_session(in);
    return start(&s, &listed, &labels, &parts);
}

uint32_t try_advance(struct input *in) {
    uint32_t finished;
    struct session s = lend_session(in);
    return advance(&s, &finished);
}

/* Cancel and Read are lent the record alone. */
static struct session lend_record(struct input *in) {
    struct lent record = lend(in, 1), none = lend_filled(0, 1, 0);
    struct session s = {record, none, none, none, none};
    return s;
}

uint32_t try_cancel(struct input *in) {
    struct session s = lend_record(in);
    return cancel(&s);
}

uint32_t try_read(struct input *in) {
    struct answer read;
    struct session s = lend_record(in);
    return tell(&s, &read);
}
