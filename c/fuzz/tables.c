/* The seven calls on tables, on whatever an input lends. */
#include "calls.h"
#include "plain.h"
#include "told.h"

typedef uint32_t build_call(const uint8_t *, size_t, const uint8_t *, size_t, uint16_t *, size_t, uint8_t *, size_t);
typedef uint32_t check_call(const uint8_t *, size_t, const uint8_t *, size_t, const uint16_t *, size_t, const uint8_t *,
                            size_t, uint32_t *);

/* The branch question, in either reading. */
typedef uint32_t branch_call(const uint8_t *, size_t, const uint8_t *, size_t, const uint16_t *, size_t, const uint8_t *,
                             size_t, uint32_t, uint32_t, uint32_t *, uint32_t *, uint32_t *, uint32_t *);
typedef uint32_t told_call(const uint8_t *, size_t, const uint8_t *, size_t, const uint16_t *, size_t, const uint8_t *,
                           size_t, uint32_t, uint32_t, struct whatif_told *);

/* What the seven have in common: plan and table, and the two tables of the nodes. */
struct tables {
    struct lent plan, table, nodes, states;
};

static struct tables lend_tables(struct input *in) {
    struct lent plan = lend(in, 1), table = lend(in, 1), nodes = lend(in, 2), states = lend(in, 1);
    struct tables t = {plan, table, nodes, states};
    return t;
}

static void all_held(const struct tables *t) {
    held(&t->plan, 0, "the plan stays");
    held(&t->table, 0, "the rule table or branch table stays");
    held(&t->nodes, 0, "the node table stays");
    held(&t->states, 0, "the state table stays");
}

/* What the full check says, which is accepted. */
static uint32_t says(check_call *check, const struct tables *t) {
    uint32_t yes = UNSET;
    uint32_t answer = check(LENT(t->plan), LENT(t->table), LENT(t->nodes), LENT(t->states), &yes);
    sure(answer == WHATIF_ACCEPTED && yes <= 1, "a full check after a build is accepted");
    return yes;
}

/* Yes to what was built; no once one number or one byte is another. */
static void told_apart(struct input *in, check_call *check, struct tables *t, size_t numbers, size_t bytes) {
    sure(says(check, t) == 1, "a full check after a build says yes");
    uint16_t *number = (uint16_t *)t->nodes.at + take(in, 4) % numbers;
    uint8_t *byte = (uint8_t *)t->states.at + take(in, 4) % bytes;
    *number ^= 1;
    sure(says(check, t) == 0, "a full check says no to another number");
    *number ^= 1;
    *byte ^= 1;
    sure(says(check, t) == 0, "a full check says no to another byte");
}

static uint32_t build(struct input *in, build_call *build, check_call *check) {
    struct lent plan = lend(in, 1), table = lend(in, 1);
    struct lent nodes = lend_filled(take(in, 2), 2, 0x77), states = lend_filled(take(in, 2), 1, 0x77);
    struct tables t = {plan, table, nodes, states};
    uint32_t answer = build(LENT(t.plan), LENT(t.table), LENT(t.nodes), LENT(t.states));
    if (answer != WHATIF_ACCEPTED) {
        all_held(&t);
        return answer;
    }
    size_t n = named(&t.plan, 0), s = named(&t.table, 0);
    size_t numbers = WHATIF_NODE_TABLE_LEN(n), bytes = WHATIF_STATE_TABLE_LEN(n, s);
    held(&t.nodes, numbers, "the node table's excess stays");
    held(&t.states, bytes, "the state table's excess stays");
    keep(&t.nodes);
    keep(&t.states);
    all_held(&t);
    told_apart(in, check, &t, numbers, bytes);
    return answer;
}

/* By the definitions, where there is a plain full check. */
typedef int plain_check(const struct lent *, const struct lent *, const struct lent *, const struct lent *);

static uint32_t check(struct input *in, check_call *check, plain_check *plain) {
    struct tables t = lend_tables(in);
    uint32_t yes = UNSET;
    uint32_t answer = check(LENT(t.plan), LENT(t.table), LENT(t.nodes), LENT(t.states), &yes);
    all_held(&t);
    told(answer, &yes, 1);
    sure(answer != WHATIF_ACCEPTED || yes <= 1, "a full check says yes or no");
    if (plain && answer == WHATIF_ACCEPTED)
        sure((int)yes == plain(&t.plan, &t.table, &t.nodes, &t.states), "a full check says what the definitions say");
    return answer;
}

uint32_t try_build(struct input *in) { return build(in, whatif_build, whatif_check); }
uint32_t try_check(struct input *in) { return check(in, whatif_check, plainly_built); }
uint32_t try_branch_build(struct input *in) { return build(in, whatif_branch_build, whatif_branch_check); }
uint32_t try_branch_check(struct input *in) { return check(in, whatif_branch_check, NULL); }

uint32_t try_fresh_run(struct input *in) {
    struct lent plan = lend(in, 1), rules = lend(in, 1), nodes = lend(in, 2), labels = lend(in, 1);
    uint32_t out[2] = {UNSET, UNSET};
    uint32_t answer = whatif_fresh_run(LENT(plan), LENT(rules), LENT(nodes), LENT(labels), &out[0], &out[1]);
    held(&plan, 0, "the plan stays");
    held(&rules, 0, "the rule table stays");
    held(&nodes, 0, "the listed nodes stay");
    held(&labels, 0, "the listed labels stay");
    told(answer, out, 2);
    struct whatif_told one = nothing_told(), plain = {.state = out[0], .yes = out[1]};
    as_told(answer, plain, whatif_fresh_run_told(LENT(plan), LENT(rules), LENT(nodes), LENT(labels), &one), &one);
    sure(answer != WHATIF_ACCEPTED || (out[0] < named(&rules, 0) && out[1] <= 1), "a fresh run tells a state");
    if (answer == WHATIF_ACCEPTED)
        reached((uint32_t)nodes.count * 4 + out[0]);
    return answer;
}

static uint32_t ask(branch_call *call, told_call *told_by, const struct tables *t, uint32_t upper, uint32_t lower,
                    uint32_t *out) {
    uint32_t answer = call(LENT(t->plan), LENT(t->table), LENT(t->nodes), LENT(t->states), upper, lower, &out[0],
                           &out[1], &out[2], &out[3]);
    struct whatif_told one = nothing_told();
    struct whatif_told plain = {.state = out[0], .yes = out[1], .links = out[2], .passed = out[3]};
    as_told(answer, plain,
            told_by(LENT(t->plan), LENT(t->table), LENT(t->nodes), LENT(t->states), upper, lower, &one), &one);
    all_held(t);
    told(answer, out, 4);
    int fits = out[0] < named(&t->table, 0) && out[1] <= 1 && out[2] < named(&t->plan, 0);
    sure(answer != WHATIF_ACCEPTED || fits, "a branch question tells a state, and fewer links than nodes");
    sure(answer != WHATIF_ACCEPTED || (out[2] <= out[3] && out[3] <= 65535), "each link passes over a node at least");
    if (answer == WHATIF_ACCEPTED)
        reached(out[3]);
    return answer;
}

/* In both readings: the same refusal or the same climb; but each reads its own entries of the maps, so either may meet one that
 * leads outside where the other does not. */
uint32_t try_branch(struct input *in) {
    uint32_t upper = take(in, 4), lower = take(in, 4), out[4] = {UNSET, UNSET, UNSET, UNSET};
    uint32_t below[4] = {UNSET, UNSET, UNSET, UNSET};
    struct tables t = lend_tables(in);
    uint32_t answer = ask(whatif_branch_with_upper, whatif_branch_with_upper_told, &t, upper, lower, out);
    uint32_t answer_below = ask(whatif_branch, whatif_branch_told, &t, upper, lower, below);
    if (answer_below != answer)
        sure((answer == WHATIF_REFUSED_LENT_VALUE && answer_below == WHATIF_ACCEPTED) ||
                 (answer == WHATIF_ACCEPTED && answer_below == WHATIF_REFUSED_LENT_VALUE),
             "both readings are refused alike");
    else
        sure(below[2] == out[2] && below[3] == out[3], "both readings tell the same links and nodes passed over");
    if (answer_below == WHATIF_ACCEPTED && upper == lower)
        sure(below[0] == 0 && below[2] == 0 && below[3] == 0, "the empty word ends in state 0");
    return answer;
}
