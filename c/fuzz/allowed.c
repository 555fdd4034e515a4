/* Allowed labels and clearing states of every node, and a whole question on the tables, on whatever an input lends. */
#include "calls.h"
#include "told.h"

/* The fresh run's yes with node v alone relabelled to a. */
static uint32_t run_with(const struct lent *plan, const struct lent *rules, uint16_t v, uint8_t a) {
    uint32_t state = UNSET, yes = UNSET;
    uint32_t answer = whatif_fresh_run(LENT(*plan), LENT(*rules), &v, 1, &a, 1, &state, &yes);
    sure(answer == WHATIF_ACCEPTED, "a fresh run with one label changed is accepted");
    return yes;
}

/* A node and a label of the plan by a number of the input. */
struct single {
    uint16_t node;
    uint8_t label;
};

static struct single single_of(const struct lent *plan, const struct lent *rules, uint32_t number) {
    uint32_t n = named(plan, 0), k = named(rules, 4);
    return (struct single){(uint16_t)(number % n), (uint8_t)(number / n % k)};
}

uint32_t try_allowed(struct input *in) {
    uint32_t number = take(in, 4);
    struct lent plan = lend(in, 1), rules = lend(in, 1), masks = lend_filled(take(in, 2) % 4096, 8, 0x77);
    uint32_t answer = whatif_allowed(LENT(plan), LENT(rules), LENT(masks));
    held(&plan, 0, "the plan stays");
    held(&rules, 0, "the rule table stays");
    if (answer != WHATIF_ACCEPTED) {
        held(&masks, 0, "refused, no mask is written");
        return answer;
    }
    uint32_t n = named(&plan, 0), k = named(&rules, 4);
    sure(n <= masks.count, "accepted, there is room for every node");
    held(&masks, n, "the excess of the masks stays");
    const uint64_t *mask = masks.at;
    for (uint32_t i = 0; i < 16; i++) {
        struct single one = single_of(&plan, &rules, number + 977 * i);
        sure((mask[one.node] >> one.label & 1) == run_with(&plan, &rules, one.node, one.label),
             "a bit is the fresh run's answer with that label alone changed");
        sure(k == 64 || mask[one.node] >> k == 0, "no bit from K on is set");
    }
    return answer;
}

uint32_t try_clearing(struct input *in) {
    uint32_t number = take(in, 4);
    struct lent plan = lend(in, 1), rules = lend(in, 1), sets = lend_filled(take(in, 2), 2, 0x77);
    uint32_t answer = whatif_clearing(LENT(plan), LENT(rules), LENT(sets));
    held(&plan, 0, "the plan stays");
    held(&rules, 0, "the rule table stays");
    if (answer != WHATIF_ACCEPTED) {
        held(&sets, 0, "refused, no set is written");
        return answer;
    }
    uint32_t n = named(&plan, 0), s = named(&rules, 0), k = named(&rules, 4);
    sure(n <= sets.count, "accepted, there is room for every node");
    held(&sets, n, "the excess of the sets stays");
    const uint16_t *set = sets.at;
    const uint8_t *table = (const uint8_t *)rules.at + 20, *marks = table + k + s * k * s;
    uint16_t marked = 0;
    for (uint32_t q = 0; q < s; q++)
        marked |= (uint16_t)(marks[q] << q);
    sure(set[n - 1] == marked, "at the root the marked states clear the plan");
    const uint8_t *kinds = (const uint8_t *)plan.at + 12 + n;
    for (uint32_t i = 0; i < 16; i++) {
        struct single one = single_of(&plan, &rules, number + 977 * i);
        sure(set[one.node] >> s == 0, "no bit from S on is set");
        if (kinds[one.node] == 0) /* a leaf's state is its label's */
            sure((set[one.node] >> table[one.label] & 1u) == run_with(&plan, &rules, one.node, one.label),
                 "a leaf's label clears the plan where its state is in the leaf's set");
    }
    return answer;
}

/* What the session reads for the same question, from a fresh record on. */
static void session_reads(const struct lent *lent, const struct lent *listed, const struct lent *labels, uint32_t *out) {
    struct lent record = lend_filled(WHATIF_RECORD_BYTES, 1, 0);
    struct lent nodes = lend_filled(lent[2].count, 2, 0), states = lend_filled(lent[3].count, 1, 0);
    uint32_t parts, finished = 0;
    sure(whatif_load(LENT(record), LENT(lent[0]), LENT(lent[1]), LENT(nodes), LENT(states)) == 0, "Load is accepted");
    sure(whatif_start(LENT(record), LENT(lent[0]), LENT(lent[1]), LENT(nodes), LENT(states), LENT(*listed),
                      LENT(*labels), &parts) == 0,
         "so is Start");
    while (!finished)
        sure(whatif_advance(LENT(record), LENT(lent[0]), LENT(lent[1]), LENT(nodes), LENT(states), &finished) == 0,
             "so is every advance");
    sure(whatif_read(LENT(record), &out[0], &out[1], &out[2], &out[3], &out[4]) == 0, "so is Read");
    give_back_last(3);
}

uint32_t try_ask(struct input *in) {
    struct lent listed = lend(in, 2), labels = lend(in, 1), plan = lend(in, 1), rules = lend(in, 1);
    struct lent nodes = lend(in, 2), states = lend(in, 1);
    const struct lent lent[] = {plan, rules, nodes, states};
    uint32_t out[5] = {UNSET, UNSET, UNSET, UNSET, UNSET}, session[5], yes = 0;
    uint32_t answer = whatif_ask(LENT(plan), LENT(rules), LENT(nodes), LENT(states), LENT(listed), LENT(labels),
                                 &out[0], &out[1], &out[2], &out[3], &out[4]);
    struct whatif_told one = nothing_told();
    struct whatif_told plain = {.state = out[0], .yes = out[1], .parts = out[2], .links = out[3], .passed = out[4]};
    as_told(answer, plain,
            whatif_ask_told(LENT(plan), LENT(rules), LENT(nodes), LENT(states), LENT(listed), LENT(labels), &one), &one);
    for (size_t i = 0; i < sizeof lent / sizeof *lent; i++)
        held(&lent[i], 0, "what is lent stays");
    held(&listed, 0, "the listed nodes stay"), held(&labels, 0, "the listed labels stay");
    told(answer, out, 5);
    if (answer == WHATIF_ACCEPTED) {
        sure(out[0] < named(&rules, 0) && out[1] <= 1, "a question tells a state");
        sure(out[2] >= 1 && out[2] <= WHATIF_MAX_PARTS && out[3] <= out[4], "each move passes over a node at least");
    }
    if ((answer != WHATIF_ACCEPTED && answer != WHATIF_REFUSED_LENT_VALUE) ||
        whatif_check(LENT(plan), LENT(rules), LENT(nodes), LENT(states), &yes) || !yes)
        return answer;
    sure(answer == WHATIF_ACCEPTED, "18 is not given on tables as built");
    session_reads(lent, &listed, &labels, session);
    for (size_t i = 0; i < 5; i++)
        sure(out[i] == session[i], "on tables as built the answer is the session's");
    return answer;
}
