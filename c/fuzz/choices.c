/* The count of choices, on whatever an input lends. */
#include "calls.h"
#include "told.h"

/* What is lent for a count, the list first. */
struct asked {
    struct lent open, plan, rules, nodes, states;
};

static int as_built(const struct asked *q) {
    uint32_t yes = 0;
    return whatif_check(LENT(q->plan), LENT(q->rules), LENT(q->nodes), LENT(q->states), &yes) == WHATIF_ACCEPTED && yes;
}

/* How many of the K labels at the one open node end in a state; with no open node, whether the run does. */
static uint64_t tried(const struct asked *q, uint32_t state) {
    uint32_t told[2];
    uint64_t found = 0;
    uint32_t labels = q->open.count == 0 ? 1 : named(&q->rules, 4);
    for (uint32_t a = 0; a < labels; a++) {
        const uint8_t label = (uint8_t)a;
        uint32_t answer = whatif_fresh_run(LENT(q->plan), LENT(q->rules), LENT(q->open), &label, q->open.count,
                                           &told[0], &told[1]);
        sure(answer == WHATIF_ACCEPTED, "a fresh run of a choice is accepted");
        found += told[0] == state;
    }
    return found;
}

static void on_tables_as_built(const struct asked *q, const uint64_t *counts) {
    uint64_t all = 1, sum = 0;
    for (size_t i = 0; i < q->open.count; i++)
        all *= named(&q->rules, 4);
    for (uint32_t state = 0; state < named(&q->rules, 0); state++) {
        sum += counts[state];
        if (q->open.count <= 1)
            sure(counts[state] == tried(q, state), "the counts are those of trying all");
    }
    sure(sum == all, "the sum of the counts is K to the power m");
}

uint32_t try_count(struct input *in) {
    struct lent open = lend(in, 2), plan = lend(in, 1), rules = lend(in, 1), nodes = lend(in, 2), states = lend(in, 1);
    struct asked q = {open, plan, rules, nodes, states};
    struct lent counts = lend_filled(take(in, 2) % 1024, 8, 0x77); /* fewer than a room holds */
    uint32_t out[2] = {UNSET, UNSET};
    uint32_t answer = whatif_count(LENT(q.plan), LENT(q.rules), LENT(q.nodes), LENT(q.states), LENT(q.open),
                                   LENT(counts), &out[0], &out[1]);
    held(&q.open, 0, "the listed nodes stay");
    held(&q.plan, 0, "the plan stays");
    held(&q.rules, 0, "the rule table stays");
    held(&q.nodes, 0, "the node table stays");
    held(&q.states, 0, "the state table stays");
    told(answer, out, 2);
    if (answer != WHATIF_ACCEPTED) {
        held(&counts, 0, "a refused count writes nothing");
        sure(answer != WHATIF_REFUSED_LENT_VALUE || !as_built(&q), "18 is not given on tables as built");
        return answer;
    }
    sure(named(&q.rules, 0) <= counts.count, "an accepted count has room");
    held(&counts, named(&q.rules, 0), "the excess behind the counts stays");
    keep(&counts);
    struct whatif_told one = nothing_told(), plain = {.parts = out[0], .links = out[1]};
    as_told(answer, plain,
            whatif_count_told(LENT(q.plan), LENT(q.rules), LENT(q.nodes), LENT(q.states), LENT(q.open), LENT(counts),
                              &one),
            &one);
    held(&counts, 0, "the told form writes the same counts");
    sure(out[0] >= 1 && out[0] <= WHATIF_MAX_PARTS, "1 to 254 parts");
    reached(out[0]);
    for (size_t i = 0; i < named(&q.rules, 0); i++)
        sure(((const uint64_t *)counts.at)[i] <= WHATIF_MAX_ASSIGNMENTS, "no count is above the limit");
    if (as_built(&q))
        on_tables_as_built(&q, counts.at);
    return answer;
}
