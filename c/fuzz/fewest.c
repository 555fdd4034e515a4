/* The fewest changes, on whatever an input lends, beside a plain table of costs that is worked out here. */
#include "calls.h"
#include "told.h"

#define MOST 4096u /* nodes: no input has as many bytes */

/* What is lent for the call, and the verdict that is wanted. */
struct asked {
    struct lent plan, rules, may;
    uint32_t yes;
};

/* The fresh run's yes with the first `count` entries of the lists. */
static uint32_t run_with(const struct asked *q, const uint16_t *nodes, const uint8_t *labels, uint32_t count) {
    uint32_t state = UNSET, yes = UNSET;
    uint32_t answer =
        whatif_fresh_run(LENT(q->plan), LENT(q->rules), nodes, count, labels, count, &state, &yes);
    sure(answer == WHATIF_ACCEPTED, "a fresh run with the listed changes is accepted");
    return yes;
}

/* What it costs that node v has label a: nothing where it has it, 1 where it may take it. */
static uint32_t cost_of(const struct asked *q, uint32_t v, uint32_t a) {
    const uint8_t *labels = (const uint8_t *)q->plan.at + 12;
    if (labels[v] == a)
        return 0;
    return q->may.count == 0 || ((const uint64_t *)q->may.at)[v] >> a & 1 ? 1 : WHATIF_NO_WAY;
}

static void lower(uint32_t *least, uint32_t cost) { *least = cost < *least ? cost : *least; }

/* For each node, and each state that it may come to, the fewest changes at it and below it; the least at the root. */
static uint32_t plainly_least(const struct asked *q) {
    static uint32_t rows[MOST][WHATIF_MAX_STATES], waiting[MOST];
    uint32_t n = named(&q->plan, 0), s = named(&q->rules, 0), k = named(&q->rules, 4), trees = 0;
    const uint8_t *kinds = (const uint8_t *)q->plan.at + 12 + n, *leaf = (const uint8_t *)q->rules.at + 20;
    const uint8_t *inner = leaf + k, *marks = inner + s * k * s;
    uint32_t least = WHATIF_NO_WAY;
    for (uint32_t v = 0; v < n; v++) {
        const uint32_t right = kinds[v] ? waiting[--trees] : v, left = kinds[v] ? waiting[--trees] : v;
        for (uint32_t i = 0; i < s; i++)
            rows[v][i] = WHATIF_NO_WAY;
        for (uint32_t a = 0; a < k && !kinds[v]; a++)
            lower(&rows[v][leaf[a]], cost_of(q, v, a));
        for (uint32_t i = 0; i < s * k * s && kinds[v]; i++)
            lower(&rows[v][inner[i]], rows[left][i / s / k] + cost_of(q, v, i / s % k) + rows[right][i % s]);
        waiting[trees++] = v;
    }
    for (uint32_t i = 0; i < s; i++)
        if (marks[i] == q->yes)
            lower(&least, rows[n - 1][i]);
    return least;
}

/* Rising, each once, in the plan, and permitted; labels below K. */
static void list_holds(const struct asked *q, const uint16_t *nodes, const uint8_t *labels, uint32_t count) {
    uint32_t n = named(&q->plan, 0), k = named(&q->rules, 4);
    for (uint32_t i = 0; i < count; i++) {
        sure(nodes[i] < n && (i == 0 || nodes[i - 1] < nodes[i]), "the listed nodes are in the plan and rise");
        sure(labels[i] < k && cost_of(q, nodes[i], labels[i]) == 1, "each takes another label, as it may");
    }
}

/* The struct form on other work space: the same numbers and lists, and past them nothing. */
static void as_told_once(const struct asked *q, uint32_t want, size_t work_len, const uint16_t *nodes,
                         const uint8_t *labels, uint32_t least, uint32_t count) {
    struct lent work = lend_filled(work_len, 4, 0x55);
    struct whatif_least one, rest;
    memset(&one, 0x77, sizeof one), memset(&rest, 0x77, sizeof rest);
    sure(whatif_fewest_told(LENT(q->plan), LENT(q->rules), LENT(q->may), want, LENT(work), &one) == WHATIF_ACCEPTED,
         "the told form answers as the plain call");
    sure(one.least == least && one.count == count && memcmp(one.nodes, nodes, 2 * count) == 0 &&
             memcmp(one.labels, labels, count) == 0,
         "the told form has the plain call's values, whatever the work space held");
    sure(memcmp(one.nodes + count, rest.nodes + count, sizeof one.nodes - 2 * count) == 0 &&
             memcmp(one.labels + count, rest.labels + count, sizeof one.labels - count) == 0,
         "the told form writes nothing past the list");
}

static void accepted(const struct asked *q, const uint16_t *nodes, const uint8_t *labels, uint32_t least,
                     uint32_t count) {
    uint32_t n = named(&q->plan, 0);
    sure(least <= n || least == WHATIF_NO_WAY, "no more changes than nodes, or no way");
    sure(count == (least <= WHATIF_MAX_CHANGES ? least : 0), "all changes are listed, or none");
    list_holds(q, nodes, labels, count);
    if (least <= WHATIF_MAX_CHANGES)
        sure(run_with(q, nodes, labels, count) == q->yes, "the list does it");
    sure((run_with(q, NULL, NULL, 0) == q->yes) == (least == 0), "0 exactly where the plan is as wanted already");
    sure(n > MOST || least == plainly_least(q), "the number is the least of all");
    reached(least > 4 && least < WHATIF_NO_WAY ? 5 + least / 16 : least);
}

uint32_t try_fewest(struct input *in) {
    uint32_t want = take(in, 1), out[2] = {UNSET, UNSET};
    struct lent plan = lend(in, 1), rules = lend(in, 1), may = lend(in, 8);
    struct asked q = {plan, rules, may, want != 0};
    struct lent work = lend_filled(take(in, 2) % 8192, 4, 0x77);
    struct lent nodes = lend_filled(take(in, 1), 2, 0x77), labels = lend_filled(take(in, 1), 1, 0x77);
    uint32_t answer = whatif_fewest(LENT(plan), LENT(rules), LENT(may), want, LENT(work), LENT(nodes), LENT(labels),
                                    &out[0], &out[1]);
    held(&plan, 0, "the plan stays"), held(&rules, 0, "the rule table stays"), held(&may, 0, "the sets stay");
    told(answer, out, 2);
    if (answer != WHATIF_ACCEPTED) {
        held(&work, 0, "refused, no work space is written");
        held(&nodes, 0, "refused, no node is written"), held(&labels, 0, "refused, no label is written");
        return answer;
    }
    held(&work, WHATIF_FEWEST_WORK(named(&plan, 0), named(&rules, 0)), "the excess of the work space stays");
    held(&nodes, out[1], "the excess of the nodes stays"), held(&labels, out[1], "the excess of the labels stays");
    accepted(&q, nodes.at, labels.at, out[0], out[1]);
    as_told_once(&q, want, work.count, nodes.at, labels.at, out[0], out[1]);
    return answer;
}
