/* The calls on two rule tables, on whatever an input lends. */
#include "calls.h"
#include "told.h"

/* What a fresh run without changes tells: whether it is accepted, state and yes. */
static int runs(const struct lent *plan, const uint8_t *rules, size_t rules_len, uint32_t out[2]) {
    return whatif_fresh_run(LENT(*plan), rules, rules_len, NULL, 0, NULL, 0, &out[0], &out[1]) == WHATIF_ACCEPTED;
}

/* On a plan that the first table takes, the merged one has the pair of states, and says yes where both do. */
static void pair_of_runs(const struct lent *plan, const struct lent *first, const struct lent *second,
                         const struct lent *merged, size_t len) {
    uint32_t one[2], other[2], both[2];
    if (!runs(plan, LENT(*first), one))
        return;
    sure(runs(plan, LENT(*second), other) && runs(plan, merged->at, len, both), "all three take the plan");
    sure(both[0] == one[0] * named(second, 0) + other[0], "the merged state is the pair of states");
    sure(both[1] == (one[1] & other[1]), "the merged table clears what both clear");
}

uint32_t try_merge(struct input *in) {
    struct lent plan = lend(in, 1), first = lend(in, 1), second = lend(in, 1);
    struct lent merged = lend_filled(take(in, 2), 1, 0x77);
    uint32_t answer = whatif_merge(LENT(first), LENT(second), LENT(merged));
    held(&first, 0, "the first table stays");
    held(&second, 0, "the second table stays");
    if (answer != WHATIF_ACCEPTED) {
        held(&merged, 0, "a refused merge writes nothing");
        return answer;
    }
    size_t len = WHATIF_RULES_BYTES(named(&first, 0) * named(&second, 0), named(&first, 4));
    sure(len <= merged.count, "an accepted merge has room");
    held(&merged, len, "the merged table's excess stays");
    pair_of_runs(&plan, &first, &second, &merged, len);
    return answer;
}

/* The states of the trees of lines, by one table. */
static void states_of(const struct lent *rules, const uint16_t *lines, size_t count, uint8_t *states) {
    const uint8_t *at = rules->at, *leaf = at + 20;
    size_t s = named(rules, 0), k = named(rules, 4);
    for (size_t i = 0; i < count; i++) {
        const uint16_t *line = lines + 4 * i;
        if (line[0] == 0)
            states[i] = leaf[line[1]];
        else
            states[i] = leaf[k + (states[line[2]] * k + line[1]) * s + states[line[3]]];
    }
}

static int marked(const struct lent *rules, uint8_t state) {
    return ((const uint8_t *)rules->at)[rules->count - named(rules, 0) + state];
}

/* Each line is a leaf or an inner node over earlier lines; the tables differ on the last one, and on none before it. */
static void separating(const struct lent *first, const struct lent *second, const uint16_t *lines, size_t count) {
    uint8_t one[WHATIF_MAX_LINES], other[WHATIF_MAX_LINES];
    for (size_t i = 0; i < count; i++) {
        const uint16_t *line = lines + 4 * i;
        sure(line[0] <= 1 && line[1] < named(first, 4), "a line is a leaf or an inner node, with a label of the tables");
        int fits = line[0] == 0 ? line[2] == 0 && line[3] == 0 : line[2] < i && line[3] < i;
        sure(fits, "a leaf has no children, an inner node earlier lines");
    }
    states_of(first, lines, count, one);
    states_of(second, lines, count, other);
    for (size_t i = 0; i < count; i++)
        sure((marked(first, one[i]) != marked(second, other[i])) == (i + 1 == count), "they differ on the last line");
}

/* Tables that agree say the same of the plan, where they take it. */
static void same_runs(const struct lent *plan, const struct lent *first, const struct lent *second) {
    uint32_t one[2], other[2];
    if (runs(plan, LENT(*first), one))
        sure(runs(plan, LENT(*second), other) && one[1] == other[1], "tables that agree judge a plan alike");
}

uint32_t try_agree(struct input *in) {
    struct lent plan = lend(in, 1), first = lend(in, 1), second = lend(in, 1);
    struct lent lines = lend_filled(take(in, 2), 2, 0x77);
    uint32_t out[2] = {UNSET, UNSET};
    uint32_t answer = whatif_agree(LENT(first), LENT(second), LENT(lines), &out[0], &out[1]);
    held(&first, 0, "the first table stays");
    held(&second, 0, "the second table stays");
    told(answer, out, 2);
    if (answer != WHATIF_ACCEPTED) {
        held(&lines, 0, "a refused call writes no line");
        return answer;
    }
    size_t count = out[1];
    sure(out[0] <= 1 && (count == 0) == (out[0] == 1), "there are lines exactly where the tables do not agree");
    sure(count <= WHATIF_MAX_LINES && 4 * count <= lines.count, "at most 256 lines, and these fit");
    held(&lines, 4 * count, "the excess behind the lines stays");
    keep(&lines);
    struct whatif_told one = nothing_told(), plain = {.yes = out[0], .lines = out[1]};
    as_told(answer, plain, whatif_agree_told(LENT(first), LENT(second), LENT(lines), &one), &one);
    held(&lines, 0, "the told form writes the same lines");
    if (count > 0)
        separating(&first, &second, lines.at, count);
    else
        same_runs(&plan, &first, &second);
    return answer;
}
