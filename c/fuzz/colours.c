/* Branch questions and questions by colours, on whatever an input lends. */
#include "calls.h"
#include "told.h"

/* What is lent: plan and branch table, node table, colour tables. */
struct coloured {
    struct lent plan, branch, nodes, numbers, bytes;
};

typedef uint32_t colour_call(const uint8_t *, size_t, const uint8_t *, size_t, const uint16_t *, size_t,
                             const uint16_t *, size_t, const uint8_t *, size_t, uint32_t, uint32_t, uint32_t *,
                             uint32_t *, uint32_t *, uint32_t *);
typedef uint32_t climb_call(const uint8_t *, size_t, const uint8_t *, size_t, const uint16_t *, size_t, const uint8_t *,
                            size_t, uint32_t, uint32_t, uint32_t *, uint32_t *, uint32_t *, uint32_t *);

static void all_held(const struct coloured *q) {
    held(&q->plan, 0, "the plan stays");
    held(&q->branch, 0, "the branch table stays");
    held(&q->nodes, 0, "the node table stays");
    held(&q->numbers, 0, "the colour numbers stay");
    held(&q->bytes, 0, "the colour bytes stay");
}

/* The colour of state 0 in a copy as built. */
static size_t start_in(const uint8_t *copy, size_t s) {
    size_t c = 0;
    while (c < s && copy[c] != 0)
        c++;
    sure(c < s, "each state has a colour");
    return c;
}

/* On tables as built: the drops of a question, counted node after node. */
static uint32_t walked(const struct coloured *q, int with_upper, size_t upper, size_t lower) {
    static uint16_t path[65535];
    size_t n = named(&q->plan, 0), s = named(&q->branch, 0), count = 0;
    const uint16_t *nodes = q->nodes.at, *numbers = q->numbers.at;
    const uint8_t *bytes = q->bytes.at;
    for (size_t v = lower; v != upper; v = nodes[4 * v])
        path[count++] = (uint16_t)v;
    size_t c = with_upper && upper + 1 == n ? 0 : start_in(bytes + (with_upper ? nodes[4 * upper] : upper) * s, s);
    if (with_upper)
        path[count++] = (uint16_t)upper;
    uint32_t drops = 0;
    while (count > 0 && c > 0) {
        size_t lands = numbers[(c * n + path[--count]) * 4 + 3];
        drops += lands < c;
        c = lands;
    }
    return drops;
}

/* The answer is the climb's, and its drops are those of the path. */
static void as_by_climb(const struct coloured *q, int with_upper, uint32_t upper, uint32_t lower, uint32_t answer,
                        const uint32_t *out) {
    size_t n = named(&q->plan, 0), s = named(&q->branch, 0);
    struct lent nodes = lend_filled(WHATIF_NODE_TABLE_LEN(n), 2, 0);
    struct lent states = lend_filled(WHATIF_STATE_TABLE_LEN(n, s), 1, 0);
    climb_call *climb = with_upper ? whatif_branch_with_upper : whatif_branch;
    uint32_t told_by[4];
    sure(whatif_branch_build(LENT(q->plan), LENT(q->branch), LENT(nodes), LENT(states)) == 0, "the tables are built");
    uint32_t want = climb(LENT(q->plan), LENT(q->branch), LENT(nodes), LENT(states), upper, lower, told_by, told_by + 1,
                          told_by + 2, told_by + 3);
    give_back_last(2);
    sure(answer == want, "by colours a question is refused as by the climb");
    if (answer != WHATIF_ACCEPTED)
        return;
    sure(out[0] == told_by[0] && out[1] == told_by[1], "by colours the answer is that of the climb");
    sure(out[2] == walked(q, with_upper, upper, lower), "the drops are those of the path");
    sure(out[3] <= 45 * out[2], "at most 45 links for each drop");
}

/* Are node table and colour tables as built? */
static int as_built(const struct coloured *q) {
    size_t n = named(&q->plan, 0), s = named(&q->branch, 0);
    size_t numbers_len = WHATIF_COLOUR_BRANCH_NUMBERS(n, s), bytes_len = WHATIF_COLOUR_BRANCH_BYTES(n, s);
    if (n > 65535 || s > 16 || q->numbers.count < numbers_len || q->bytes.count < bytes_len)
        return 0;
    struct lent numbers = lend_filled(numbers_len, 2, 0), bytes = lend_filled(bytes_len, 1, 0);
    int same = whatif_colour_branch_build(LENT(q->plan), LENT(q->branch), LENT(numbers), LENT(bytes)) == 0 &&
               memcmp(numbers.at, q->numbers.at, 2 * numbers_len) == 0 &&
               memcmp(bytes.at, q->bytes.at, bytes_len) == 0 &&
               q->nodes.count >= 4 * n && memcmp(numbers.at, q->nodes.at, 8 * n) == 0;
    give_back_last(2);
    return same;
}

/* The told form of either reading. */
static void ask_told(const struct coloured *q, int with_upper, uint32_t upper, uint32_t lower, uint32_t answer,
                     const uint32_t *out) {
    struct whatif_told one = nothing_told();
    struct whatif_told plain = {.state = out[0], .yes = out[1], .drops = out[2], .links = out[3]};
    uint32_t told_answer = (with_upper ? whatif_colour_branch_with_upper_told : whatif_colour_branch_told)(
        LENT(q->plan), LENT(q->branch), LENT(q->nodes), LENT(q->numbers), LENT(q->bytes), upper, lower, &one);
    as_told(answer, plain, told_answer, &one);
}

static uint32_t ask(const struct coloured *q, int with_upper, uint32_t upper, uint32_t lower, int built) {
    colour_call *call = with_upper ? whatif_colour_branch_with_upper : whatif_colour_branch;
    uint32_t out[4] = {UNSET, UNSET, UNSET, UNSET};
    uint32_t answer = call(LENT(q->plan), LENT(q->branch), LENT(q->nodes), LENT(q->numbers), LENT(q->bytes), upper,
                           lower, &out[0], &out[1], &out[2], &out[3]);
    ask_told(q, with_upper, upper, lower, answer, out);
    all_held(q);
    told(answer, out, 4);
    if (answer == WHATIF_ACCEPTED) {
        uint32_t s = named(&q->branch, 0);
        sure(out[0] < s && out[1] <= 1 && out[2] < s, "a question by colours tells a state, and fewer drops than states");
        sure(out[3] <= 65535 * out[2], "no search has more links than nodes");
        reached(out[2] * 8 + out[0]);
    }
    if (built)
        as_by_climb(q, with_upper, upper, lower, answer, out);
    return answer;
}

uint32_t try_colour_branch_build(struct input *in) {
    struct lent plan = lend(in, 1), branch = lend(in, 1);
    struct lent numbers = lend_filled(take(in, 2), 2, 0x77), bytes = lend_filled(take(in, 2), 1, 0x77);
    struct coloured q = {plan, branch, numbers, numbers, bytes};
    uint32_t answer = whatif_colour_branch_build(LENT(q.plan), LENT(q.branch), LENT(q.numbers), LENT(q.bytes));
    if (answer != WHATIF_ACCEPTED) {
        all_held(&q);
        return answer;
    }
    size_t n = named(&q.plan, 0), s = named(&q.branch, 0);
    held(&q.numbers, WHATIF_COLOUR_BRANCH_NUMBERS(n, s), "the excess of the colour numbers stays");
    held(&q.bytes, WHATIF_COLOUR_BRANCH_BYTES(n, s), "the excess of the colour bytes stays");
    keep(&q.numbers);
    keep(&q.bytes);
    for (size_t v = 0; v < n; v++) {
        uint32_t taken = 0;
        for (size_t c = 0; c < s; c++)
            taken |= 1u << (((const uint8_t *)q.bytes.at)[v * s + c] & 31);
        sure(taken == (1u << s) - 1, "each state has one colour");
    }
    uint32_t lower = take(in, 2) % (uint32_t)n;
    for (int with_upper = 0; with_upper < 2; with_upper++)
        ask(&q, with_upper, (uint32_t)n - 1, lower, 1);
    return answer;
}

/* In both readings: the same refusal, unless the parent of the upper node leads outside. */
uint32_t try_colour_branch(struct input *in) {
    uint32_t upper = take(in, 4), lower = take(in, 4);
    struct lent plan = lend(in, 1), branch = lend(in, 1), nodes = lend(in, 2), numbers = lend(in, 2);
    struct coloured q = {plan, branch, nodes, numbers, lend(in, 1)};
    int built = as_built(&q);
    uint32_t answer = ask(&q, 1, upper, lower, built), below = ask(&q, 0, upper, lower, built);
    int either = answer == WHATIF_REFUSED_LENT_VALUE || below == WHATIF_REFUSED_LENT_VALUE;
    sure(answer == below || either, "both readings are refused alike, 18 apart");
    return below;
}

uint32_t try_colour_build(struct input *in) {
    struct lent plan = lend(in, 1), rules = lend(in, 1);
    struct lent numbers = lend_filled(take(in, 2), 2, 0x77), bytes = lend_filled(take(in, 2), 1, 0x77);
    uint32_t answer = whatif_colour_build(LENT(plan), LENT(rules), LENT(numbers), LENT(bytes));
    held(&plan, 0, "the plan stays");
    held(&rules, 0, "the rule table stays");
    if (answer != WHATIF_ACCEPTED) {
        held(&numbers, 0, "a refused build writes no number");
        held(&bytes, 0, "a refused build writes no byte");
        return answer;
    }
    size_t n = named(&plan, 0), s = named(&rules, 0), sets = (size_t)1 << s;
    held(&numbers, WHATIF_COLOUR_NUMBERS(n, s), "the excess of the colour numbers stays");
    held(&bytes, WHATIF_COLOUR_BYTES(n, s), "the excess of the colour bytes stays");
    uint32_t yes = 0;
    sure(whatif_check(LENT(plan), LENT(rules), LENT(numbers), LENT(bytes), &yes) == 0 && yes, "the build's tables first");
    const uint8_t *copies = (const uint8_t *)bytes.at + WHATIF_STATE_TABLE_LEN(n, s);
    for (size_t v = 0; v < n; v++) {
        uint32_t taken = 0;
        for (size_t c = 0; c < sets; c++)
            taken |= 1u << (copies[v * sets + c] & 31);
        sure(taken == (1u << sets) - 1, "each set has one colour");
    }
    return answer;
}

/* What is lent for a question by colours. */
struct set_question {
    struct lent listed, labels, plan, rules, nodes, states, numbers, bytes;
};

/* Are the tables, colour tables too, as built? */
static int sets_as_built(const struct set_question *q) {
    size_t n = named(&q->plan, 0), s = named(&q->rules, 0);
    size_t numbers_len = WHATIF_COLOUR_NUMBERS(n, s), bytes_len = WHATIF_COLOUR_BYTES(n, s);
    uint32_t yes = 0;
    if (q->numbers.count < numbers_len || q->bytes.count < bytes_len ||
        whatif_check(LENT(q->plan), LENT(q->rules), LENT(q->nodes), LENT(q->states), &yes) || !yes)
        return 0;
    struct lent numbers = lend_filled(numbers_len, 2, 0), bytes = lend_filled(bytes_len, 1, 0);
    int same = whatif_colour_build(LENT(q->plan), LENT(q->rules), LENT(numbers), LENT(bytes)) == 0 &&
               memcmp(numbers.at, q->numbers.at, 2 * numbers_len) == 0 && memcmp(bytes.at, q->bytes.at, bytes_len) == 0;
    give_back_last(2);
    return same;
}

uint32_t try_colour_ask(struct input *in) {
    struct lent listed = lend(in, 2), labels = lend(in, 1), plan = lend(in, 1), rules = lend(in, 1);
    struct lent nodes = lend(in, 2), states = lend(in, 1), numbers = lend(in, 2), bytes = lend(in, 1);
    struct set_question q = {listed, labels, plan, rules, nodes, states, numbers, bytes};
    uint32_t out[5] = {UNSET, UNSET, UNSET, UNSET, UNSET}, fresh[2];
    uint32_t answer = whatif_colour_ask(LENT(plan), LENT(rules), LENT(nodes), LENT(states), LENT(numbers), LENT(bytes),
                                        LENT(listed), LENT(labels), &out[0], &out[1], &out[2], &out[3], &out[4]);
    struct whatif_told one = nothing_told();
    struct whatif_told plain = {.state = out[0], .yes = out[1], .drops = out[2], .links = out[3], .parts = out[4]};
    as_told(answer, plain,
            whatif_colour_ask_told(LENT(plan), LENT(rules), LENT(nodes), LENT(states), LENT(numbers), LENT(bytes),
                                   LENT(listed), LENT(labels), &one),
            &one);
    const struct lent all[] = {listed, labels, plan, rules, nodes, states, numbers, bytes};
    for (size_t i = 0; i < sizeof all / sizeof *all; i++)
        held(&all[i], 0, "what is lent stays");
    told(answer, out, 5);
    if (answer == WHATIF_ACCEPTED) {
        sure(out[0] < named(&rules, 0) && out[1] <= 1, "a question by colours tells a state");
        reached(out[2] * 8 + out[4]);
        sure(out[4] >= 1 && out[4] <= WHATIF_MAX_PARTS && out[2] <= 60 * out[4], "at most 60 drops for each part");
    }
    if ((answer != WHATIF_ACCEPTED && answer != WHATIF_REFUSED_LENT_VALUE) || !sets_as_built(&q))
        return answer;
    sure(answer == WHATIF_ACCEPTED, "18 is not given on tables as built");
    sure(whatif_fresh_run(LENT(plan), LENT(rules), LENT(listed), LENT(labels), &fresh[0], &fresh[1]) == 0 &&
             fresh[0] == out[0] && fresh[1] == out[1],
         "by colours the answer is the fresh run's");
    sure(out[3] <= 45 * out[2], "at most 45 links for each drop");
    return answer;
}
