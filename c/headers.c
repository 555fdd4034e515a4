/*
 * The header's counts and writers against the library. A count is 0 exactly where the library refuses the header; what
 * a writer accepts the library takes. Every buffer ends at a page that must not be touched, or begins behind one. What
 * it prints is compared with headers.expected.
 */
#define _DEFAULT_SOURCE
#include "guarded.h"
#include "sample.h"
#include "sure.h"

#define EXCESS ((size_t)3)
#define MOST_KINDS 9

static uint16_t node_table[WHATIF_NODE_TABLE_LEN(SAMPLE_NODES)];
static uint8_t state_table[WHATIF_STATE_TABLE_LEN(SAMPLE_NODES, SAMPLE_BRANCH_STATES)];

/* A planner's file: node 0 over 1 and 2. */
static const uint8_t file[] = {3, 0, 0, 0, 12, 0, 0, 0, 15, 0, 0, 0, 5, 6, 7, 2, 0, 0};

/* What the library says to these bytes in their place, all else being the sample's. */
typedef uint32_t library(const uint8_t *bytes, size_t len);

static uint32_t of_plan(const uint8_t *bytes, size_t len) {
    uint32_t state, yes;
    return whatif_fresh_run(bytes, len, rules, sizeof rules, NULL, 0, NULL, 0, &state, &yes);
}

static uint32_t of_rules(const uint8_t *bytes, size_t len) {
    uint32_t state, yes;
    return whatif_fresh_run(plan, sizeof plan, bytes, len, NULL, 0, NULL, 0, &state, &yes);
}

static uint32_t of_branch(const uint8_t *bytes, size_t len) {
    return whatif_branch_build(plan, sizeof plan, bytes, len, node_table, sizeof node_table / sizeof *node_table,
                               state_table, sizeof state_table);
}

static uint32_t of_file(const uint8_t *bytes, size_t len) {
    static uint8_t out[WHATIF_PLANNER_PLAN_BYTES(WHATIF_MAX_PLANNER_NODES)];
    static uint16_t places[WHATIF_MAX_PLANNER_NODES];
    return whatif_plan_of_planner(bytes, len, out, sizeof out, places, WHATIF_MAX_PLANNER_NODES);
}

/* A kind of bytes: its counts by the header, what the library says, and which refusals are the header's. */
static const struct kind {
    const char *name;
    const uint8_t *bytes;
    size_t len, header;
    uint32_t (*first)(const uint8_t *, size_t), (*second)(const uint8_t *, size_t);
    library *ask;
    uint32_t from, to;
} kinds_of[] = {
    {"plan", plan, sizeof plan, 12, whatif_plan_nodes, NULL, of_plan, 2, 4},
    {"rule table", rules, sizeof rules, 20, whatif_rules_states, whatif_rules_labels, of_rules, 6, 8},
    {"branch table", branch, sizeof branch, 16, whatif_branch_states, whatif_branch_labels, of_branch, 6, 8},
    {"planner's file", file, sizeof file, 12, whatif_planner_nodes, NULL, of_file, 19, 19},
};

/* Both counts are 0 where the library refuses the header, else those of its first two numbers. */
static void counted(const struct kind *kind, const uint8_t *bytes, size_t len) {
    uint32_t answer = kind->ask(bytes, len), first = kind->first(bytes, len);
    uint32_t second = kind->second ? kind->second(bytes, len) : 1;
    int refused = answer >= kind->from && answer <= kind->to;
    sure((first == 0) == refused, "a count is 0 exactly where the header is refused");
    sure((second == 0) == (kind->second && refused), "both counts are 0, or none");
    sure(first == 0 || first == bytes[0] + 256u * bytes[1], "a count is the header's number");
    sure(first == 0 || !kind->second || second == bytes[4], "the count of labels is the header's number");
}

/* Every length up to the excess, and every value of each byte of the header. */
static void counts(const struct kind *kind, int behind) {
    static uint8_t longer[sizeof rules + sizeof plan + EXCESS];
    memcpy(longer, kind->bytes, kind->len);
    for (size_t len = 0; len <= kind->len + EXCESS; len++)
        sure_case = len, counted(kind, copied(longer, len, behind), len);
    uint8_t *bytes = copied(kind->bytes, kind->len, behind);
    for (size_t i = 0; i < kind->header; i++) {
        uint8_t was = bytes[i];
        for (unsigned value = 0; value < 256; value++)
            sure_case = i, bytes[i] = (uint8_t)value, counted(kind, bytes, kind->len);
        bytes[i] = was;
    }
    uint32_t second = kind->second ? kind->second(bytes, kind->len) : 0;
    printf("%s: %u %u\n", kind->name, kind->first(bytes, kind->len), second);
}

static void number(uint8_t *at, size_t value) {
    for (int i = 0; i < 4; i++)
        at[i] = (uint8_t)(value >> (8 * i));
}

/* A rule table's and a branch table's states, of headers that are exact but for their limits. */
static void table_limits(uint8_t *big, size_t s, size_t k) {
    number(big, s), number(big + 4, k), number(big + 8, 20), number(big + 12, 20 + k);
    number(big + 16, 20 + k + s * k * s);
    uint32_t of_table = whatif_rules_states(big, WHATIF_RULES_BYTES(s, k));
    number(big + 8, 16), number(big + 12, 16 + s * k);
    uint32_t of_word = whatif_branch_states(big, WHATIF_BRANCH_BYTES(s, k));
    printf("%zu states, %zu labels: %u %u\n", s, k, of_table, of_word);
}

/* The least and the greatest counts, and those beyond, with everything else exact. */
static void limits(void) {
    static uint8_t big[WHATIF_PLAN_BYTES(WHATIF_MAX_NODES + 1u)];
    for (size_t n = WHATIF_MAX_NODES; n <= WHATIF_MAX_NODES + 1u; n++) {
        number(big, n), number(big + 4, 12), number(big + 8, 12 + n);
        printf("%zu nodes: %u\n", n, whatif_plan_nodes(big, WHATIF_PLAN_BYTES(n)));
    }
    for (size_t n = WHATIF_MAX_PLANNER_NODES; n <= WHATIF_MAX_PLANNER_NODES + 1u; n++) {
        number(big, n), number(big + 8, 12 + n);
        memset(big + 12, 0, n), memset(big + 12 + n, 1, n - 1), big[12 + 2 * n - 1] = 0;
        size_t len = WHATIF_PLANNER_BYTES(n);
        printf("%zu planner nodes: %u, library %u\n", n, whatif_planner_nodes(big, len), of_file(big, len));
    }
    static const size_t states[] = {0, 1, 16, 17}, labels[] = {0, 1, 64, 65};
    for (size_t i = 0; i < 16; i++)
        table_limits(big, states[i / 4], labels[i % 4]);
    sure(whatif_number((const uint8_t[]){1, 2, 3, 4}) == 0x04030201u, "a number is little-endian");
}

/* A writer's answer; what it wrote, with three bytes of excess that stay, or all as it was. */
static void wrote(uint32_t answer, const uint8_t *out, size_t len, const uint8_t *wanted, size_t wanted_len) {
    size_t written = answer == WHATIF_ACCEPTED ? wanted_len : 0;
    sure(written <= len && (written == 0 || memcmp(out, wanted, written) == 0), "what is accepted is written");
    for (size_t i = written; i < len; i++)
        sure(out[i] == 77, "nothing else is written");
}

/* The plan that these kinds would be, as bytes written here. */
static size_t plan_by_hand(uint8_t *to, const uint8_t *labels, const uint8_t *kinds, size_t n) {
    number(to, n), number(to + 4, 12), number(to + 8, 12 + n);
    memcpy(to + 12, labels, n), memcpy(to + 12 + n, kinds, n);
    return WHATIF_PLAN_BYTES(n);
}

/* All kinds 0, 1 and 2 of up to nine nodes: accepted exactly where the library takes the plan. */
static void plans(int behind) {
    static const uint8_t labels[MOST_KINDS] = {1, 0, 1, 1, 0, 1, 0, 0, 1};
    uint8_t kinds[MOST_KINDS], by_hand[WHATIF_PLAN_BYTES(MOST_KINDS)];
    size_t trees = 0, all = 0, count = 1;
    for (size_t n = 1; n <= MOST_KINDS; n++) {
        count *= 3;
        uint8_t *out = guarded(WHATIF_PLAN_BYTES(n) + EXCESS, behind);
        const uint8_t *exact = copied(labels, n, behind);
        for (size_t code = 0; code < count; code++, all++) {
            for (size_t v = 0, rest = code; v < n; v++, rest /= 3)
                kinds[v] = (uint8_t)(rest % 3);
            size_t len = plan_by_hand(by_hand, labels, kinds, n);
            memset(out, 77, len + EXCESS);
            sure_case = code;
            uint32_t answer = whatif_write_plan(exact, n, kinds, n, out, len + EXCESS);
            uint32_t taken = of_plan(by_hand, len);
            wrote(answer, out, len + EXCESS, by_hand, len);
            sure(answer == taken, "whatif_write_plan refuses what the library refuses");
            trees += answer == WHATIF_ACCEPTED;
        }
    }
    printf("%zu lists of kinds: %zu plans\n", all, trees);
}

static void refused_plans(int behind) {
    const uint8_t *labels = copied(plan + 12, SAMPLE_NODES, behind), *kinds = copied(plan + 19, SAMPLE_NODES, behind);
    uint8_t *out = guarded(sizeof plan, behind);
    static uint8_t many[WHATIF_MAX_NODES + 1u];
    printf("write_plan: %u", whatif_write_plan(NULL, 0, NULL, 0, out, sizeof plan));
    printf(" %u", whatif_write_plan(many, sizeof many, many, sizeof many, out, sizeof plan));
    printf(" %u", whatif_write_plan(labels, SAMPLE_NODES, kinds, SAMPLE_NODES - 1, out, sizeof plan));
    printf(" %u", whatif_write_plan(labels, SAMPLE_NODES - 1, kinds, SAMPLE_NODES - 1, out, sizeof plan));
    printf(" %u", whatif_write_plan(labels, SAMPLE_NODES, kinds, SAMPLE_NODES, out, sizeof plan - 1));
    wrote(1, out, sizeof plan, NULL, 0);
    printf(" %u\n", whatif_write_plan(labels, SAMPLE_NODES, kinds, SAMPLE_NODES, out, sizeof plan));
    wrote(0, out, sizeof plan, plan, sizeof plan);
}

/* Table A from its parts; each entry at its limit; each count and length one off. */
static void rule_tables(int behind) {
    enum { K = 2, S = 2, INNER = S * K * S };
    uint8_t *leaf = copied(rules + 20, K, behind), *inner = copied(rules + 22, INNER, behind);
    uint8_t *marks = copied(rules + 30, S, behind), *out = guarded(sizeof rules + EXCESS, behind);
    uint8_t *parts[] = {leaf, inner, marks};
    const size_t lens[] = {K, INNER, S};
    for (size_t part = 0; part < 3; part++)
        for (size_t i = 0; i < lens[part]; i++) {
            uint8_t was = parts[part][i];
            parts[part][i] = 2, sure_case = i;
            sure(whatif_write_rules(leaf, K, inner, INNER, marks, S, out, sizeof rules) == WHATIF_REFUSED_TABLE_ENTRY,
                 "a state or mark of 2 is refused with 9");
            parts[part][i] = was;
        }
    printf("write_rules: %u", whatif_write_rules(NULL, 0, inner, 0, marks, S, out, sizeof rules));
    printf(" %u", whatif_write_rules(leaf, K, inner, 0, NULL, 0, out, sizeof rules));
    printf(" %u", whatif_write_rules(leaf, 65, inner, INNER, marks, S, out, sizeof rules));
    printf(" %u", whatif_write_rules(leaf, K, inner, INNER, marks, 17, out, sizeof rules));
    printf(" %u", whatif_write_rules(leaf, K, inner, INNER - 1, marks, S, out, sizeof rules));
    printf(" %u", whatif_write_rules(leaf, K, inner, INNER, marks, S, out, sizeof rules - 1));
    wrote(1, out, sizeof rules + EXCESS, NULL, 0);
    printf(" %u\n", whatif_write_rules(leaf, K, inner, INNER, marks, S, out, sizeof rules + EXCESS));
    wrote(0, out, sizeof rules + EXCESS, rules, sizeof rules);
}

static void branch_tables(int behind) {
    enum { K = 2, S = 3, STEPS = S * K };
    uint8_t *steps = copied(branch + 16, STEPS, behind), *marks = copied(branch + 22, S, behind);
    uint8_t *out = guarded(sizeof branch + EXCESS, behind);
    for (size_t i = 0; i < STEPS + S; i++) {
        uint8_t *entry = i < STEPS ? steps + i : marks + i - STEPS, was = *entry;
        *entry = i < STEPS ? S : 2, sure_case = i;
        sure(whatif_write_branch(steps, STEPS, marks, S, out, sizeof branch) == WHATIF_REFUSED_TABLE_ENTRY,
             "a state of S or a mark of 2 is refused with 9");
        *entry = was;
    }
    printf("write_branch: %u", whatif_write_branch(steps, STEPS, NULL, 0, out, sizeof branch));
    printf(" %u", whatif_write_branch(NULL, 0, marks, S, out, sizeof branch));
    printf(" %u", whatif_write_branch(steps, STEPS, marks, 17, out, sizeof branch));
    printf(" %u", whatif_write_branch(steps, (size_t)65 * S, marks, S, out, sizeof branch));
    printf(" %u", whatif_write_branch(steps, STEPS - 1, marks, S, out, sizeof branch));
    printf(" %u", whatif_write_branch(steps, STEPS, marks, S, out, sizeof branch - 1));
    wrote(1, out, sizeof branch + EXCESS, NULL, 0);
    printf(" %u\n", whatif_write_branch(steps, STEPS, marks, S, out, sizeof branch + EXCESS));
    wrote(0, out, sizeof branch + EXCESS, branch, sizeof branch);
}

int main(void) {
    for (int behind = 0; behind < 2; behind++) {
        for (size_t i = 0; i < sizeof kinds_of / sizeof *kinds_of; i++)
            counts(&kinds_of[i], behind);
        plans(behind), refused_plans(behind), rule_tables(behind), branch_tables(behind);
    }
    limits();
    return sure_failed != 0;
}
