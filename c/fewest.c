/*
 * The fewest changes: of the sample against all its relabellings, for every set of open nodes and every want; of a comb
 * where 63 to 66 changes are needed, or more than it has nodes to change; and each refusal. Every buffer ends at a page
 * that must not be touched, or begins behind one. What it prints is compared with fewest.expected.
 */
#define _DEFAULT_SOURCE
#include "guarded.h"
#include "sample.h"
#include "sure.h"

enum { N = SAMPLE_NODES, WORK = WHATIF_FEWEST_WORK(N, SAMPLE_STATES), ROOM = WHATIF_MAX_CHANGES, EXCESS = 3 };
#define UNSET 0x4d4d4d4du /* four bytes of 77 */

/* What a call is given, and what it wrote. */
struct call {
    uint8_t *plan, *rules;
    size_t plan_len, rules_len, may_len, work_len, nodes_len, labels_len;
    uint64_t *may;
    uint32_t *work, least, count;
    uint16_t *nodes;
    uint8_t *labels;
};

static struct call prepared(const void *plan_bytes, size_t plan_len, const void *rule_bytes, size_t rules_len,
                            size_t work_len, int behind) {
    struct call call = {copied(plan_bytes, plan_len, behind), copied(rule_bytes, rules_len, behind), plan_len,
                        rules_len, 0, work_len, ROOM, ROOM, NULL, guarded(4 * work_len, behind), UNSET, UNSET,
                        guarded(2 * ROOM, behind), guarded(ROOM, behind)};
    return call;
}

static uint32_t made(struct call *c, uint32_t want) {
    c->least = c->count = UNSET;
    memset(c->work, 77, 4 * c->work_len), memset(c->nodes, 77, 2 * c->nodes_len), memset(c->labels, 77, c->labels_len);
    return whatif_fewest(c->plan, c->plan_len, c->rules, c->rules_len, c->may, c->may_len, want, c->work, c->work_len,
                         c->nodes, c->nodes_len, c->labels, c->labels_len, &c->least, &c->count);
}

/* Everything from these elements on is as it was. */
static int kept(const struct call *c, size_t work, size_t entries) {
    int same = 1;
    for (size_t i = work; i < c->work_len; i++)
        same &= c->work[i] == UNSET;
    for (size_t i = entries; i < c->nodes_len; i++)
        same &= c->nodes[i] == (UNSET & 0xffff);
    for (size_t i = entries; i < c->labels_len; i++)
        same &= c->labels[i] == 77;
    return same;
}

/* The sample's plan, with other labels. */
static uint8_t tried[sizeof plan];

static uint32_t cleared_with(const uint16_t *nodes, const uint8_t *labels, size_t m) {
    uint32_t state, yes = 9;
    uint32_t answer = whatif_fresh_run(tried, sizeof tried, rules, sizeof rules, nodes, m, labels, m, &state, &yes);
    sure(answer == WHATIF_ACCEPTED, "a fresh run");
    return yes;
}

/* The least number of changes by trying all labels of the open nodes; WHATIF_NO_WAY where none does it. */
static uint32_t by_trying(unsigned open, uint32_t yes) {
    uint32_t least = WHATIF_NO_WAY;
    for (unsigned choice = 0; choice < 1u << N; choice++) {
        uint16_t nodes[N];
        uint8_t labels[N];
        size_t m = 0;
        for (uint16_t v = 0; v < N; v++)
            if (choice >> v & 1)
                nodes[m] = v, labels[m++] = tried[12 + v] ^ 1u;
        if ((choice & ~open) == 0 && m < least && cleared_with(nodes, labels, m) == yes)
            least = (uint32_t)m;
    }
    return least;
}

/* An open node may take every label, or the other one alone; one that is not open none, or its own alone. */
static void set_labels(uint64_t *sets, unsigned open) {
    for (unsigned v = 0; v < N; v++) {
        uint64_t own = 1u << tried[12 + v], other = 2u >> tried[12 + v];
        sets[v] = open >> v & 1 ? (open & 1 ? ~(uint64_t)0 : other) : (open & 2 ? 0 : own);
    }
}

/* Each set of open nodes, and each want. */
static void sample_by_trying(const uint8_t *labels, int behind) {
    memcpy(tried, plan, sizeof plan), memcpy(tried + 12, labels, N);
    struct call c = prepared(tried, sizeof tried, rules, sizeof rules, WORK + EXCESS, behind);
    uint64_t *sets = c.may = guarded(8 * N, behind);
    size_t times[N + 1] = {0}, no_way = 0;
    c.may_len = N;
    for (unsigned code = 0; code < 3u << N; code++) {
        unsigned open = code / 3, want = code % 3;
        sure_case = code;
        set_labels(sets, open);
        sure(made(&c, want) == WHATIF_ACCEPTED, "it is accepted");
        uint32_t least = by_trying(open, want != 0);
        sure(c.least == least, "the number is the least of all relabellings");
        sure(c.count == (least == WHATIF_NO_WAY ? 0 : least), "they are listed");
        sure(kept(&c, WORK, c.count), "the excess stays");
        sure(c.count == 0 || cleared_with(c.nodes, c.labels, c.count) == (want != 0), "the list does it");
        for (uint32_t i = 0; i < c.count; i++)
            sure(open >> c.nodes[i] & 1 && (i == 0 || c.nodes[i - 1] < c.nodes[i]), "open nodes, rising");
        if (least == WHATIF_NO_WAY)
            no_way++;
        else
            times[least]++;
    }
    printf("sample:");
    for (size_t least = 0; least <= N; least++)
        if (times[least] > 0)
            printf(" %zu times %zu,", times[least], least);
    printf(" %zu times no way\n", no_way);
}

/* A comb whose leaves must all have label 1: as many changes as it has leaves with label 0. */
static void comb(size_t leaves, size_t wrong, int behind) {
    static const uint8_t leaf[] = {0, 1}, marks[] = {0, 1}, inner[2][2][2] = {{{0, 0}, {0, 0}}, {{0, 1}, {0, 1}}};
    size_t n = 2 * leaves - 1, work = WHATIF_FEWEST_WORK(n, 2);
    uint8_t labels[199], kinds[199], bytes[WHATIF_PLAN_BYTES(199)] = {0}, table[WHATIF_RULES_BYTES(2, 2)] = {0};
    for (size_t v = 0; v < n; v++)
        kinds[v] = v > 0 && v % 2 == 0, labels[v] = kinds[v] || (v + 1) / 2 >= wrong;
    uint32_t refused = whatif_write_plan(labels, n, kinds, n, bytes, WHATIF_PLAN_BYTES(n)) |
                       whatif_write_rules(leaf, 2, &inner[0][0][0], 8, marks, 2, table, sizeof table);
    struct call c = prepared(bytes, WHATIF_PLAN_BYTES(n), table, sizeof table, work, behind);
    sure_case = wrong;
    sure(!refused && made(&c, 1) == WHATIF_ACCEPTED && kept(&c, work, c.count), "a comb");
    for (uint32_t i = 0; i < c.count; i++)
        sure(c.labels[i] == 1 && c.nodes[i] == (i == 0 ? 0 : 2 * i - 1), "the wrong leaves are listed");
    printf("comb of %zu leaves, %zu wrong: %u, listed %u\n", leaves, wrong, c.least, c.count);
    uint64_t *sets = c.may = guarded(8 * n, behind);
    memset(sets, 0, 8 * n), c.may_len = n;
    sure(made(&c, 1) == WHATIF_ACCEPTED && kept(&c, work, 0), "with nothing open");
    printf("with nothing open: %u, listed %u\n", c.least, c.count);
}

static void refused(const char *why, struct call *c) {
    uint32_t answer = made(c, 1);
    int same = kept(c, 0, 0) && c->least == UNSET && c->count == UNSET;
    printf("%s: %u, %s\n", why, answer, same ? "kept" : "WRITTEN");
}

/* The last checks in their order, each with all that come after it. */
static void refusals(int behind) {
    struct call c = prepared(plan, sizeof plan, rules, sizeof rules, WORK, behind);
    c.labels_len = ROOM - 1, refused("labels one too short", &c);
    c.labels_len = ROOM, c.nodes_len = ROOM - 1, refused("nodes one too short", &c);
    c.nodes_len = ROOM, c.work_len = WORK - 1, refused("work one too short", &c);
    uint64_t *sets = c.may = guarded(8 * (N + 1), behind);
    memset(sets, 0, 8 * (N + 1));
    c.may_len = 1, refused("one set, and work too short", &c);
    c.may_len = N - 1, refused("a set too few", &c);
    c.may_len = N + 1, refused("a set too many", &c);
    c.plan[12] = 2, refused("a label that is none", &c);
    c.rules[sizeof rules - 1] = 2, refused("a mark that is none", &c);
    c.plan_len = 0, refused("no plan", &c);
}

int main(void) {
    /* as it is; with label 0 at every leaf, and 1 above; with label 0 everywhere */
    static const uint8_t labels[3][N] = {{1, 1, 1, 0, 1, 0, 1}, {0, 0, 1, 0, 0, 1, 1}, {0}};
    for (int behind = 0; behind < 2; behind++) {
        for (size_t i = 0; i < 3; i++)
            sample_by_trying(labels[i], behind);
        comb(1, 0, behind), comb(1, 1, behind), comb(63, 63, behind), comb(70, 64, behind), comb(70, 65, behind);
        comb(100, 100, behind);
        refusals(behind);
    }
    return sure_failed != 0;
}
