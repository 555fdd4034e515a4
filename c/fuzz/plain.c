/*
 * The tables of a plan and a rule table by document 01's definitions, each by its own sentence, one node after the other
 * (plain.h). Slow and plain: every map is worked out by going up from parent to parent.
 */
#include "plain.h"

#define MOST 32767u /* nodes: twice as many bytes as an input has at most */
#define NONE 65535u

static uint32_t left[MOST], right[MOST], parent[MOST], depth[MOST], size[MOST], jump[MOST];
static uint8_t state[MOST];

static const uint8_t *bytes_of(const struct lent *one) { return one->at; }

/* "An inner node takes the two trees last completed, the earlier as left child": whether one tree is left at the end. */
static int children_found(const uint8_t *kinds, uint32_t n) {
    static uint32_t completed[MOST];
    uint32_t count = 0;
    for (uint32_t v = 0; v < n; v++) {
        if (kinds[v] > 1 || (kinds[v] == 1 && count < 2))
            return 0;
        left[v] = right[v] = NONE;
        if (kinds[v] == 1) {
            right[v] = completed[--count];
            left[v] = completed[--count];
        }
        completed[count++] = v;
    }
    return count == 1;
}

static int plan_passes(const struct lent *plan) {
    uint32_t n = named(plan, 0);
    if (plan->count < 12 || n < 1 || n > MOST)
        return 0;
    return named(plan, 4) == 12 && named(plan, 8) == 12 + n && plan->count == 12 + 2 * (size_t)n &&
           children_found(bytes_of(plan) + 12 + n, n);
}

static int rules_pass(const struct lent *rules) {
    uint32_t s = named(rules, 0), k = named(rules, 4);
    if (rules->count < 20 || s < 1 || s > 16 || k < 1 || k > 64)
        return 0;
    uint32_t marks = 20 + k + s * k * s;
    if (named(rules, 8) != 20 || named(rules, 12) != 20 + k || named(rules, 16) != marks || rules->count != marks + s)
        return 0;
    for (uint32_t i = 20; i < marks; i++)
        if (bytes_of(rules)[i] >= s)
            return 0;
    for (uint32_t i = marks; i < marks + s; i++)
        if (bytes_of(rules)[i] > 1)
            return 0;
    return 1;
}

static uint8_t leaf_state(const struct lent *rules, uint8_t label) { return bytes_of(rules)[20 + label]; }

static uint8_t inner_state(const struct lent *rules, uint8_t p, uint8_t label, uint8_t q) {
    uint32_t s = named(rules, 0), k = named(rules, 4);
    return bytes_of(rules)[20 + k + (p * k + label) * s + q];
}

/* Sizes and states from the leaves up; parents, depths and jumps from the root down. */
static void definitions(const struct lent *plan, const struct lent *rules) {
    uint32_t n = named(plan, 0), root = n - 1;
    const uint8_t *labels = bytes_of(plan) + 12;
    parent[root] = jump[root] = root, depth[root] = 0;
    for (uint32_t v = 0; v < n; v++) {
        int is_leaf = left[v] == NONE;
        size[v] = is_leaf ? 1 : 1 + size[left[v]] + size[right[v]];
        state[v] = is_leaf ? leaf_state(rules, labels[v])
                           : inner_state(rules, state[left[v]], labels[v], state[right[v]]);
        if (!is_leaf)
            parent[left[v]] = parent[right[v]] = v;
    }
    for (uint32_t v = root; v-- > 0;) {
        uint32_t p = parent[v], j = jump[p], jj = jump[j];
        depth[v] = depth[p] + 1;
        jump[v] = depth[p] - depth[j] == depth[j] - depth[jj] ? jj : p;
    }
}

/* "for each state assumed at the node, the state that follows at its jump" */
static uint8_t state_at_jump(const struct lent *plan, const struct lent *rules, uint32_t v, uint8_t q) {
    const uint8_t *labels = bytes_of(plan) + 12;
    for (uint32_t x = v; x != jump[v]; x = parent[x]) {
        uint32_t p = parent[x];
        q = x == left[p] ? inner_state(rules, q, labels[p], state[right[p]])
                         : inner_state(rules, state[left[p]], labels[p], q);
    }
    return q;
}

int plainly_built(const struct lent *plan, const struct lent *rules, const struct lent *nodes,
                  const struct lent *states) {
    if (!plan_passes(plan) || !rules_pass(rules))
        return 0;
    uint32_t n = named(plan, 0), s = named(rules, 0), k = named(rules, 4);
    for (uint32_t v = 0; v < n; v++)
        if (bytes_of(plan)[12 + v] >= k)
            return 0;
    if (nodes->count < 4 * (size_t)n || states->count < ((size_t)s + 1) * n)
        return 0;
    definitions(plan, rules);
    for (uint32_t v = 0; v < n; v++) {
        const uint16_t *numbers = (const uint16_t *)nodes->at + 4 * (size_t)v;
        const uint8_t *row = bytes_of(states) + (s + 1) * (size_t)v;
        if (numbers[0] != parent[v] || numbers[1] != jump[v] || numbers[2] != depth[v] || numbers[3] != size[v])
            return 0;
        if (row[0] != state[v])
            return 0;
        for (uint32_t q = 0; q < s; q++)
            if (row[1 + q] != state_at_jump(plan, rules, v, (uint8_t)q))
                return 0;
    }
    return 1;
}
