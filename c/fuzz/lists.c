/* One list of changes laid over another, on whatever an input lends. */
#include "calls.h"
#include "whatif.h"

/* Where the last entry for a node is; the length where there is none. */
static size_t last_of(const struct lent *nodes, uint16_t node) {
    const uint16_t *at = nodes->at;
    size_t i = nodes->count;
    while (i > 0 && at[i - 1] != node)
        i--;
    return i > 0 ? i - 1 : nodes->count;
}

static int among(const uint16_t *nodes, size_t count, uint16_t node) {
    for (size_t i = 0; i < count; i++)
        if (nodes[i] == node)
            return 1;
    return 0;
}

static void all_remain(const struct lent *listed, const uint16_t *nodes, size_t count) {
    for (size_t i = 0; i < listed->count; i++)
        sure(among(nodes, count, ((const uint16_t *)listed->at)[i]), "every node listed remains");
}

uint32_t try_lay_over(struct input *in) {
    struct lent lower = lend(in, 2), lower_labels = lend(in, 1), upper = lend(in, 2), upper_labels = lend(in, 1);
    size_t room = take(in, 2);
    struct lent nodes = lend_filled(room, 2, 0x77), labels = lend_filled(take(in, 2), 1, 0x77);
    uint32_t count = UNSET;
    uint32_t answer = whatif_lay_over(LENT(lower), LENT(lower_labels), LENT(upper), LENT(upper_labels), LENT(nodes),
                                      LENT(labels), &count);
    told(answer, &count, 1);
    held(&lower, 0, "the lower list stays");
    held(&lower_labels, 0, "the lower list's labels stay");
    held(&upper, 0, "the upper list stays");
    held(&upper_labels, 0, "the upper list's labels stay");
    size_t remain = answer == WHATIF_ACCEPTED ? count : 0;
    sure(remain <= WHATIF_MAX_CHANGES && remain <= nodes.count && remain <= labels.count, "what remains fits");
    held(&nodes, remain, "the rest of the nodes stays");
    held(&labels, remain, "the rest of the labels stays");
    if (answer != WHATIF_ACCEPTED)
        return answer;
    const uint16_t *node = nodes.at;
    for (size_t i = 0; i < remain; i++) {
        sure(i == 0 || node[i - 1] < node[i], "the nodes rise");
        size_t above = last_of(&upper, node[i]), below = last_of(&lower, node[i]);
        sure(above < upper.count || below < lower.count, "a node that remains is listed");
        const uint8_t *from = above < upper.count ? upper_labels.at : lower_labels.at;
        uint8_t label = from[above < upper.count ? above : below];
        sure(((const uint8_t *)labels.at)[i] == label, "the upper list's last label, else the lower's");
    }
    all_remain(&lower, node, remain);
    all_remain(&upper, node, remain);
    return answer;
}
