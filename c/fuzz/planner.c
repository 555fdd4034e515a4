/* The calls on planner's files, on whatever an input lends. */
#include "calls.h"
#include "whatif.h"

#include <string.h>

/* Each planner's node is an inner node of the plan at the place told, with its own label. */
static void at_their_places(const struct lent *file, const struct lent *plan, const struct lent *places, size_t n) {
    const uint8_t *labels = (const uint8_t *)file->at + 12, *nodes = (const uint8_t *)plan->at + 12;
    const uint16_t *told_places = places->at;
    for (size_t v = 0; v < n; v++) {
        sure(told_places[v] < 2 * n + 1, "a place is a node of the plan");
        sure(nodes[told_places[v]] == labels[v], "a node has its label at the place told");
        sure(nodes[2 * n + 1 + told_places[v]] == 1, "a planner's node is an inner node");
    }
}

/* The plan goes home, as these bytes. */
static void goes_home(const struct lent *plan, size_t plan_len, const struct lent *file, size_t file_len) {
    struct lent home = lend_filled(file_len, 1, 0x55);
    sure(whatif_planner_of_plan(plan->at, plan_len, LENT(home)) == WHATIF_ACCEPTED, "what went out goes home");
    sure(memcmp(home.at, file->at, file_len) == 0, "out and home restores the file");
    give_back_last(1);
}

uint32_t try_plan_of_planner(struct input *in) {
    struct lent file = lend(in, 1);
    struct lent plan = lend_filled(take(in, 2), 1, 0x77), places = lend_filled(take(in, 2), 2, 0x77);
    uint32_t answer = whatif_plan_of_planner(LENT(file), LENT(plan), LENT(places));
    held(&file, 0, "the planner's file stays");
    if (answer != WHATIF_ACCEPTED) {
        held(&plan, 0, "a refused call writes no plan");
        held(&places, 0, "a refused call writes no place");
        return answer;
    }
    size_t n = named(&file, 0), plan_len = WHATIF_PLANNER_PLAN_BYTES(n);
    sure(file.count == WHATIF_PLANNER_BYTES(n) && n <= WHATIF_MAX_PLANNER_NODES, "an accepted file is exact");
    sure(plan_len <= plan.count && n <= places.count, "an accepted call has room");
    held(&plan, plan_len, "the plan's excess stays");
    held(&places, n, "the places' excess stays");
    at_their_places(&file, &plan, &places, n);
    goes_home(&plan, plan_len, &file, file.count);
    return answer;
}

/* The file goes out, as this plan. */
static void goes_out(const struct lent *file, size_t file_len, const struct lent *plan, size_t n) {
    struct lent again = lend_filled(plan->count, 1, 0x55), places = lend_filled(n, 2, 0x55);
    uint32_t answer = whatif_plan_of_planner(file->at, file_len, LENT(again), LENT(places));
    sure(answer == WHATIF_ACCEPTED, "what went home goes out");
    sure(memcmp(again.at, plan->at, plan->count) == 0, "home and out restores the plan");
    give_back_last(2);
}

uint32_t try_planner_of_plan(struct input *in) {
    struct lent plan = lend(in, 1);
    struct lent file = lend_filled(take(in, 2), 1, 0x77);
    uint32_t answer = whatif_planner_of_plan(LENT(plan), LENT(file));
    held(&plan, 0, "the plan stays");
    if (answer != WHATIF_ACCEPTED) {
        held(&file, 0, "a refused call writes no file");
        return answer;
    }
    size_t n = named(&plan, 0) / 2, file_len = WHATIF_PLANNER_BYTES(n);
    sure(plan.count == WHATIF_PLANNER_PLAN_BYTES(n) && file_len <= file.count, "an accepted plan is exact, with room");
    held(&file, file_len, "the file's excess stays");
    goes_out(&file, file_len, &plan, n);
    return answer;
}
