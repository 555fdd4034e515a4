/*
 * A planner's file out to our plan and home again, and what is refused. What it prints is held to planner.expected.
 */
#include "whatif.h"

#include <stdio.h>
#include <string.h>

/* A node with label 5 over two with labels 6 and 7; the first of these has a child with label 8. */
#define NODES 4
static const uint8_t file[] = {NODES, 0, 0, 0, 12, 0, 0, 0, 16, 0, 0, 0, 5, 6, 8, 7, 2, 1, 0, 0};

/* One more than is needed of each, which no call may touch. */
static uint8_t plan[WHATIF_PLANNER_PLAN_BYTES(NODES) + 1], home[WHATIF_PLANNER_BYTES(NODES) + 1];
static uint16_t places[NODES + 1];

static void print_bytes(const char *name, const uint8_t *from, size_t count) {
    printf("%s", name);
    for (size_t i = 0; i < count; i++)
        printf(" %u", from[i]);
    printf("\n");
}

static void print_answer(const char *what, uint32_t answer) {
    printf("%s: %u: %s\n", what, answer, whatif_answer_text(answer));
}

static uint32_t go_out(const uint8_t *from, size_t len, size_t plan_len, size_t places_len) {
    return whatif_plan_of_planner(from, len, plan, plan_len, places, places_len);
}

static int kept(void) {
    for (size_t i = 0; i < sizeof plan; i++)
        if (plan[i] != 77)
            return 0;
    return places[0] == 7777;
}

static void refused_out(void) {
    uint8_t other[sizeof file];
    print_answer("a plan too short", go_out(file, sizeof file, sizeof plan - 2, NODES));
    print_answer("places too short", go_out(file, sizeof file, sizeof plan - 1, NODES - 1));
    print_answer("cut short", go_out(file, sizeof file - 1, sizeof plan, NODES));
    memcpy(other, file, sizeof other);
    other[13] = 63;
    print_answer("label 63, and too short", go_out(other, sizeof other, 0, 0));
    other[18] = 1;
    print_answer("a child too many, and label 63", go_out(other, sizeof other, 0, 0));
    printf("outputs %s\n", kept() ? "kept" : "WRITTEN");
}

static void refused_home(void) {
    print_answer("a file too short", whatif_planner_of_plan(plan, sizeof plan - 1, home, sizeof home - 2));
    plan[12]--;
    print_answer("a leaf with label 62", whatif_planner_of_plan(plan, sizeof plan - 1, home, sizeof home));
    printf("output %s\n", home[0] == 77 ? "kept" : "WRITTEN");
    plan[12]++;
}

int main(void) {
    const size_t nodes = 2 * NODES + 1;
    memset(plan, 77, sizeof plan), memset(home, 77, sizeof home);
    for (size_t i = 0; i <= NODES; i++)
        places[i] = 7777;
    refused_out();
    print_answer("out", go_out(file, sizeof file, sizeof plan, NODES + 1));
    print_bytes("labels", plan + 12, nodes);
    print_bytes("kinds", plan + 12 + nodes, nodes);
    printf("places %u %u %u %u\n", places[0], places[1], places[2], places[3]);
    refused_home();
    print_answer("home", whatif_planner_of_plan(plan, sizeof plan - 1, home, sizeof home));
    printf("the file %s\n", memcmp(home, file, sizeof file) == 0 ? "is the same" : "is ANOTHER");
    int excess = plan[sizeof plan - 1] == 77 && home[sizeof home - 1] == 77 && places[NODES] == 7777;
    printf("excess %s\n", excess ? "kept" : "WRITTEN");
    return 0;
}
