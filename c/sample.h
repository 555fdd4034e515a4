/* Document 01's sample: plan A, table A and the nine questions of its clearance. */
#ifndef SAMPLE_H
#define SAMPLE_H

#include "whatif.h"

/* Plan A: nodes 0 and 1 below 2, nodes 3 and 4 below 5, nodes 2 and 5 below the root 6. */
static const uint8_t plan[] = {7, 0, 0, 0, 12, 0, 0, 0, 19, 0, 0, 0, 1, 1, 1, 0, 1, 0, 1, 0, 0, 1, 0, 0, 1, 1};
/* Table A: label 0 takes the greater state of two children, label 1 the lesser; state 1 is marked. */
static const uint8_t rules[] = {2, 0,  0, 0, 2, 0, 0, 0, 20, 0, 0, 0, 22, 0, 0, 0,
                                30, 0, 0, 0, 0, 1, 0, 1, 0,  0, 1, 1, 0,  1, 0, 1};
/* A branch table: state 0 until a label 1 was read, then 1, and 2 once a label 0 came after it; state 2 is marked. */
static const uint8_t branch[] = {3, 0, 0, 0, 2, 0, 0, 0, 16, 0, 0, 0, 22, 0, 0, 0, 0, 1, 2, 1, 2, 2, 0, 0, 1};

#define SAMPLE_NODES 7
#define SAMPLE_STATES 2
#define SAMPLE_BRANCH_STATES 3

/* Node nodes[i] takes labels[i], for each of m. */
struct question {
    size_t m;
    uint16_t nodes[3];
    uint8_t labels[3];
};

#define QUESTIONS 9
static const struct question questions[QUESTIONS] = {
    {0, {0}, {0}},       {1, {0}, {0}}, {2, {0, 2}, {0, 0}}, {2, {0, 3}, {0, 1}},
    {1, {4}, {0}},       {1, {6}, {0}}, {1, {7}, {0}},       {1, {0}, {2}},
    {2, {0, 0}, {0, 1}},
};

/* No change is an empty list, which may be NULL. */
#define NODES_OF(question) ((question)->m ? (question)->nodes : NULL), (question)->m
#define LABELS_OF(question) ((question)->m ? (question)->labels : NULL), (question)->m

#endif
