/*
 * What a fuzz input may ask for. Its first byte says which, in this order; its second whether the buffers lie behind a
 * page that must not be touched, or before one. The rest is as each function reads it: a lent slice is a 16-bit count
 * and its elements, a table that the call writes a 16-bit count alone.
 */
#ifndef FUZZ_CALLS_H
#define FUZZ_CALLS_H

#include "lent.h"

/* The exported calls that are tried one by one: an input's first byte, its constant, the call's name, the folder of its
 * seeds, and the answers that it may give, as bits. Seeds hold the numbers: a call keeps its own, and a new one gets the
 * next. */
/* tries: generated from interface.txt by tools/interface */
#define CALL_TRIES(TRY) \
    TRY(0, BUILD, build, "build", 1u | FROM(2, 11)) \
    TRY(1, CHECK, check, "check", 1u | FROM(2, 11)) \
    TRY(2, FRESH_RUN, fresh_run, "fresh-run", 1u | FROM(2, 10) | FROM(12, 14)) \
    TRY(3, BRANCH_BUILD, branch_build, "branch-build", 1u | FROM(2, 11)) \
    TRY(4, BRANCH_CHECK, branch_check, "branch-check", 1u | FROM(2, 11)) \
    TRY(5, BRANCH, branch, "branch", 1u | FROM(13, 13) | FROM(16, 18)) \
    TRY(6, LOAD, load, "load", FROM(0, 11)) \
    TRY(7, START, start, "start", FROM(0, 1) | FROM(12, 14) | FROM(17, 18)) \
    TRY(8, ADVANCE, advance, "advance", FROM(0, 1) | FROM(17, 18)) \
    TRY(9, CANCEL, cancel, "cancel", FROM(0, 1)) \
    TRY(10, READ, read, "read", FROM(0, 1)) \
    TRY(13, MERGE, merge, "merge", 1u | FROM(6, 9) | FROM(11, 11) | FROM(23, 24)) \
    TRY(14, AGREE, agree, "agree", 1u | FROM(6, 9) | FROM(11, 11) | FROM(23, 23)) \
    TRY(15, PLAN_OF_PLANNER, plan_of_planner, "plan-of-planner", 1u | FROM(19, 21)) \
    TRY(16, PLANNER_OF_PLAN, planner_of_plan, "planner-of-plan", 1u | FROM(19, 19) | FROM(21, 21)) \
    TRY(17, LAY_OVER, lay_over, "lay-over", 1u | FROM(11, 12) | FROM(22, 22)) \
    TRY(18, COUNT, count, "count", 1u | FROM(11, 13) | FROM(15, 15) | FROM(17, 18) | FROM(26, 26)) \
    TRY(21, COLOUR_BRANCH_BUILD, colour_branch_build, "colour-branch-build", 1u | FROM(2, 11)) \
    TRY(22, COLOUR_BRANCH, colour_branch, "colour-branch", 1u | FROM(13, 13) | FROM(16, 18)) \
    TRY(23, COLOUR_BUILD, colour_build, "colour-build", 1u | FROM(2, 11) | FROM(27, 27)) \
    TRY(24, COLOUR_ASK, colour_ask, "colour-ask", 1u | FROM(12, 14) | FROM(17, 18) | FROM(27, 27)) \
    TRY(29, ASK, ask, "ask", 1u | FROM(12, 14) | FROM(17, 18)) \
    TRY(30, ALLOWED, allowed, "allowed", 1u | FROM(2, 11)) \
    TRY(31, CLEARING, clearing, "clearing", 1u | FROM(2, 11)) \
    TRY(32, FEWEST, fewest, "fewest", 1u | FROM(2, 11) | FROM(17, 17))
#define TRIES 33
#define MOST_REFUSAL 27
/* end of tries */

/* The same and whatever is more than one call. */
enum try {
#define TRY(number, constant, name, folder, answers) constant = number,
    CALL_TRIES(TRY)
#undef TRY
    QUESTION = 11,
    PANEL = 12,
    SCREEN = 19,
    SCREENS = 20,
    CONFIRM = 25,
    RECORD = 26,
    RUN = 27,
    WRITTEN = 28,
};

/* The steps of a list of calls, each a byte, then what it needs; any other byte is an advance too. */
enum step { DO_LOAD, DO_START, DO_CANCEL, DO_READ, DO_ALTER, DO_ADVANCE };

/* The calls of the eight screens, and the steps of a list of them; a deal with a number of its own; any other byte is a deal. */
enum screen_step { ON_LOAD, ON_START, ON_CANCEL, ON_READ, ON_ALTER, ON_NUMBER, ON_DEAL };

/* One exported call; its answer, as of each function here. In the file of its family: tables.c, session.c .. */
#define TRY(number, constant, name, folder, answers) uint32_t try_##name(struct input *in);
CALL_TRIES(TRY)
#undef TRY

/* A whole question from a fresh session on, held to a fresh run; the answer of Load, or else of Start. walks.c */
uint32_t try_question(struct input *in);
/* A list of calls from a fresh session on, with lent bytes altered between them; the last answer. walks.c */
uint32_t try_panel(struct input *in);

/* One call of the eight screens, and a list of them from a fresh run on. screens.c */
uint32_t try_screen(struct input *in);
uint32_t try_screens(struct input *in);

/* The functions that the header has by itself: the check before a cut, what a record and a run say, counts and writers.
 * inlines.c */
uint32_t try_confirm(struct input *in);
uint32_t try_record(struct input *in);
uint32_t try_run(struct input *in);
uint32_t try_written(struct input *in);

#endif
