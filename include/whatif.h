/*
 * whatif.h: the what-if checker for C and C++.
 *
 * Order: version, limits, sizes, answers. The functions of the library: tables and fresh runs, branch questions, counts
 * of choices, two rule tables, the planner's files, the panel session, eight screens, colours. Then what is written
 * here alone, for safe use: counts and writers, what a record says, structs for inputs and outputs, the current answer,
 * the check before a cut, texts, damaged records.
 * The bytes of plans, tables and records are in LAYOUT.md, the order of the checks of each call in REFUSALS.md: both
 * stand in docs/ of the sources, and beside this file where it is installed.
 *
 * Which call when:
 *
 *     one verdict, now, without tables           whatif_fresh_run
 *     a question to watch and to cancel          whatif_load, whatif_start, whatif_advance, whatif_cancel: the session
 *     its answer on the screen                   whatif_read_current
 *     the last answer again, after a Cancel      whatif_read
 *     before a blank is cut                      whatif_confirm
 *     up to eight panels on one mill             whatif_screens_load and the four beside it
 *     many questions, up to 4 states             whatif_colour_build once, then whatif_colour_ask
 *     the labels along one path                  whatif_branch_build once, then whatif_branch
 *     many questions, any number of states       whatif_build once, then whatif_ask
 *     which labels would do, at each node        whatif_allowed; why: whatif_clearing
 *     the least that must change                 whatif_fewest
 *     how many choices of labels clear a plan    whatif_build once, then whatif_count
 *     two rule tables joined, or compared        whatif_merge, whatif_agree
 *     a bridge planner's file                    whatif_plan_of_planner, whatif_planner_of_plan
 *
 * On a full arch of 61,471 nodes Load and Start take less than a millisecond each: every Start checks all that is
 * passed in. A fresh run takes a fraction of that, an advance less than a microsecond. A question by colours takes some
 * microseconds, after a build of some milliseconds, and checks only what it reads.
 *
 * Link with libwhatif.a or, where it is installed, with libwhatif.so (x86-64 Linux). The library never allocates, keeps
 * nothing between calls and is re-entrant: any number of threads may call it at once, each with buffers that no other
 * thread writes during the call.
 * Stack of a call, as measured on plans of 65,535 nodes and the largest tables: a fresh run at most 40 KiB, a count of
 * choices at most 35 KiB, agreement of two rule tables at most 12 KiB, a Start, which makes the full check, at most
 * 10 KiB, the full check of a rule table's tables at most 8 KiB, a build at most 5 KiB, any other call of the session
 * or of the screens at most 4 KiB, a branch table's full check, a whole question or a question of changes by colours at
 * most 3 KiB, any other at most 1 KiB. A function that is written here needs the stack of the calls that it makes, and
 * at most 2 KiB more. Not counted is what the loader needs where it binds memcpy or memset at its first use: some 3 KiB
 * once, and nothing in programs linked with -z now.
 *
 * What holds for every function:
 * - A slice is a pointer, then its count of elements (not bytes).
 * - What is `const` is only read. What is not is written as its comment says, and nowhere else.
 * - No two buffers of one call overlap, unless both are only read. Out values overlap nothing.
 * - 16-bit buffers are aligned to 2, 32-bit ones and out values to 4, 64-bit ones to 8. No pointer is NULL, save that
 *   an empty slice (count 0) may have any pointer, NULL too: nothing is read or written through it.
 * - The answer is WHATIF_ACCEPTED or the number of the first check that says no.
 * - A refused call has changed nothing: every buffer and every out value holds what it held. This is proved.
 * - Whatever bytes are lent, a call ends and stays inside the lent buffers. This is proved too.
 * - The library can't see whether a pointer and its count are right. That is the caller's part.
 */
#ifndef WHATIF_H
#define WHATIF_H

#include <stddef.h>
#include <stdint.h>

/* The library is for x86-64: a caller that would not link, or would read its numbers otherwise, stops here. */
#if UINTPTR_MAX != 0xffffffffffffffffu || SIZE_MAX != 0xffffffffffffffffu
#error "whatif.h: the library is 64-bit; compile for a target with 64-bit pointers and sizes, without -m32 or -mx32."
#endif
#if defined __BYTE_ORDER__ && __BYTE_ORDER__ != __ORDER_LITTLE_ENDIAN__
#error "whatif.h: the library is little-endian; compile for a little-endian target."
#endif

/* The compiler warns where the result of such a function is not used. A refused call has written no output, so a
 * caller that does not look at the answer goes on with what it had. */
#if defined __GNUC__
#define WHATIF_NODISCARD __attribute__((warn_unused_result))
#elif (defined __cplusplus && __cplusplus >= 201703L) || (defined __STDC_VERSION__ && __STDC_VERSION__ >= 202311L)
#define WHATIF_NODISCARD [[nodiscard]]
#else
#define WHATIF_NODISCARD
#endif

#ifdef __cplusplus
extern "C" {
#endif

/* This header's version, as text and as major * 10000 + minor * 100 + patch. whatif_version() is the archive's. Semantic
 * versioning: an archive serves a program that was compiled with a header of the same major version that is not newer. */
#define WHATIF_VERSION "1.0.0"
#define WHATIF_VERSION_NUMBER 10000u

/* Limits: nodes of a plan (1 to), states and labels of a table (1 to), changes in a list (0 to). */
#define WHATIF_MAX_NODES 65535u
#define WHATIF_MAX_STATES 16u
#define WHATIF_MAX_LABELS 64u
#define WHATIF_MAX_CHANGES 64u
/* The most parts that a question can have: 4 x 64 - 2. */
#define WHATIF_MAX_PARTS 254u
/* The most lines of a separating plan: a line for each pair of states. */
#define WHATIF_MAX_LINES 256u
/* The most assignments that are counted: 10 to the power 18. */
#define WHATIF_MAX_ASSIGNMENTS 1000000000000000000u
/* The most states of a rule table by colours. */
#define WHATIF_MAX_COLOUR_STATES 4u
/* The greatest depth of a node, root 0. It follows from the limit on nodes and is no check of its own. */
#define WHATIF_MAX_DEPTH 32767u
/* The number that whatif_fewest writes where no relabelling does it: more than any plan has nodes. */
#define WHATIF_NO_WAY 65536u
/* The most nodes of a planner's file: its plan has twice as many and one. */
#define WHATIF_MAX_PLANNER_NODES 32767u

/* Sizes: bytes of a plan of n nodes, of a rule table and of a branch table of s states and k labels; elements of the
 * node table (uint16_t) and of the state table (uint8_t) for n nodes and s states. A plan, a rule table and a branch
 * table have exactly these bytes; the node table and the state table may be longer, and their excess is untouched.
 * An inner node has two children, so the n of a plan is odd. */
#define WHATIF_PLAN_BYTES(n) ((size_t)12 + (size_t)2 * (size_t)(n))
#define WHATIF_RULES_BYTES(s, k) ((size_t)20 + (size_t)(k) + (size_t)(s) * (size_t)(k) * (size_t)(s) + (size_t)(s))
#define WHATIF_BRANCH_BYTES(s, k) ((size_t)16 + (size_t)(s) * (size_t)(k) + (size_t)(s))
#define WHATIF_NODE_TABLE_LEN(n) ((size_t)4 * (size_t)(n))
#define WHATIF_STATE_TABLE_LEN(n, s) (((size_t)(s) + (size_t)1) * (size_t)(n))
/* Elements of the work space (uint32_t) of whatif_fewest for n nodes and s states. It may be longer. */
#define WHATIF_FEWEST_WORK(n, s) (((size_t)(s) + (size_t)1) * (size_t)(n))
/* Bytes of a planner's file of n nodes, and of its plan, which has 2n+1. */
#define WHATIF_PLANNER_BYTES(n) ((size_t)12 + (size_t)2 * (size_t)(n))
#define WHATIF_PLANNER_PLAN_BYTES(n) ((size_t)14 + (size_t)4 * (size_t)(n))
/* Elements of the colour tables, numbers (uint16_t) and bytes (uint8_t), for n nodes and a branch table of s states.
 * They may be longer, and their excess is untouched. With 16 states they take 144 bytes a node. */
#define WHATIF_COLOUR_BRANCH_NUMBERS(n, s) ((size_t)4 * (size_t)(n) * (size_t)(s))
#define WHATIF_COLOUR_BRANCH_BYTES(n, s) ((size_t)(n) * (size_t)(s))
/* The same for a rule table of s states, 1 to WHATIF_MAX_COLOUR_STATES. With 4 states they take 149 bytes a node. */
#define WHATIF_COLOUR_NUMBERS(n, s) (((size_t)4 * (size_t)(n)) << (s))
#define WHATIF_COLOUR_BYTES(n, s) ((size_t)(n) * ((size_t)(s) + (size_t)1) + ((size_t)(n) << (s)))

/* Bytes of a session's record, and the version of its layout. All zero is a fresh session. Records of different layout
 * versions differ in length: a record that was kept is one of this version where it has WHATIF_RECORD_BYTES bytes, and
 * one of another length is refused with 1. */
#define WHATIF_RECORD_BYTES 983u
#define WHATIF_RECORD_LAYOUT 3u
/* Screens on one mill, and bytes of their run: so many records, one after the other. All zero is fresh. */
#define WHATIF_SCREENS 8u
#define WHATIF_SCREENS_BYTES (WHATIF_SCREENS * WHATIF_RECORD_BYTES)

/* Answers. The numbers are fixed for good. */
enum whatif_answer {
    /* The call was accepted. */
    WHATIF_ACCEPTED = 0,
    /* The session is in a state in which this call may not be made, or its record is broken. */
    WHATIF_REFUSED_SESSION_STATE = 1,
    /* The plan has fewer than 12 bytes. */
    WHATIF_REFUSED_PLAN_SHORT = 2,
    /* The plan's node count is not 1 to 65,535. */
    WHATIF_REFUSED_NODE_COUNT = 3,
    /* The plan's offsets or its length are not exact. */
    WHATIF_REFUSED_PLAN_LAYOUT = 4,
    /* The plan's kinds are not those of one tree in post-order. */
    WHATIF_REFUSED_PLAN_TREE = 5,
    /* The rule table has fewer than 20 bytes, or the branch table fewer than 16. */
    WHATIF_REFUSED_TABLE_SHORT = 6,
    /* The table's count of states is not 1 to 16, or its count of labels not 1 to 64. */
    WHATIF_REFUSED_TABLE_COUNTS = 7,
    /* The table's offsets or its length are not exact. */
    WHATIF_REFUSED_TABLE_LAYOUT = 8,
    /* The table holds a state that it does not have, or a mark that is neither 0 nor 1. */
    WHATIF_REFUSED_TABLE_ENTRY = 9,
    /* The plan has a label that the table does not have. */
    WHATIF_REFUSED_PLAN_LABEL = 10,
    /* The node table, the state table or an output buffer is too short. */
    WHATIF_REFUSED_BUFFER_SHORT = 11,
    /* The list has more than 64 changes, or not as many labels as nodes. */
    WHATIF_REFUSED_LIST_LENGTH = 12,
    /* A node given is not one of the plan. */
    WHATIF_REFUSED_NODE = 13,
    /* A label given is not one of the table. */
    WHATIF_REFUSED_LABEL = 14,
    /* The list has a node twice. */
    WHATIF_REFUSED_NODE_TWICE = 15,
    /* The lower node is not at or below the upper node. */
    WHATIF_REFUSED_NOT_BELOW = 16,
    /* What is lent does not have the length that the counts of nodes, states and labels need. */
    WHATIF_REFUSED_LENT_LENGTH = 17,
    /* What Start is lent is not as built, or a value that another call reads leads outside or does not rise. */
    WHATIF_REFUSED_LENT_VALUE = 18,
    /* The planner's file is malformed, or the plan is not that of a planner's file. */
    WHATIF_REFUSED_PLANNER_FILE = 19,
    /* The planner's file has a label of 63 or more. */
    WHATIF_REFUSED_PLANNER_LABEL = 20,
    /* The planner's file has more than 32,767 nodes, or an output buffer is too short for it. */
    WHATIF_REFUSED_PLANNER_ROOM = 21,
    /* Of the two lists laid over one another more than 64 nodes would remain. */
    WHATIF_REFUSED_LAID_OVER = 22,
    /* The two rule tables do not have the same count of labels. */
    WHATIF_REFUSED_LABEL_COUNTS = 23,
    /* The product of the two rule tables' counts of states is above 16. */
    WHATIF_REFUSED_STATE_PRODUCT = 24,
    /* A screen's number or the one to try first is above 7, or the run is not as long as eight records. */
    WHATIF_REFUSED_SCREEN = 25,
    /* There are more than 10^18 assignments of labels to the nodes listed. */
    WHATIF_REFUSED_ASSIGNMENTS = 26,
    /* The rule table has more than 4 states, too many for colours. */
    WHATIF_REFUSED_COLOUR_STATES = 27
};

/* The archive's version, as WHATIF_VERSION_NUMBER is this header's. It is always answered; there is no refusal. */
WHATIF_NODISCARD
uint32_t whatif_version(void);

/*
 * Writes the tables of a plan and a rule table: those on which questions are answered.
 * Lent:    the plan and the rule table, read; node_table and state_table, written.
 * Written: the first WHATIF_NODE_TABLE_LEN(N) numbers of node_table (parent, jump, depth and size of the subtree, for
 *          each node) and the first WHATIF_STATE_TABLE_LEN(N, S) bytes of state_table (state in the run, then the
 *          map, for each node), N and S as the headers name them. The rest of a longer buffer is untouched.
 * Answers: WHATIF_ACCEPTED, or the first of 2, 3, 4, 5, 6, 7, 8, 9, 10, 11. Refused, both buffers are as they were.
 */
WHATIF_NODISCARD
uint32_t whatif_build(const uint8_t *plan, size_t plan_len, const uint8_t *rules, size_t rules_len,
                      uint16_t *node_table, size_t node_table_len, uint8_t *state_table, size_t state_table_len);

/*
 * Full check: are the lent tables what whatif_build writes for this plan and rule table?
 * Lent:    the plan, the rule table and both tables, read. The rest of a longer table is not looked at.
 * Written: *yes, 1 where every number and byte of the tables is what whatif_build writes, else 0.
 * Answers: WHATIF_ACCEPTED, or the first of 2, 3, 4, 5, 6, 7, 8, 9, 10, 11. A table too short is 11, never a no.
 *          Refused, *yes is as it was.
 */
WHATIF_NODISCARD
uint32_t whatif_check(const uint8_t *plan, size_t plan_len, const uint8_t *rules, size_t rules_len,
                      const uint16_t *node_table, size_t node_table_len, const uint8_t *state_table,
                      size_t state_table_len, uint32_t *yes);

/*
 * Fresh run: runs the rule table over the whole plan with some labels changed, without tables.
 * Lent:    the plan, the rule table and the list of changes, read: node nodes[i] takes labels[i]. nodes_len and
 *          labels_len are equal, 0 to 64. A node may be listed several times: its last entry holds. Where none is,
 *          the order of the list has no effect.
 * Written: *state, the root's state; *yes, 1 where that state's mark is 1, else 0.
 * Answers: WHATIF_ACCEPTED, or the first of 2, 3, 4, 5, 6, 7, 8, 9, 10, 12, 13, 14; each is put to the whole list as
 *          listed before the next. Refused, *state and *yes are as they were.
 */
WHATIF_NODISCARD
uint32_t whatif_fresh_run(const uint8_t *plan, size_t plan_len, const uint8_t *rules, size_t rules_len,
                          const uint16_t *nodes, size_t nodes_len, const uint8_t *labels, size_t labels_len,
                          uint32_t *state, uint32_t *yes);

/*
 * Ask: a whole question at once, outside the session: what would the plan's state be if node nodes[i] took labels[i],
 * for every i?
 * Lent:    the plan, the rule table, the tables of whatif_build and the list, read. N, S and K are those of the headers
 *          of the plan and the rule table. nodes_len and labels_len are equal, 0 to 64; of two entries for a node the
 *          last holds, and a node that ends with the label it has is no change, as in whatif_start.
 * Written: *state, the root's state; *yes, 1 where its mark is 1, else 0; *parts, *links and *passed: all five are those
 *          that whatif_read gives after a Start with this list and all its advances, on tables as built.
 * Answers: WHATIF_ACCEPTED, or the first of 17, 12, 13, 14, 18. 17 is given too where a header is cut short or names a
 *          number outside its limits. 18 is never given on tables as whatif_build wrote them for what is lent. On other
 *          tables the call ends as well, with 18 or an answer: unlike whatif_start it checks only what it reads.
 *          Refused, the five are as they were.
 */
WHATIF_NODISCARD
uint32_t whatif_ask(const uint8_t *plan, size_t plan_len, const uint8_t *rules, size_t rules_len,
                    const uint16_t *node_table, size_t node_table_len, const uint8_t *state_table,
                    size_t state_table_len, const uint16_t *nodes, size_t nodes_len, const uint8_t *labels,
                    size_t labels_len, uint32_t *state, uint32_t *yes, uint32_t *parts, uint32_t *links,
                    uint32_t *passed);

/*
 * Allowed labels: with which labels of each node, all other nodes as they are, is the plan cleared?
 * Lent:    the plan and the rule table, read; masks, written.
 * Written: masks[v] for each of the N nodes: bit a is 1 where the plan with node v alone relabelled to a is cleared, for
 *          every label a below K; the bits from K on are 0. So the bit of a node's own label is the plan's own verdict.
 *          The rest of a longer buffer is untouched.
 * Answers: WHATIF_ACCEPTED, or the first of 2, 3, 4, 5, 6, 7, 8, 9, 10, 11: 11 where masks is shorter than N. Refused,
 *          masks is as it was.
 */
WHATIF_NODISCARD
uint32_t whatif_allowed(const uint8_t *plan, size_t plan_len, const uint8_t *rules, size_t rules_len, uint64_t *masks,
                        size_t masks_len);

/*
 * Clearing states: with which states of each node's subtree, all else as it is, is the plan cleared?
 * Lent:    the plan and the rule table, read; sets, written.
 * Written: sets[v] for each of the N nodes: bit q is 1 where the plan is cleared with state q in the place of the
 *          subtree at v, for every state q below S; the bits from S on are 0. A label is allowed at a node where the
 *          state that it leads to there is one of these. The rest of a longer buffer is untouched.
 * Answers: WHATIF_ACCEPTED, or the first of 2, 3, 4, 5, 6, 7, 8, 9, 10, 11: 11 where sets is shorter than N. Refused,
 *          sets is as it was.
 */
WHATIF_NODISCARD
uint32_t whatif_clearing(const uint8_t *plan, size_t plan_len, const uint8_t *rules, size_t rules_len, uint16_t *sets,
                         size_t sets_len);

/*
 * Fewest changes: how many nodes must be relabelled at least so that the plan is cleared, or no longer is?
 * Lent:    the plan and the rule table, read. may, read: node v may take label a where bit a of may[v] is 1, and may
 *          always keep its own; bits from K on say nothing. may_len is N, or 0: then every node may take every label.
 *          want: 1 asks for a plan that is cleared, 0 for one that is not; any other number is read as 1. work,
 *          WHATIF_FEWEST_WORK(N, S) numbers of work space; nodes and labels, room for WHATIF_MAX_CHANGES each, written.
 * Written: *least, the least number over all relabellings that may permits, however many nodes they change. It is 0
 *          where the plan is as wanted already, and WHATIF_NO_WAY where no permitted relabelling does it. *count is
 *          *least where that is at most 64, else 0; the first *count entries of nodes, rising, each once, and of labels
 *          are changes that do it. Of several least lists any may be written. Numbers left in the work space mean
 *          nothing. Past these entries and past the work space nothing is touched.
 * Answers: WHATIF_ACCEPTED, or the first of 2, 3, 4, 5, 6, 7, 8, 9, 10, 17, 11: 17 where may_len is neither 0 nor N, 11
 *          where work, nodes or labels is too short. Refused, everything is as it was.
 *
 * Its time is at most in proportion to N x S x S x K. Where a single change may be enough, whatif_allowed answers
 * sooner. With want 0 and a plan that is cleared, *least wrong labels lose the clearance, and no fewer do.
 */
WHATIF_NODISCARD
uint32_t whatif_fewest(const uint8_t *plan, size_t plan_len, const uint8_t *rules, size_t rules_len,
                       const uint64_t *may, size_t may_len, uint32_t want, uint32_t *work, size_t work_len,
                       uint16_t *nodes, size_t nodes_len, uint8_t *labels, size_t labels_len, uint32_t *least,
                       uint32_t *count);

/*
 * Writes the tables of a plan and a branch table: those on which branch questions are answered.
 * Lent:    the plan and the branch table, read; node_table and state_table, written.
 * Written: as by whatif_build, the state of a node being the one after its label on the word from the root, and its
 *          map going from the state after the jump's label to the state after the node's.
 * Answers: WHATIF_ACCEPTED, or the first of 2, 3, 4, 5, 6, 7, 8, 9, 10, 11. Refused, both buffers are as they were.
 */
WHATIF_NODISCARD
uint32_t whatif_branch_build(const uint8_t *plan, size_t plan_len, const uint8_t *branch, size_t branch_len,
                             uint16_t *node_table, size_t node_table_len, uint8_t *state_table,
                             size_t state_table_len);

/*
 * Full check of branch tables: are the lent tables what whatif_branch_build writes for this plan and branch table?
 * Lent:    the plan, the branch table and both tables, read. The rest of a longer table is not looked at.
 * Written: *yes, 1 where every number and byte of the tables is what whatif_branch_build writes, else 0.
 * Answers: WHATIF_ACCEPTED, or the first of 2, 3, 4, 5, 6, 7, 8, 9, 10, 11. A table too short is 11, never a no.
 *          Refused, *yes is as it was.
 */
WHATIF_NODISCARD
uint32_t whatif_branch_check(const uint8_t *plan, size_t plan_len, const uint8_t *branch, size_t branch_len,
                             const uint16_t *node_table, size_t node_table_len, const uint8_t *state_table,
                             size_t state_table_len, uint32_t *yes);

/*
 * Branch question: the branch table reads the labels from below node `upper` down to node `lower`, from state 0 on: the
 * label of `upper` is not read. The same node twice is the empty word: state 0, and its mark decides.
 * Lent:    the plan, the branch table and the tables of whatif_branch_build, read. N, S and K are those of the
 *          headers of the plan and the branch table.
 * Written: *state, the state after the last label; *yes, 1 where its mark is 1, else 0; *links, the moves of the
 *          climb from lower to the depth of upper; *passed, the nodes that it passed over: the depth of its start less
 *          the depth of its end, by the lent depths.
 * Answers: WHATIF_ACCEPTED, or the first of 17, 13, 16, 18. 17 is given too where a header is cut short or names a
 *          number outside its limits. 18 is never given on tables as whatif_branch_build wrote them for what is
 *          lent. On other tables the call ends as well, with 16, 18 or an answer. Refused, *state, *yes, *links
 *          and *passed are as they were.
 */
WHATIF_NODISCARD
uint32_t whatif_branch(const uint8_t *plan, size_t plan_len, const uint8_t *branch, size_t branch_len,
                       const uint16_t *node_table, size_t node_table_len, const uint8_t *state_table,
                       size_t state_table_len, uint32_t upper, uint32_t lower, uint32_t *state, uint32_t *yes,
                       uint32_t *links, uint32_t *passed);

/*
 * Branch question with the upper node's label: the branch table reads the labels from node `upper` down to node
 * `lower`, both included, from state 0 on. The same node twice is a word of one letter.
 * Lent:    as for whatif_branch.
 * Written: as by whatif_branch; *links and *passed are the same numbers.
 * Answers: WHATIF_ACCEPTED, or the first of 17, 13, 16, 18, as for whatif_branch; on tables not as built the label of
 *          `upper` may lead outside too.
 */
WHATIF_NODISCARD
uint32_t whatif_branch_with_upper(const uint8_t *plan, size_t plan_len, const uint8_t *branch, size_t branch_len,
                                  const uint16_t *node_table, size_t node_table_len, const uint8_t *state_table,
                                  size_t state_table_len, uint32_t upper, uint32_t lower, uint32_t *state,
                                  uint32_t *yes, uint32_t *links, uint32_t *passed);

/*
 * Count: how many choices of labels end in each state? Every assignment of the K labels to the nodes listed is one
 * choice, so that there are K to the power nodes_len of them; the other nodes keep their labels.
 * Lent:    the plan, the rule table, the tables of whatif_build and the nodes, read: nodes_len different nodes, 0 to
 *          64. N, S and K are those of the headers of the plan and the rule table. counts, written.
 * Written: the first S numbers of counts: for each state how many choices end in it at the root; *parts and *links,
 *          those of a question about these nodes. With no node listed the run's own state has 1. The sum is K to the
 *          power nodes_len. The rest of a longer buffer is untouched; WHATIF_MAX_STATES numbers always suffice.
 * Answers: WHATIF_ACCEPTED, or the first of 17, 12, 13, 15, 26, 18, 11. 17 is given too where a header is cut short or
 *          names a number outside its limits; 12 for more than 64 nodes; 26 for more than WHATIF_MAX_ASSIGNMENTS
 *          choices, and not for that many; 11 where counts is shorter than S. 18 is never given on tables as
 *          whatif_build wrote them for what is lent, nor on run states and maps that are any bytes below S. On other
 *          tables the call ends as well, with 18 or with counts, none above WHATIF_MAX_ASSIGNMENTS. Refused, counts,
 *          *parts and *links are as they were.
 */
WHATIF_NODISCARD
uint32_t whatif_count(const uint8_t *plan, size_t plan_len, const uint8_t *rules, size_t rules_len,
                      const uint16_t *node_table, size_t node_table_len, const uint8_t *state_table,
                      size_t state_table_len, const uint16_t *nodes, size_t nodes_len, uint64_t *counts,
                      size_t counts_len, uint32_t *parts, uint32_t *links);

/*
 * Merge: writes one rule table that clears exactly the plans that both clear. State p of the first table and q of the
 * second become p * S2 + q, S2 being the second's count of states: on every plan, at every node, the merged table's
 * state is that pair of the two tables' states. A state is marked where both of its states are.
 * Lent:    both rule tables, read; merged, written. The same table may be lent twice.
 * Written: the first WHATIF_RULES_BYTES(S1 * S2, K) bytes of merged: a rule table, which passes 6 to 9. The rest of a
 *          longer buffer is untouched.
 * Answers: WHATIF_ACCEPTED, or the first of 6, 7, 8, 9, 6, 7, 8, 9, 23, 24, 11: 6 to 9 are put to the first table, then
 *          to the second. Refused, merged is as it was.
 */
WHATIF_NODISCARD
uint32_t whatif_merge(const uint8_t *first, size_t first_len, const uint8_t *second, size_t second_len, uint8_t *merged,
                      size_t merged_len);

/*
 * Do two rule tables agree? They do where every plan, of any size, gets yes from both or no from both. Where they do
 * not, a separating plan is shown, which one of them clears and the other does not: one of least height among all such
 * plans.
 * Lent:    both rule tables, read; lines, written. The same table may be lent twice.
 * Written: *agree, 1 or 0; *count, the lines that are shown, 1 to WHATIF_MAX_LINES, or 0 where the tables agree; and as
 *          many lines, four numbers each: 0 for a leaf, 1 for an inner node; its label, below K; the numbers of its
 *          left and its right line, both 0 for a leaf. Lines are numbered from 0, left and right are earlier lines, the
 *          last line is the root; a line may serve several times, or not at all. The rest of a longer buffer is
 *          untouched. 4 * WHATIF_MAX_LINES numbers always suffice. Written out as a tree, the lines may have more nodes
 *          than a plan can have.
 * Answers: WHATIF_ACCEPTED, or the first of 6, 7, 8, 9, 6, 7, 8, 9, 23, 11: 6 to 9 are put to the first table, then to
 *          the second; 11 is given only where the lines do not fit. Refused, lines, *agree and *count are as they were.
 */
WHATIF_NODISCARD
uint32_t whatif_agree(const uint8_t *first, size_t first_len, const uint8_t *second, size_t second_len, uint16_t *lines,
                      size_t lines_len, uint32_t *agree, uint32_t *count);

/*
 * Out: from a planner's file, whose nodes stand top first and have 0 to 255 children each, to our plan. A list of
 * siblings becomes an inner node with the first one's label, its children's list at the left and the rest at the right;
 * an empty list a leaf with label 63. So n nodes become 2n+1, and a rule table for such plans has K 64: label 63 is at
 * every leaf.
 * Lent:    the planner's file, read; plan and places, written. plan serves as work space before it is written.
 * Written: the first WHATIF_PLANNER_PLAN_BYTES(n) bytes of plan: a plan, which passes 2 to 5; the first n numbers of
 *          places: for each planner node, by its place in the file, its node in our plan. It is an inner node there,
 *          with its own label. The rest of longer buffers is untouched.
 * Answers: WHATIF_ACCEPTED, or the first of 19, 20, 21. Refused, plan and places are as they were.
 */
WHATIF_NODISCARD
uint32_t whatif_plan_of_planner(const uint8_t *file, size_t file_len, uint8_t *plan, size_t plan_len, uint16_t *places,
                                size_t places_len);

/*
 * Home: from our plan back to the planner's file, for exactly the plans that whatif_plan_of_planner can write. Going
 * out and home restores the file, going home and out the plan.
 * Lent:    the plan, read; file, written, and work space before.
 * Written: the first WHATIF_PLANNER_BYTES(n) bytes of file, where the plan has 2n+1 nodes. The rest of a longer buffer
 *          is untouched.
 * Answers: WHATIF_ACCEPTED, or the first of 19, 21: 19 for bytes that 2 to 5 refuse and for every plan that comes from
 *          no planner's file. Refused, file is as it was.
 */
WHATIF_NODISCARD
uint32_t whatif_planner_of_plan(const uint8_t *plan, size_t plan_len, uint8_t *file, size_t file_len);

/*
 * Lays one list of changes over another: all nodes of both, with the upper list's label where both name one; of two
 * entries for a node in a list the last. It has no plan: nodes and labels may be any.
 * Lent:    both lists, read: lower_nodes_len and lower_labels_len are equal, 0 to 64, and so are the upper's; nodes and
 *          labels, written.
 * Written: *count, the nodes that remain, 0 to 64; as many nodes, rising, and their labels. The rest of a longer buffer
 *          is untouched; WHATIF_MAX_CHANGES numbers and bytes always suffice.
 * Answers: WHATIF_ACCEPTED, or the first of 12, 12, 22, 11: 12 is put to the lower list, then to the upper; 22 is given
 *          where more than 64 nodes would remain, 11 where nodes or labels is shorter than *count would be. Refused,
 *          nodes, labels and *count are as they were.
 */
WHATIF_NODISCARD
uint32_t whatif_lay_over(const uint16_t *lower_nodes, size_t lower_nodes_len, const uint8_t *lower_labels,
                         size_t lower_labels_len, const uint16_t *upper_nodes, size_t upper_nodes_len,
                         const uint8_t *upper_labels, size_t upper_labels_len, uint16_t *nodes, size_t nodes_len,
                         uint8_t *labels, size_t labels_len, uint32_t *count);

/*
 * The panel session. Its record, WHATIF_RECORD_BYTES bytes, belongs to the panel: it is all zero at first, passes from
 * call to call and is written by these functions alone. Plan, rule table and tables are lent with each call that needs
 * them and may be altered or exchanged between calls. A record belongs to one thread at a time. What one Load wrote may
 * serve many records: a copy of a loaded record is a loaded record, and tables that are only read may be shared.
 *
 * What altered buffers can do: Start makes the full check of what is lent, so nothing needs to be promised about plan,
 * rules and tables between Load and Start. A finished answer is right for what was lent at Start, provided that it
 * stays so until the last advance: an advance tests the lengths of what is lent (17) and the values that it reads (18)
 * alone. On what was altered between Start and the last advance an advance may be refused with 18, and an answer may be
 * another than the fresh run's; but every call ends, and none reads or writes outside what is lent. After the last
 * advance the answer stands in the record, and nothing that is lent can alter it.
 *
 * The last finished answer stays in the record, whatever is started, cancelled or refused afterwards, until the next
 * question is finished or a Load is accepted: a panel may show it again after a Cancel.
 *
 * So Read alone may show an earlier question's answer. A panel that polls it after a Start gets the old yes for the new
 * labels, until the last advance. What a panel shows for the question at hand is whatif_read_current, below: it is
 * refused with 1 unless the session is answered. Before a blank is cut, whatif_confirm compares with a fresh run.
 *
 * A session is empty, loaded, running or answered:
 *
 *     whatif_load     unless running         then loaded
 *     whatif_start    loaded or answered     then running
 *     whatif_advance  running                then running, after the last part answered
 *     whatif_cancel   running                then loaded
 *     whatif_read     in every state, once an answer is there; the state stays
 *
 * Any other call gets 1. So does a record that breaks its layout, or that has another length, as those of another
 * layout version have. whatif_why_1, below, says in a sentence which it was.
 */

/*
 * Load: begins with a plan, and writes its tables as whatif_build does.
 * Lent:    the record, altered; the plan and the rule table, read; node_table and state_table, written.
 * Written: both tables as by whatif_build; the record, exactly as after a first Load of that plan: no answer is there.
 * Answers: WHATIF_ACCEPTED, or the first of 1, 2, 3, 4, 5, 6, 7, 8, 9, 10, 11. Refused, the record and both buffers are
 *          as they were.
 */
WHATIF_NODISCARD
uint32_t whatif_load(uint8_t *record, size_t record_len, const uint8_t *plan, size_t plan_len, const uint8_t *rules,
                     size_t rules_len, uint16_t *node_table, size_t node_table_len, uint8_t *state_table,
                     size_t state_table_len);

/*
 * Start: puts a question. What would the plan's state be if node nodes[i] took labels[i], for every i?
 * Lent:    the record, altered; the plan, the rule table, both tables and the list, read. The plan need not be that of
 *          the Load, but N, S and K are: plan and rule table have the length that these need, the tables at least.
 *          nodes_len and labels_len are equal, 0 to 64. A node may be listed several times: its last entry holds, and
 *          all is told as of the list with that entry alone. A node that ends with the label it has in the plan lent
 *          here is no change: it counts neither for the parts nor for their ceiling, 4m - 2 for the m nodes that are
 *          left and 1 where none is. The record keeps the list whole.
 * Written: *parts, the number of parts, 1 to WHATIF_MAX_PARTS; the record. An earlier question is forgotten, the last
 *          finished answer kept.
 * Answers: WHATIF_ACCEPTED, or the first of 1, 17, 12, 13, 14, 18; 12, 13 and 14 are put to the whole list as listed.
 *          18 is given exactly when the plan and the rule table do not pass 2 to 10 or name another N, S or K than the
 *          record, or the tables, excess aside, are not what whatif_build writes from them. So a Start reads all that
 *          is lent. Refused, the record and *parts are as they were.
 */
WHATIF_NODISCARD
uint32_t whatif_start(uint8_t *record, size_t record_len, const uint8_t *plan, size_t plan_len, const uint8_t *rules,
                      size_t rules_len, const uint16_t *node_table, size_t node_table_len, const uint8_t *state_table,
                      size_t state_table_len, const uint16_t *nodes, size_t nodes_len, const uint8_t *labels,
                      size_t labels_len, uint32_t *parts);

/*
 * Advance: handles the next part of the question.
 * Lent:    the record, altered; the plan, the rule table and both tables, read: as at Start, if the answer is to be
 *          that of a fresh run.
 * Written: *finished, 1 where that was the last part, else 0; the record. After the last part the answer is there, in
 *          the place of an earlier one.
 * Answers: WHATIF_ACCEPTED, or the first of 1, 17, 18. 18 is never given where all is as at Start and as built. It
 *          leaves the question as it was: with the right tables the next advance goes on. Refused, the record and
 *          *finished are as they were.
 */
WHATIF_NODISCARD
uint32_t whatif_advance(uint8_t *record, size_t record_len, const uint8_t *plan, size_t plan_len, const uint8_t *rules,
                        size_t rules_len, const uint16_t *node_table, size_t node_table_len,
                        const uint8_t *state_table, size_t state_table_len, uint32_t *finished);

/*
 * Cancel: drops the question.
 * Lent:    the record, altered.
 * Written: the record, as after a first Load in all but the last finished answer, which is kept.
 * Answers: WHATIF_ACCEPTED, or the first of 1. Refused, the record is as it was.
 */
WHATIF_NODISCARD
uint32_t whatif_cancel(uint8_t *record, size_t record_len);

/*
 * Read: tells the last finished answer, in every state.
 * Lent:    the record, read.
 * Written: *state, the root's state; *yes, 1 where it is accepted, else 0; *parts, the number of parts; *links, the
 *          moves of their climbs; *passed, the nodes that these passed over: of each climb the depth of its start less
 *          the depth of its end. Each move passes over one node at least.
 * Answers: WHATIF_ACCEPTED, or the first of 1, where no question was finished since the last accepted Load. Refused,
 *          the five are as they were.
 */
WHATIF_NODISCARD
uint32_t whatif_read(const uint8_t *record, size_t record_len, uint32_t *state, uint32_t *yes, uint32_t *parts,
                     uint32_t *links, uint32_t *passed);

/*
 * Eight screens on one mill: up to eight questions that run at once on one plan, numbered 0 to 7. Their sessions are a
 * run of eight records, WHATIF_SCREENS_BYTES bytes, which belongs to the caller like a record: it is all zero at first
 * and is written by these functions alone. Load is made for all eight; Start, Cancel and Read name a screen; a deal
 * makes one advance for the next running screen after the one that was served last, going from 7 back to 0.
 *
 * Beside the run travels a number, the screen to try first. whatif_screens_load and whatif_screens_deal tell it: 0
 * after a Load, else one past the screen served, 0 past 7. The next deal is handed it. Handed on so, a screen that
 * stays running is served within eight accepted deals, and no other screen twice between two of its turns in one
 * question, whatever is lent and whatever the others start or cancel. While plan, rules and tables are as Load left
 * them, every deal with a screen running is accepted.
 *
 * No screen's answers depend on another's record: Start, Cancel and Read look at the named one alone, a deal at the
 * eight state bytes and at the whole of the one that it serves. A screen's calls and turns are answered as those of a
 * session of its own would be, with its turns as advances. A deal lends one plan to whoever is next: where that is not
 * what its Start was lent, whatif_advance says what may happen.
 *
 * The single records of the run may also be lent to the session's calls, WHATIF_RECORD_BYTES bytes each.
 *
 * If a record is damaged, by a flipped bit or a stray pointer, every call that names its screen gets 1, and so does
 * Load. If its state byte says running, every deal gets 1 at its turn, and the number stays: one record stops all eight
 * screens. If it is still whole, its turn may get 17 or 18, though all that is passed in is as loaded.
 * So a deal's 1 is an idle mill only where whatif_screens_running is 0. Else the turn was that of whatif_screens_next,
 * and its record is damaged. whatif_screens_damaged finds what a Load refuses; whatif_screens_why_1 has the sentence.
 * Three ways out; in each the other seven go on with their questions:
 * 1. Put a loaded record in its place (whatif_screens_replace): a copy of any of the eight, kept aside after Load. This
 *    screen may Start at once. This is the way to take where a copy was kept.
 * 2. Put a fresh record in its place, all zero. This screen waits for the next Load, which is no longer held up.
 * 3. Leave it, and deal from the number after it: (whatif_screens_next(..) + 1) % WHATIF_SCREENS. Do so each time the
 *    turn comes to it; where no other screen runs there is nothing left to deal. Load stays refused until 1 or 2.
 * The question of the damaged screen is lost, and its last answer with 1 and 2: it is started again. A flipped bit may
 * also leave a whole record with another list or state, which no call can see: so confirm before a cut.
 */

/*
 * Load of all eight: begins with a plan, and writes its tables as whatif_build does.
 * Lent:    the run, altered; the plan and the rule table, read; node_table and state_table, written.
 * Written: both tables as by whatif_build; each of the eight records, exactly as after a first Load of that plan: no
 *          answer is there; *next, 0.
 * Answers: WHATIF_ACCEPTED, or the first of 25, 1, 2, 3, 4, 5, 6, 7, 8, 9, 10, 11. 1 is given where a screen is running
 *          or one of the eight records is broken. Refused, the run, both buffers and *next are as they were.
 */
WHATIF_NODISCARD
uint32_t whatif_screens_load(uint8_t *records, size_t records_len, const uint8_t *plan, size_t plan_len,
                             const uint8_t *rules, size_t rules_len, uint16_t *node_table, size_t node_table_len,
                             uint8_t *state_table, size_t state_table_len, uint32_t *next);

/*
 * Start on a screen: puts a question there, as whatif_start does.
 * Lent:    the run, altered; screen, 0 to 7; all else as for whatif_start.
 * Written: *parts, and the record of this screen, as by whatif_start. The other seven stay.
 * Answers: WHATIF_ACCEPTED, or the first of 25, 1, 17, 12, 13, 14, 18, from 1 on as whatif_start gives them on this
 *          screen's record. Refused, the run and *parts are as they were.
 */
WHATIF_NODISCARD
uint32_t whatif_screens_start(uint8_t *records, size_t records_len, uint32_t screen, const uint8_t *plan,
                              size_t plan_len, const uint8_t *rules, size_t rules_len, const uint16_t *node_table,
                              size_t node_table_len, const uint8_t *state_table, size_t state_table_len,
                              const uint16_t *nodes, size_t nodes_len, const uint8_t *labels, size_t labels_len,
                              uint32_t *parts);

/*
 * Deal: one advance for the next running screen, from screen `first` on, going from 7 back to 0.
 * Lent:    the run, altered; first, the screen to try first, 0 to 7, as the last accepted Load or deal told it; the
 *          plan, the rule table and both tables, read, as for whatif_advance.
 * Written: *next, one past the screen served, 0 past 7 (whatif_screens_served, below, has the screen); *finished and
 *          the record of that screen, as by whatif_advance. The other seven stay.
 * Answers: WHATIF_ACCEPTED, or the first of 25, 1, 17, 18. 1 is given where no screen is running, or the record of the
 *          next one is broken: a record is running where its state byte says so. A deal refused with 17 or 18 was this
 *          screen's turn, and no other is served by it. Refused, the run, *next and *finished are as they were: with
 *          the same number the next deal tries the same screen again.
 */
WHATIF_NODISCARD
uint32_t whatif_screens_deal(uint8_t *records, size_t records_len, uint32_t first, const uint8_t *plan, size_t plan_len,
                             const uint8_t *rules, size_t rules_len, const uint16_t *node_table, size_t node_table_len,
                             const uint8_t *state_table, size_t state_table_len, uint32_t *next, uint32_t *finished);

/*
 * Cancel on a screen: drops its question, as whatif_cancel does.
 * Lent:    the run, altered; screen, 0 to 7.
 * Written: the record of this screen, as by whatif_cancel. The other seven stay.
 * Answers: WHATIF_ACCEPTED, or the first of 25, 1. Refused, the run is as it was.
 */
WHATIF_NODISCARD
uint32_t whatif_screens_cancel(uint8_t *records, size_t records_len, uint32_t screen);

/*
 * Read on a screen: tells its last finished answer, in every state, as whatif_read does.
 * Lent:    the run, read; screen, 0 to 7.
 * Written: *state, *yes, *parts, *links and *passed, as by whatif_read.
 * Answers: WHATIF_ACCEPTED, or the first of 25, 1. Refused, the five are as they were.
 */
WHATIF_NODISCARD
uint32_t whatif_screens_read(const uint8_t *records, size_t records_len, uint32_t screen, uint32_t *state,
                             uint32_t *yes, uint32_t *parts, uint32_t *links, uint32_t *passed);

/*
 * Questions by colours: the answers of branch questions and of questions once more, by other tables, at a cost that
 * depends on how often colours fall on the paths, and little on the depth of the plan. Every state of every node has a
 * colour; on the way down a path the colour stays or falls, and a question goes from fall to fall. A drop is a place on
 * the path where the colour falls; the moves of the searches for the drops are the links, at most 45 for each drop.
 * These calls stand outside the session.
 * The colour tables are two buffers; their layout is in LAYOUT.md.
 *
 * The first WHATIF_NODE_TABLE_LEN(N) numbers of the colour tables are the plan's node table: where no other is at hand,
 * colour_numbers may be lent as node_table too.
 */

/*
 * Writes the colour tables of a plan and a branch table.
 * Lent:    the plan and the branch table, read; colour_numbers and colour_bytes, written.
 * Written: the first WHATIF_COLOUR_BRANCH_NUMBERS(N, S) numbers of colour_numbers and the first
 *          WHATIF_COLOUR_BRANCH_BYTES(N, S) bytes of colour_bytes, N and S as the headers name them. The rest of a
 *          longer buffer is untouched.
 * Answers: WHATIF_ACCEPTED, or the first of 2, 3, 4, 5, 6, 7, 8, 9, 10, 11. Refused, both buffers are as they were.
 */
WHATIF_NODISCARD
uint32_t whatif_colour_branch_build(const uint8_t *plan, size_t plan_len, const uint8_t *branch, size_t branch_len,
                                    uint16_t *colour_numbers, size_t colour_numbers_len, uint8_t *colour_bytes,
                                    size_t colour_bytes_len);

/*
 * Branch question by colours: the word of whatif_branch, from below node `upper` down to node `lower`.
 * Lent:    the plan, the branch table, the node table of whatif_branch_build (or of whatif_build: it is the same) and
 *          the tables of whatif_colour_branch_build, read. N, S and K are those of the headers of the plan and the
 *          branch table.
 * Written: *state, the state after the last label; *yes, 1 where its mark is 1, else 0; both are whatif_branch's.
 *          *drops, the places on the path where the colour falls, at most S - 1; *links, the moves of the searches for
 *          them, at most 45 for each.
 * Answers: WHATIF_ACCEPTED, or the first of 17, 13, 16, 18. 17 is given too where a header is cut short or names a
 *          number outside its limits. 18 is never given on tables as built for what is lent. On other tables the call
 *          ends as well, with 16, 18 or an answer. Refused, *state, *yes, *drops and *links are as they were.
 */
WHATIF_NODISCARD
uint32_t whatif_colour_branch(const uint8_t *plan, size_t plan_len, const uint8_t *branch, size_t branch_len,
                              const uint16_t *node_table, size_t node_table_len, const uint16_t *colour_numbers,
                              size_t colour_numbers_len, const uint8_t *colour_bytes, size_t colour_bytes_len,
                              uint32_t upper, uint32_t lower, uint32_t *state, uint32_t *yes, uint32_t *drops,
                              uint32_t *links);

/*
 * Branch question by colours with the upper node's label: the word of whatif_branch_with_upper, from node `upper` down
 * to node `lower`, both included.
 * Lent:    as for whatif_colour_branch.
 * Written: as by whatif_colour_branch; drops and links may be others, since the word begins one copy higher.
 * Answers: WHATIF_ACCEPTED, or the first of 17, 13, 16, 18, as for whatif_colour_branch; on tables not as built the
 *          parent of `upper` may lead outside too.
 */
WHATIF_NODISCARD
uint32_t whatif_colour_branch_with_upper(const uint8_t *plan, size_t plan_len, const uint8_t *branch, size_t branch_len,
                                         const uint16_t *node_table, size_t node_table_len,
                                         const uint16_t *colour_numbers, size_t colour_numbers_len,
                                         const uint8_t *colour_bytes, size_t colour_bytes_len, uint32_t upper,
                                         uint32_t lower, uint32_t *state, uint32_t *yes, uint32_t *drops,
                                         uint32_t *links);

/*
 * Writes the colour tables of a plan and a rule table of at most WHATIF_MAX_COLOUR_STATES states.
 * Lent:    the plan and the rule table, read; colour_numbers and colour_bytes, written.
 * Written: the first WHATIF_COLOUR_NUMBERS(N, S) numbers of colour_numbers and the first WHATIF_COLOUR_BYTES(N, S)
 *          bytes of colour_bytes, N and S as the headers name them. They begin with the node table and the state table
 *          of whatif_build. The rest of a longer buffer is untouched.
 * Answers: WHATIF_ACCEPTED, or the first of 2, 3, 4, 5, 6, 7, 8, 9, 27, 10, 11. Refused, both buffers are as they were.
 */
WHATIF_NODISCARD
uint32_t whatif_colour_build(const uint8_t *plan, size_t plan_len, const uint8_t *rules, size_t rules_len,
                             uint16_t *colour_numbers, size_t colour_numbers_len, uint8_t *colour_bytes,
                             size_t colour_bytes_len);

/*
 * Question by colours, whole and outside the session: what would the plan's state be if node nodes[i] took labels[i],
 * for every i?
 * Lent:    the plan, the rule table, the tables of whatif_build, those of whatif_colour_build and the list, read. N, S
 *          and K are those of the headers of the plan and the rule table. nodes_len and labels_len are equal, 0 to 64;
 *          of two entries for a node the last holds, and a node that ends with the label it has is no change, as in
 *          whatif_start.
 * Written: *state, the root's state; *yes, 1 where its mark is 1, else 0: both the fresh run's of the changed plan.
 *          *parts, the number of parts, as of whatif_start. *drops: where a part has changes below one child only, that
 *          child's state is found by trying target states in rising order, and the drops of all trials are counted, at
 *          most 60 for each such part. *links, the moves of the searches for them, at most 45 for each.
 * Answers: WHATIF_ACCEPTED, or the first of 17, 27, 12, 13, 14, 18. 17 is given too where a header is cut short or
 *          names a number outside its limits; with S above 4 it is asked of all but the colour tables. 18 is never
 *          given on tables as built for what is lent. On other tables the call ends as well, with 18 or an answer.
 *          Refused, the five out values are as they were.
 */
WHATIF_NODISCARD
uint32_t whatif_colour_ask(const uint8_t *plan, size_t plan_len, const uint8_t *rules, size_t rules_len,
                           const uint16_t *node_table, size_t node_table_len, const uint8_t *state_table,
                           size_t state_table_len, const uint16_t *colour_numbers, size_t colour_numbers_len,
                           const uint8_t *colour_bytes, size_t colour_bytes_len, const uint16_t *nodes,
                           size_t nodes_len, const uint8_t *labels, size_t labels_len, uint32_t *state, uint32_t *yes,
                           uint32_t *drops, uint32_t *links, uint32_t *parts);

/*
 * For safe use: what follows is written here alone, and nothing of it is in the archive.
 *
 * These functions allocate nothing, keep nothing and read only what they are given. They look at a length before they
 * read anything behind it, and write an output only where they are accepted. What they answer is tested, not proved;
 * what the functions above answer is proved, and these call them.
 *
 * The mistakes that cost a blank, and what keeps from each:
 * - An earlier question's yes on the screen: show whatif_read_current, not whatif_read.
 * - A yes from altered tables, or for another list than the one that is cut: whatif_confirm before each cut.
 * - A damaged record taken for an idle mill: whatif_screens_running, whatif_screens_damaged, whatif_why_1.
 * - Outputs in the wrong order: the forms that end in _told, which write one struct with names.
 * - A refusal that nobody looks at: every function here is WHATIF_NODISCARD.
 */

/* A number of four bytes. */
WHATIF_NODISCARD static inline uint32_t whatif_number(const uint8_t *at) {
    return (uint32_t)at[0] | (uint32_t)at[1] << 8 | (uint32_t)at[2] << 16 | (uint32_t)at[3] << 24;
}

/* Counts that a header names. Each is 0 where the bytes are malformed: cut short, a count outside its limits, offsets
 * or length not exact. These are 2 to 4 of a plan, 6 to 8 of a table, 19 and 21 of a planner's file. So 0 is never a
 * count. Kinds, labels, states and marks are not looked at. */

/* N of a plan, 1 to WHATIF_MAX_NODES. */
WHATIF_NODISCARD static inline uint32_t whatif_plan_nodes(const uint8_t *plan, size_t plan_len) {
    uint32_t n = plan_len < 12u ? 0u : whatif_number(plan);
    if (n < 1u || n > WHATIF_MAX_NODES || plan_len != WHATIF_PLAN_BYTES(n))
        return 0u;
    return whatif_number(plan + 4) == 12u && whatif_number(plan + 8) == 12u + n ? n : 0u;
}

/* n of a planner's file, 1 to WHATIF_MAX_PLANNER_NODES: its plan has 2n+1 nodes. */
WHATIF_NODISCARD static inline uint32_t whatif_planner_nodes(const uint8_t *file, size_t file_len) {
    uint32_t n = whatif_plan_nodes(file, file_len); /* the two headers are alike */
    return n <= WHATIF_MAX_PLANNER_NODES ? n : 0u;
}

/* 1 where the first two numbers of a table are an S and a K within their limits, else 0. */
WHATIF_NODISCARD static inline uint32_t whatif_table_counts(const uint8_t *table, size_t table_len) {
    uint32_t s = table_len < 16u ? 0u : whatif_number(table), k = table_len < 16u ? 0u : whatif_number(table + 4);
    return s >= 1u && s <= WHATIF_MAX_STATES && k >= 1u && k <= WHATIF_MAX_LABELS ? 1u : 0u;
}

/* S of a rule table, 1 to WHATIF_MAX_STATES. */
WHATIF_NODISCARD static inline uint32_t whatif_rules_states(const uint8_t *rules, size_t rules_len) {
    uint32_t s, k;
    if (!whatif_table_counts(rules, rules_len))
        return 0u;
    s = whatif_number(rules);
    k = whatif_number(rules + 4);
    if (rules_len != WHATIF_RULES_BYTES(s, k) || whatif_number(rules + 8) != 20u)
        return 0u;
    return whatif_number(rules + 12) == 20u + k && whatif_number(rules + 16) == 20u + k + s * k * s ? s : 0u;
}

/* K of a rule table, 1 to WHATIF_MAX_LABELS. */
WHATIF_NODISCARD static inline uint32_t whatif_rules_labels(const uint8_t *rules, size_t rules_len) {
    return whatif_rules_states(rules, rules_len) ? whatif_number(rules + 4) : 0u;
}

/* S of a branch table, 1 to WHATIF_MAX_STATES. */
WHATIF_NODISCARD static inline uint32_t whatif_branch_states(const uint8_t *branch, size_t branch_len) {
    uint32_t s, k;
    if (!whatif_table_counts(branch, branch_len))
        return 0u;
    s = whatif_number(branch);
    k = whatif_number(branch + 4);
    if (branch_len != WHATIF_BRANCH_BYTES(s, k) || whatif_number(branch + 8) != 16u)
        return 0u;
    return whatif_number(branch + 12) == 16u + s * k ? s : 0u;
}

/* K of a branch table, 1 to WHATIF_MAX_LABELS. */
WHATIF_NODISCARD static inline uint32_t whatif_branch_labels(const uint8_t *branch, size_t branch_len) {
    return whatif_branch_states(branch, branch_len) ? whatif_number(branch + 4) : 0u;
}

/* Used by the writers: a number as four bytes, a run of bytes, and what they check. */
static inline void whatif_put_number(uint8_t *at, size_t number) {
    for (size_t i = 0; i < 4; i++)
        at[i] = (uint8_t)(number >> (8 * i) & 255u);
}

static inline void whatif_put_bytes(uint8_t *to, const uint8_t *from, size_t count) {
    for (size_t i = 0; i < count; i++)
        to[i] = from[i];
}

WHATIF_NODISCARD static inline uint32_t whatif_all_below(const uint8_t *bytes, size_t count, size_t limit) {
    for (size_t i = 0; i < count; i++)
        if (bytes[i] >= limit)
            return 0u;
    return 1u;
}

WHATIF_NODISCARD static inline uint32_t whatif_one_tree(const uint8_t *kinds, size_t count) {
    size_t waiting = 0;
    for (size_t v = 0; v < count; v++) {
        if (kinds[v] > 1u || (kinds[v] == 1u && waiting < 2u))
            return 0u;
        waiting = kinds[v] == 1u ? waiting - 1u : waiting + 1u;
    }
    return waiting == 1u ? 1u : 0u;
}

/*
 * Writes a plan from its labels and kinds (0 leaf, 1 inner), one of each for a node, in post-order.
 * Written: the first WHATIF_PLAN_BYTES(labels_len) bytes of plan. Load takes exactly these: pass that length on.
 * Answers: WHATIF_ACCEPTED, or the first of 3, 4, 5, 11. 4 is given where there are not as many kinds as labels, 11
 *          where plan is too short. Refused, plan is unchanged. Accepted, the plan passes 2 to 5; Load asks whether the
 *          rule table has all its labels (10).
 */
WHATIF_NODISCARD static inline uint32_t whatif_write_plan(const uint8_t *labels, size_t labels_len,
                                                          const uint8_t *kinds, size_t kinds_len, uint8_t *plan,
                                                          size_t plan_len) {
    size_t n = labels_len;
    if (n < 1u || n > WHATIF_MAX_NODES)
        return WHATIF_REFUSED_NODE_COUNT;
    if (kinds_len != n)
        return WHATIF_REFUSED_PLAN_LAYOUT;
    if (!whatif_one_tree(kinds, n))
        return WHATIF_REFUSED_PLAN_TREE;
    if (plan_len < WHATIF_PLAN_BYTES(n))
        return WHATIF_REFUSED_BUFFER_SHORT;
    whatif_put_number(plan, n);
    whatif_put_number(plan + 4, 12u);
    whatif_put_number(plan + 8, 12u + n);
    whatif_put_bytes(plan + 12, labels, n);
    whatif_put_bytes(plan + 12 + n, kinds, n);
    return WHATIF_ACCEPTED;
}

/*
 * Writes a rule table. S is marks_len, K is leaf_len. leaf[a] is the state of a leaf with label a. inner is an array
 * uint8_t inner[S][K][S]: inner[p][a][q] is the state of an inner node with left state p, label a, right state q.
 * marks[s] is 1 where state s clears the plan, else 0.
 * Written: the first WHATIF_RULES_BYTES(S, K) bytes of rules. Load takes exactly these: pass that length on.
 * Answers: WHATIF_ACCEPTED, or the first of 7, 8, 9, 11. 8 is given where inner_len is not S * K * S, 11 where rules is
 *          too short. Refused, rules is unchanged. Accepted, the table passes 6 to 9.
 */
WHATIF_NODISCARD static inline uint32_t whatif_write_rules(const uint8_t *leaf, size_t leaf_len, const uint8_t *inner,
                                                           size_t inner_len, const uint8_t *marks, size_t marks_len,
                                                           uint8_t *rules, size_t rules_len) {
    size_t s = marks_len, k = leaf_len;
    if (s < 1u || s > WHATIF_MAX_STATES || k < 1u || k > WHATIF_MAX_LABELS)
        return WHATIF_REFUSED_TABLE_COUNTS;
    if (inner_len != s * k * s)
        return WHATIF_REFUSED_TABLE_LAYOUT;
    if (!whatif_all_below(leaf, k, s) || !whatif_all_below(inner, inner_len, s) || !whatif_all_below(marks, s, 2u))
        return WHATIF_REFUSED_TABLE_ENTRY;
    if (rules_len < WHATIF_RULES_BYTES(s, k))
        return WHATIF_REFUSED_BUFFER_SHORT;
    whatif_put_number(rules, s);
    whatif_put_number(rules + 4, k);
    whatif_put_number(rules + 8, 20u);
    whatif_put_number(rules + 12, 20u + k);
    whatif_put_number(rules + 16, 20u + k + inner_len);
    whatif_put_bytes(rules + 20, leaf, k);
    whatif_put_bytes(rules + 20 + k, inner, inner_len);
    whatif_put_bytes(rules + 20 + k + inner_len, marks, s);
    return WHATIF_ACCEPTED;
}

/*
 * Writes a branch table. S is marks_len, K is steps_len / S. steps is an array uint8_t steps[S][K]: steps[s][a] is the
 * state after state s reads label a; state 0 is the start. marks[s] is 1 where a word that ends in s gets yes, else 0.
 * Written: the first WHATIF_BRANCH_BYTES(S, K) bytes of branch. The builds take exactly these: pass that length on.
 * Answers: WHATIF_ACCEPTED, or the first of 7, 8, 9, 11. 8 is given where steps_len is not a multiple of S, 11 where
 *          branch is too short. Refused, branch is unchanged. Accepted, the table passes 6 to 9.
 */
WHATIF_NODISCARD static inline uint32_t whatif_write_branch(const uint8_t *steps, size_t steps_len,
                                                            const uint8_t *marks, size_t marks_len, uint8_t *branch,
                                                            size_t branch_len) {
    size_t s = marks_len, k = s < 1u || s > WHATIF_MAX_STATES ? 0u : steps_len / s;
    if (k < 1u || k > WHATIF_MAX_LABELS)
        return WHATIF_REFUSED_TABLE_COUNTS;
    if (steps_len != s * k)
        return WHATIF_REFUSED_TABLE_LAYOUT;
    if (!whatif_all_below(steps, steps_len, s) || !whatif_all_below(marks, s, 2u))
        return WHATIF_REFUSED_TABLE_ENTRY;
    if (branch_len < WHATIF_BRANCH_BYTES(s, k))
        return WHATIF_REFUSED_BUFFER_SHORT;
    whatif_put_number(branch, s);
    whatif_put_number(branch + 4, k);
    whatif_put_number(branch + 8, 16u);
    whatif_put_number(branch + 12, 16u + steps_len);
    whatif_put_bytes(branch + 16, steps, steps_len);
    whatif_put_bytes(branch + 16 + steps_len, marks, s);
    return WHATIF_ACCEPTED;
}

/* What a record says. These read single bytes of it, as LAYOUT.md places them. Bytes of another length, or without a
 * state, have WHATIF_NO_STATE and zeros; nothing else is tested. whatif_why_1, below, says what a refusal 1 means. */
enum whatif_state {
    WHATIF_EMPTY = 0,
    WHATIF_LOADED = 1,
    WHATIF_RUNNING = 2,
    WHATIF_ANSWERED = 3,
    WHATIF_NO_STATE = 4
};

WHATIF_NODISCARD static inline uint32_t whatif_session_state(const uint8_t *record, size_t record_len) {
    return record_len == WHATIF_RECORD_BYTES && record[0] < WHATIF_NO_STATE ? record[0] : (uint32_t)WHATIF_NO_STATE;
}

/* The parts of a question that is running or answered, else 0. */
WHATIF_NODISCARD static inline uint32_t whatif_parts(const uint8_t *record, size_t record_len) {
    return whatif_session_state(record, record_len) == WHATIF_NO_STATE ? 0u : (uint32_t)record[7];
}

/* How many of them are handled. */
WHATIF_NODISCARD static inline uint32_t whatif_parts_done(const uint8_t *record, size_t record_len) {
    return whatif_session_state(record, record_len) == WHATIF_NO_STATE ? 0u : (uint32_t)record[8];
}

/* S, K and N of the plan and the rule table that were loaded, 0 before a Load. */
WHATIF_NODISCARD static inline uint32_t whatif_record_states(const uint8_t *record, size_t record_len) {
    return whatif_session_state(record, record_len) == WHATIF_NO_STATE ? 0u : (uint32_t)record[2];
}

WHATIF_NODISCARD static inline uint32_t whatif_record_labels(const uint8_t *record, size_t record_len) {
    return whatif_session_state(record, record_len) == WHATIF_NO_STATE ? 0u : (uint32_t)record[3];
}

WHATIF_NODISCARD static inline uint32_t whatif_record_nodes(const uint8_t *record, size_t record_len) {
    if (whatif_session_state(record, record_len) == WHATIF_NO_STATE)
        return 0u;
    return (uint32_t)record[4] | (uint32_t)record[5] << 8;
}

/* How many changes the question lists that is running or answered, 0 to WHATIF_MAX_CHANGES, else 0. */
WHATIF_NODISCARD static inline uint32_t whatif_listed(const uint8_t *record, size_t record_len) {
    if (whatif_session_state(record, record_len) == WHATIF_NO_STATE || record[6] > WHATIF_MAX_CHANGES)
        return 0u;
    return (uint32_t)record[6];
}

/* Node and label of entry i of that list, as Start was given them; 0 where i is not below whatif_listed. */
WHATIF_NODISCARD static inline uint32_t whatif_listed_node(const uint8_t *record, size_t record_len, size_t i) {
    if (i >= whatif_listed(record, record_len))
        return 0u;
    return (uint32_t)record[13 + 2 * i] | (uint32_t)record[14 + 2 * i] << 8;
}

WHATIF_NODISCARD static inline uint32_t whatif_listed_label(const uint8_t *record, size_t record_len, size_t i) {
    if (i >= whatif_listed(record, record_len))
        return 0u;
    return (uint32_t)record[141 + i];
}

/* The same of a screen of a run. A run of another length and a screen above 7 have WHATIF_NO_STATE and no parts. */
WHATIF_NODISCARD static inline uint32_t whatif_screens_state(const uint8_t *records, size_t records_len,
                                                             uint32_t screen) {
    return records_len == WHATIF_SCREENS_BYTES && screen < WHATIF_SCREENS
               ? whatif_session_state(records + WHATIF_RECORD_BYTES * screen, WHATIF_RECORD_BYTES)
               : (uint32_t)WHATIF_NO_STATE;
}

WHATIF_NODISCARD static inline uint32_t whatif_screens_parts(const uint8_t *records, size_t records_len,
                                                             uint32_t screen) {
    return whatif_screens_state(records, records_len, screen) == WHATIF_NO_STATE
               ? 0u
               : whatif_parts(records + WHATIF_RECORD_BYTES * screen, WHATIF_RECORD_BYTES);
}

WHATIF_NODISCARD static inline uint32_t whatif_screens_parts_done(const uint8_t *records, size_t records_len,
                                                                  uint32_t screen) {
    return whatif_screens_state(records, records_len, screen) == WHATIF_NO_STATE
               ? 0u
               : whatif_parts_done(records + WHATIF_RECORD_BYTES * screen, WHATIF_RECORD_BYTES);
}

/* The screen that a deal served, of the number that it returned. */
WHATIF_NODISCARD static inline uint32_t whatif_screens_served(uint32_t next) {
    return (next + WHATIF_SCREENS - 1u) % WHATIF_SCREENS;
}

/* The screen that a deal from `first` would serve: the next whose state byte says running. WHATIF_SCREENS where none
 * is, where first is above 7 and where the run has another length. */
WHATIF_NODISCARD static inline uint32_t whatif_screens_next(const uint8_t *records, size_t records_len,
                                                            uint32_t first) {
    for (uint32_t i = 0; first < WHATIF_SCREENS && i < WHATIF_SCREENS; i++)
        if (whatif_screens_state(records, records_len, (first + i) % WHATIF_SCREENS) == WHATIF_RUNNING)
            return (first + i) % WHATIF_SCREENS;
    return WHATIF_SCREENS;
}

/* How many screens are running by their state bytes, 0 to 8. A deal's 1 means an idle mill only where this is 0. */
WHATIF_NODISCARD static inline uint32_t whatif_screens_running(const uint8_t *records, size_t records_len) {
    uint32_t count = 0;
    for (uint32_t i = 0; i < WHATIF_SCREENS; i++)
        count += whatif_screens_state(records, records_len, i) == WHATIF_RUNNING ? 1u : 0u;
    return count;
}

/* What is passed in with each Start and advance, as one struct: members have names, so plan and rules are not
 * exchanged. whatif_load_lent fills it. */
struct whatif_lent {
    const uint8_t *plan;
    size_t plan_len;
    const uint8_t *rules;
    size_t rules_len;
    const uint16_t *node_table;
    size_t node_table_len;
    const uint8_t *state_table;
    size_t state_table_len;
};

/* The caller's memory for one plan: what Load reads, and the two tables that it writes. The macros
 * WHATIF_NODE_TABLE_LEN and WHATIF_STATE_TABLE_LEN have the counts of elements that these need. */
struct whatif_buffers {
    const uint8_t *plan;
    size_t plan_len;
    const uint8_t *rules;
    size_t rules_len;
    uint16_t *node_table;
    size_t node_table_len;
    uint8_t *state_table;
    size_t state_table_len;
};

/* The same memory as the calls after Load take it. */
WHATIF_NODISCARD static inline struct whatif_lent whatif_lent_of(const struct whatif_buffers *buffers) {
    struct whatif_lent lent;
    lent.plan = buffers->plan;
    lent.plan_len = buffers->plan_len;
    lent.rules = buffers->rules;
    lent.rules_len = buffers->rules_len;
    lent.node_table = buffers->node_table;
    lent.node_table_len = buffers->node_table_len;
    lent.state_table = buffers->state_table;
    lent.state_table_len = buffers->state_table_len;
    return lent;
}

/* whatif_load with the caller's memory as one struct. Accepted, *lent is what Start and the advances take; refused, it
 * is unchanged. */
WHATIF_NODISCARD static inline uint32_t
whatif_load_lent(uint8_t *record, size_t record_len, const struct whatif_buffers *buffers, struct whatif_lent *lent) {
    uint32_t answer =
        whatif_load(record, record_len, buffers->plan, buffers->plan_len, buffers->rules, buffers->rules_len,
                    buffers->node_table, buffers->node_table_len, buffers->state_table, buffers->state_table_len);
    if (answer == WHATIF_ACCEPTED)
        *lent = whatif_lent_of(buffers);
    return answer;
}

/* whatif_screens_load in the same way. */
WHATIF_NODISCARD static inline uint32_t whatif_screens_load_lent(uint8_t *records, size_t records_len,
                                                                 const struct whatif_buffers *buffers,
                                                                 struct whatif_lent *lent, uint32_t *next) {
    uint32_t answer = whatif_screens_load(records, records_len, buffers->plan, buffers->plan_len, buffers->rules,
                                          buffers->rules_len, buffers->node_table, buffers->node_table_len,
                                          buffers->state_table, buffers->state_table_len, next);
    if (answer == WHATIF_ACCEPTED)
        *lent = whatif_lent_of(buffers);
    return answer;
}

/* whatif_start with what is passed in as one struct, and count nodes with as many labels. */
WHATIF_NODISCARD static inline uint32_t whatif_start_lent(uint8_t *record, size_t record_len,
                                                          const struct whatif_lent *lent, const uint16_t *nodes,
                                                          const uint8_t *labels, size_t count, uint32_t *parts) {
    return whatif_start(record, record_len, lent->plan, lent->plan_len, lent->rules, lent->rules_len, lent->node_table,
                        lent->node_table_len, lent->state_table, lent->state_table_len, nodes, count, labels, count,
                        parts);
}

/* whatif_advance with what is passed in as one struct. */
WHATIF_NODISCARD static inline uint32_t whatif_advance_lent(uint8_t *record, size_t record_len,
                                                            const struct whatif_lent *lent, uint32_t *finished) {
    return whatif_advance(record, record_len, lent->plan, lent->plan_len, lent->rules, lent->rules_len,
                          lent->node_table, lent->node_table_len, lent->state_table, lent->state_table_len, finished);
}

/* whatif_screens_start with what is passed in as one struct, and count nodes with as many labels. */
WHATIF_NODISCARD static inline uint32_t whatif_screens_start_lent(uint8_t *records, size_t records_len, uint32_t screen,
                                                                  const struct whatif_lent *lent, const uint16_t *nodes,
                                                                  const uint8_t *labels, size_t count,
                                                                  uint32_t *parts) {
    return whatif_screens_start(records, records_len, screen, lent->plan, lent->plan_len, lent->rules, lent->rules_len,
                                lent->node_table, lent->node_table_len, lent->state_table, lent->state_table_len, nodes,
                                count, labels, count, parts);
}

/* whatif_screens_deal with what is passed in as one struct. */
WHATIF_NODISCARD static inline uint32_t whatif_screens_deal_lent(uint8_t *records, size_t records_len, uint32_t first,
                                                                 const struct whatif_lent *lent, uint32_t *next,
                                                                 uint32_t *finished) {
    return whatif_screens_deal(records, records_len, first, lent->plan, lent->plan_len, lent->rules, lent->rules_len,
                               lent->node_table, lent->node_table_len, lent->state_table, lent->state_table_len, next,
                               finished);
}

/* What a question answers, with names: the outputs of a call in one struct, so that none is taken for another. A value
 * that the question does not have is 0. Begin with a struct that is all zero: where the call is refused, it says no. */
struct whatif_told {
    uint32_t state;  /* the state at the end: of the root, or after the last label of a word */
    uint32_t yes;    /* 1 where that state is accepted, else 0; of whatif_agree, 1 where the tables agree */
    uint32_t parts;  /* the number of parts */
    uint32_t links;  /* the moves of the climbs or of the searches */
    uint32_t passed; /* the nodes that the climbs passed over */
    uint32_t drops;  /* the places where a colour falls */
    uint32_t lines;  /* the lines that whatif_agree wrote */
};

WHATIF_NODISCARD static inline struct whatif_told whatif_nothing_told(void) {
    struct whatif_told nothing = {0u, 0u, 0u, 0u, 0u, 0u, 0u};
    return nothing;
}

/*
 * The forms that end in _told: the call of that name, with the same inputs and checks, and its outputs as one struct.
 * Refused, *told is unchanged.
 */
WHATIF_NODISCARD static inline uint32_t whatif_fresh_run_told(const uint8_t *plan, size_t plan_len,
                                                              const uint8_t *rules, size_t rules_len,
                                                              const uint16_t *nodes, size_t nodes_len,
                                                              const uint8_t *labels, size_t labels_len,
                                                              struct whatif_told *told) {
    struct whatif_told now = whatif_nothing_told();
    uint32_t answer =
        whatif_fresh_run(plan, plan_len, rules, rules_len, nodes, nodes_len, labels, labels_len, &now.state, &now.yes);
    if (answer == WHATIF_ACCEPTED)
        *told = now;
    return answer;
}

WHATIF_NODISCARD static inline uint32_t whatif_ask_told(const uint8_t *plan, size_t plan_len, const uint8_t *rules,
                                                        size_t rules_len, const uint16_t *node_table,
                                                        size_t node_table_len, const uint8_t *state_table,
                                                        size_t state_table_len, const uint16_t *nodes, size_t nodes_len,
                                                        const uint8_t *labels, size_t labels_len,
                                                        struct whatif_told *told) {
    struct whatif_told now = whatif_nothing_told();
    uint32_t answer =
        whatif_ask(plan, plan_len, rules, rules_len, node_table, node_table_len, state_table, state_table_len, nodes,
                   nodes_len, labels, labels_len, &now.state, &now.yes, &now.parts, &now.links, &now.passed);
    if (answer == WHATIF_ACCEPTED)
        *told = now;
    return answer;
}

WHATIF_NODISCARD static inline uint32_t whatif_branch_told(const uint8_t *plan, size_t plan_len, const uint8_t *branch,
                                                           size_t branch_len, const uint16_t *node_table,
                                                           size_t node_table_len, const uint8_t *state_table,
                                                           size_t state_table_len, uint32_t upper, uint32_t lower,
                                                           struct whatif_told *told) {
    struct whatif_told now = whatif_nothing_told();
    uint32_t answer = whatif_branch(plan, plan_len, branch, branch_len, node_table, node_table_len, state_table,
                                    state_table_len, upper, lower, &now.state, &now.yes, &now.links, &now.passed);
    if (answer == WHATIF_ACCEPTED)
        *told = now;
    return answer;
}

WHATIF_NODISCARD static inline uint32_t
whatif_branch_with_upper_told(const uint8_t *plan, size_t plan_len, const uint8_t *branch, size_t branch_len,
                              const uint16_t *node_table, size_t node_table_len, const uint8_t *state_table,
                              size_t state_table_len, uint32_t upper, uint32_t lower, struct whatif_told *told) {
    struct whatif_told now = whatif_nothing_told();
    uint32_t answer =
        whatif_branch_with_upper(plan, plan_len, branch, branch_len, node_table, node_table_len, state_table,
                                 state_table_len, upper, lower, &now.state, &now.yes, &now.links, &now.passed);
    if (answer == WHATIF_ACCEPTED)
        *told = now;
    return answer;
}

WHATIF_NODISCARD static inline uint32_t whatif_count_told(const uint8_t *plan, size_t plan_len, const uint8_t *rules,
                                                          size_t rules_len, const uint16_t *node_table,
                                                          size_t node_table_len, const uint8_t *state_table,
                                                          size_t state_table_len, const uint16_t *nodes,
                                                          size_t nodes_len, uint64_t *counts, size_t counts_len,
                                                          struct whatif_told *told) {
    struct whatif_told now = whatif_nothing_told();
    uint32_t answer = whatif_count(plan, plan_len, rules, rules_len, node_table, node_table_len, state_table,
                                   state_table_len, nodes, nodes_len, counts, counts_len, &now.parts, &now.links);
    if (answer == WHATIF_ACCEPTED)
        *told = now;
    return answer;
}

WHATIF_NODISCARD static inline uint32_t whatif_agree_told(const uint8_t *first, size_t first_len, const uint8_t *second,
                                                          size_t second_len, uint16_t *lines, size_t lines_len,
                                                          struct whatif_told *told) {
    struct whatif_told now = whatif_nothing_told();
    uint32_t answer = whatif_agree(first, first_len, second, second_len, lines, lines_len, &now.yes, &now.lines);
    if (answer == WHATIF_ACCEPTED)
        *told = now;
    return answer;
}

WHATIF_NODISCARD static inline uint32_t whatif_read_told(const uint8_t *record, size_t record_len,
                                                         struct whatif_told *told) {
    struct whatif_told now = whatif_nothing_told();
    uint32_t answer = whatif_read(record, record_len, &now.state, &now.yes, &now.parts, &now.links, &now.passed);
    if (answer == WHATIF_ACCEPTED)
        *told = now;
    return answer;
}

WHATIF_NODISCARD static inline uint32_t whatif_screens_read_told(const uint8_t *records, size_t records_len,
                                                                 uint32_t screen, struct whatif_told *told) {
    struct whatif_told now = whatif_nothing_told();
    uint32_t answer =
        whatif_screens_read(records, records_len, screen, &now.state, &now.yes, &now.parts, &now.links, &now.passed);
    if (answer == WHATIF_ACCEPTED)
        *told = now;
    return answer;
}

WHATIF_NODISCARD static inline uint32_t
whatif_colour_branch_told(const uint8_t *plan, size_t plan_len, const uint8_t *branch, size_t branch_len,
                          const uint16_t *node_table, size_t node_table_len, const uint16_t *colour_numbers,
                          size_t colour_numbers_len, const uint8_t *colour_bytes, size_t colour_bytes_len,
                          uint32_t upper, uint32_t lower, struct whatif_told *told) {
    struct whatif_told now = whatif_nothing_told();
    uint32_t answer = whatif_colour_branch(plan, plan_len, branch, branch_len, node_table, node_table_len,
                                           colour_numbers, colour_numbers_len, colour_bytes, colour_bytes_len, upper,
                                           lower, &now.state, &now.yes, &now.drops, &now.links);
    if (answer == WHATIF_ACCEPTED)
        *told = now;
    return answer;
}

WHATIF_NODISCARD static inline uint32_t
whatif_colour_branch_with_upper_told(const uint8_t *plan, size_t plan_len, const uint8_t *branch, size_t branch_len,
                                     const uint16_t *node_table, size_t node_table_len, const uint16_t *colour_numbers,
                                     size_t colour_numbers_len, const uint8_t *colour_bytes, size_t colour_bytes_len,
                                     uint32_t upper, uint32_t lower, struct whatif_told *told) {
    struct whatif_told now = whatif_nothing_told();
    uint32_t answer = whatif_colour_branch_with_upper(
        plan, plan_len, branch, branch_len, node_table, node_table_len, colour_numbers, colour_numbers_len,
        colour_bytes, colour_bytes_len, upper, lower, &now.state, &now.yes, &now.drops, &now.links);
    if (answer == WHATIF_ACCEPTED)
        *told = now;
    return answer;
}

WHATIF_NODISCARD static inline uint32_t
whatif_colour_ask_told(const uint8_t *plan, size_t plan_len, const uint8_t *rules, size_t rules_len,
                       const uint16_t *node_table, size_t node_table_len, const uint8_t *state_table,
                       size_t state_table_len, const uint16_t *colour_numbers, size_t colour_numbers_len,
                       const uint8_t *colour_bytes, size_t colour_bytes_len, const uint16_t *nodes, size_t nodes_len,
                       const uint8_t *labels, size_t labels_len, struct whatif_told *told) {
    struct whatif_told now = whatif_nothing_told();
    uint32_t answer =
        whatif_colour_ask(plan, plan_len, rules, rules_len, node_table, node_table_len, state_table, state_table_len,
                          colour_numbers, colour_numbers_len, colour_bytes, colour_bytes_len, nodes, nodes_len, labels,
                          labels_len, &now.state, &now.yes, &now.drops, &now.links, &now.parts);
    if (answer == WHATIF_ACCEPTED)
        *told = now;
    return answer;
}

/* The fewest changes, with names. Begin with a struct that is all zero. */
struct whatif_least {
    uint32_t least;                     /* the least number of changes, or WHATIF_NO_WAY */
    uint32_t count;                     /* the changes below: least of them where that is at most 64, else 0 */
    uint16_t nodes[WHATIF_MAX_CHANGES]; /* their nodes, rising */
    uint8_t labels[WHATIF_MAX_CHANGES]; /* the labels that these take */
};

/* whatif_fewest with its outputs as one struct, which has room for every list. Refused, *told is unchanged. */
WHATIF_NODISCARD static inline uint32_t whatif_fewest_told(const uint8_t *plan, size_t plan_len, const uint8_t *rules,
                                                           size_t rules_len, const uint64_t *may, size_t may_len,
                                                           uint32_t want, uint32_t *work, size_t work_len,
                                                           struct whatif_least *told) {
    return whatif_fewest(plan, plan_len, rules, rules_len, may, may_len, want, work, work_len, told->nodes,
                         WHATIF_MAX_CHANGES, told->labels, WHATIF_MAX_CHANGES, &told->least, &told->count);
}

/* What a deal answers, with names. */
struct whatif_dealt {
    uint32_t screen;   /* the screen that was served */
    uint32_t next;     /* the number to hand to the next deal */
    uint32_t finished; /* 1 where that was the last part of its question, else 0 */
};

/* whatif_screens_deal_lent with its outputs as one struct. Refused, *dealt is unchanged. */
WHATIF_NODISCARD static inline uint32_t whatif_screens_deal_told(uint8_t *records, size_t records_len, uint32_t first,
                                                                 const struct whatif_lent *lent,
                                                                 struct whatif_dealt *dealt) {
    struct whatif_dealt now = {0u, 0u, 0u};
    uint32_t answer = whatif_screens_deal_lent(records, records_len, first, lent, &now.next, &now.finished);
    if (answer != WHATIF_ACCEPTED)
        return answer;
    now.screen = whatif_screens_served(now.next);
    *dealt = now;
    return answer;
}

/*
 * The answer to the question that was started last, and to no other: what a panel shows.
 * whatif_read returns the last finished answer in every state. While a question is running, or after a Cancel, that is
 * the answer to an earlier question, with an earlier list.
 * Answers: WHATIF_ACCEPTED, or 1 unless the session is answered. Refused, *told is unchanged.
 * A refused Start is no question: the session stays answered with the earlier one, and so does this. Look at the answer
 * of Start before, and confirm a yes with the list before a cut.
 */
WHATIF_NODISCARD static inline uint32_t whatif_read_current(const uint8_t *record, size_t record_len,
                                                            struct whatif_told *told) {
    return whatif_session_state(record, record_len) == WHATIF_ANSWERED ? whatif_read_told(record, record_len, told)
                                                                       : (uint32_t)WHATIF_REFUSED_SESSION_STATE;
}

/* The same on a screen. Answers: WHATIF_ACCEPTED, or the first of 25, 1. */
WHATIF_NODISCARD static inline uint32_t whatif_screens_read_current(const uint8_t *records, size_t records_len,
                                                                    uint32_t screen, struct whatif_told *told) {
    if (records_len != WHATIF_SCREENS_BYTES || screen >= WHATIF_SCREENS)
        return WHATIF_REFUSED_SCREEN;
    return whatif_read_current(records + WHATIF_RECORD_BYTES * screen, WHATIF_RECORD_BYTES, told);
}

/* Why whatif_confirm says what it says. The numbers are fixed for good. */
enum whatif_reason {
    /* Nothing was compared: whatif_confirm was not called. */
    WHATIF_CONFIRM_NOTHING = 0,
    /* Cleared: the session and a fresh run both say yes to this list. */
    WHATIF_CONFIRM_CLEARED = 1,
    /* Not cleared: the session and a fresh run both say no to this list. */
    WHATIF_CONFIRM_NOT_CLEARED = 2,
    /* The session is not answered, or its record is damaged. */
    WHATIF_CONFIRM_NO_ANSWER = 3,
    /* The plan or the rule table is malformed, or names other counts than the session. */
    WHATIF_CONFIRM_OTHER_COUNTS = 4,
    /* This is not the list that the session answered, entry by entry. */
    WHATIF_CONFIRM_OTHER_LIST = 5,
    /* The fresh run refused the plan, the rule table or the list. */
    WHATIF_CONFIRM_RUN_REFUSED = 6,
    /* The fresh run ends otherwise than the session: plan, rules or tables were altered. */
    WHATIF_CONFIRM_DIFFERS = 7
};

/* What whatif_confirm returns. A struct and no number, so that `if (whatif_confirm(..))` does not compile; all zero
 * means do not cut. */
struct whatif_confirmed {
    uint32_t cut;     /* 1 where the blank may be cut, else 0 */
    uint32_t reason;  /* of enum whatif_reason; whatif_confirm_text has its sentence */
    uint32_t refusal; /* of WHATIF_CONFIRM_NO_ANSWER and WHATIF_CONFIRM_RUN_REFUSED the refusal's number, else 0 */
};

/* Used by whatif_confirm: 1 where the record lists exactly these changes, in this order. */
WHATIF_NODISCARD static inline uint32_t whatif_same_list(const uint8_t *record, size_t record_len,
                                                         const uint16_t *nodes, const uint8_t *labels, size_t count) {
    if (count != whatif_listed(record, record_len))
        return 0u;
    for (size_t i = 0; i < count; i++)
        if (whatif_listed_node(record, record_len, i) != nodes[i] ||
            whatif_listed_label(record, record_len, i) != labels[i])
            return 0u;
    return 1u;
}

/* Used by whatif_confirm: 1 where plan and rule table name the record's N, S and K. */
WHATIF_NODISCARD static inline uint32_t whatif_same_counts(const uint8_t *record, size_t record_len,
                                                           const struct whatif_lent *lent) {
    return whatif_record_nodes(record, record_len) == whatif_plan_nodes(lent->plan, lent->plan_len) &&
                   whatif_record_states(record, record_len) == whatif_rules_states(lent->rules, lent->rules_len) &&
                   whatif_record_labels(record, record_len) == whatif_rules_labels(lent->rules, lent->rules_len)
               ? 1u
               : 0u;
}

/* Used by whatif_confirm: the struct of a reason. This is the only place where cut becomes 1. */
WHATIF_NODISCARD static inline struct whatif_confirmed whatif_confirmed_as(enum whatif_reason reason,
                                                                           uint32_t refusal) {
    struct whatif_confirmed confirmed = {0u, 0u, 0u};
    confirmed.cut = reason == WHATIF_CONFIRM_CLEARED ? 1u : 0u;
    confirmed.reason = (uint32_t)reason;
    confirmed.refusal = refusal;
    return confirmed;
}

/*
 * Confirm before cutting: may the blank be cut with this plan, these rules and this list?
 * Given:   the session's record. The plan and the rule table of *lent, as they will be cut; its tables are not read.
 *          The list as it will be cut: count nodes and as many labels.
 * Checked: - The session is answered, so that this is no earlier question (else 3).
 *          - Plan and rule table name the session's N, S and K (else 4).
 *          - The record lists exactly these changes (else 5).
 *          - A fresh run of this plan and these rules with this list is accepted (else 6).
 *          - It ends in the session's state, with the session's yes or no (else 7).
 * Returns: reason, the first of 3, 4, 5, 6, 7 whose check fails, else 1 for yes or 2 for no. cut is 1 with reason 1
 *          alone. refusal is the number that a call gave, with reason 3 or 6.
 * After a cut of 1 the blank depends on no table, record or jump: whatif_fresh_run is proved, and it read this plan.
 * The lists are compared entry by entry, in order, without superseding. So 5 is also given for the same changes in
 * another order. Ask again with the list that will be cut.
 * It takes the time of a fresh run.
 */
WHATIF_NODISCARD static inline struct whatif_confirmed whatif_confirm(const uint8_t *record, size_t record_len,
                                                                      const struct whatif_lent *lent,
                                                                      const uint16_t *nodes, const uint8_t *labels,
                                                                      size_t count) {
    struct whatif_told session = whatif_nothing_told(), run = whatif_nothing_told();
    uint32_t answer = whatif_read_current(record, record_len, &session);
    if (answer != WHATIF_ACCEPTED)
        return whatif_confirmed_as(WHATIF_CONFIRM_NO_ANSWER, answer);
    if (!whatif_same_counts(record, record_len, lent))
        return whatif_confirmed_as(WHATIF_CONFIRM_OTHER_COUNTS, 0u);
    if (!whatif_same_list(record, record_len, nodes, labels, count))
        return whatif_confirmed_as(WHATIF_CONFIRM_OTHER_LIST, 0u);
    answer = whatif_fresh_run_told(lent->plan, lent->plan_len, lent->rules, lent->rules_len, nodes, count, labels,
                                   count, &run);
    if (answer != WHATIF_ACCEPTED)
        return whatif_confirmed_as(WHATIF_CONFIRM_RUN_REFUSED, answer);
    if (run.state != session.state || run.yes != session.yes)
        return whatif_confirmed_as(WHATIF_CONFIRM_DIFFERS, 0u);
    return whatif_confirmed_as(run.yes == 1u ? WHATIF_CONFIRM_CLEARED : WHATIF_CONFIRM_NOT_CLEARED, 0u);
}

/* The same on a screen. A screen above 7, or a run of another length, is 3 with the refusal 25. */
WHATIF_NODISCARD static inline struct whatif_confirmed
whatif_screens_confirm(const uint8_t *records, size_t records_len, uint32_t screen, const struct whatif_lent *lent,
                       const uint16_t *nodes, const uint8_t *labels, size_t count) {
    if (records_len != WHATIF_SCREENS_BYTES || screen >= WHATIF_SCREENS)
        return whatif_confirmed_as(WHATIF_CONFIRM_NO_ANSWER, WHATIF_REFUSED_SCREEN);
    return whatif_confirm(records + WHATIF_RECORD_BYTES * screen, WHATIF_RECORD_BYTES, lent, nodes, labels, count);
}

/* The text of a reason, in one sentence: that of its comment above. */
WHATIF_NODISCARD static inline const char *whatif_confirm_text(uint32_t reason) {
    switch (reason) {
    case WHATIF_CONFIRM_NOTHING:
        return "Nothing was compared: whatif_confirm was not called.";
    case WHATIF_CONFIRM_CLEARED:
        return "Cleared: the session and a fresh run both say yes to this list.";
    case WHATIF_CONFIRM_NOT_CLEARED:
        return "Not cleared: the session and a fresh run both say no to this list.";
    case WHATIF_CONFIRM_NO_ANSWER:
        return "The session is not answered, or its record is damaged.";
    case WHATIF_CONFIRM_OTHER_COUNTS:
        return "The plan or the rule table is malformed, or names other counts than the session.";
    case WHATIF_CONFIRM_OTHER_LIST:
        return "This is not the list that the session answered, entry by entry.";
    case WHATIF_CONFIRM_RUN_REFUSED:
        return "The fresh run refused the plan, the rule table or the list.";
    case WHATIF_CONFIRM_DIFFERS:
        return "The fresh run ends otherwise than the session: plan, rules or tables were altered.";
    default:
        return "This is no reason of this version.";
    }
}

/* The text of an answer, in one sentence: that of its comment above. */
WHATIF_NODISCARD static inline const char *whatif_answer_text(uint32_t answer) {
    switch (answer) {
    case WHATIF_ACCEPTED:
        return "The call was accepted.";
    case WHATIF_REFUSED_SESSION_STATE:
        return "The session is in a state in which this call may not be made, or its record is broken.";
    case WHATIF_REFUSED_PLAN_SHORT:
        return "The plan has fewer than 12 bytes.";
    case WHATIF_REFUSED_NODE_COUNT:
        return "The plan's node count is not 1 to 65,535.";
    case WHATIF_REFUSED_PLAN_LAYOUT:
        return "The plan's offsets or its length are not exact.";
    case WHATIF_REFUSED_PLAN_TREE:
        return "The plan's kinds are not those of one tree in post-order.";
    case WHATIF_REFUSED_TABLE_SHORT:
        return "The rule table has fewer than 20 bytes, or the branch table fewer than 16.";
    case WHATIF_REFUSED_TABLE_COUNTS:
        return "The table's count of states is not 1 to 16, or its count of labels not 1 to 64.";
    case WHATIF_REFUSED_TABLE_LAYOUT:
        return "The table's offsets or its length are not exact.";
    case WHATIF_REFUSED_TABLE_ENTRY:
        return "The table holds a state that it does not have, or a mark that is neither 0 nor 1.";
    case WHATIF_REFUSED_PLAN_LABEL:
        return "The plan has a label that the table does not have.";
    case WHATIF_REFUSED_BUFFER_SHORT:
        return "The node table, the state table or an output buffer is too short.";
    case WHATIF_REFUSED_LIST_LENGTH:
        return "The list has more than 64 changes, or not as many labels as nodes.";
    case WHATIF_REFUSED_NODE:
        return "A node given is not one of the plan.";
    case WHATIF_REFUSED_LABEL:
        return "A label given is not one of the table.";
    case WHATIF_REFUSED_NODE_TWICE:
        return "The list has a node twice.";
    case WHATIF_REFUSED_NOT_BELOW:
        return "The lower node is not at or below the upper node.";
    case WHATIF_REFUSED_LENT_LENGTH:
        return "What is lent does not have the length that the counts of nodes, states and labels need.";
    case WHATIF_REFUSED_LENT_VALUE:
        return "What Start is lent is not as built, or a value that another call reads leads outside or does not rise.";
    case WHATIF_REFUSED_PLANNER_FILE:
        return "The planner's file is malformed, or the plan is not that of a planner's file.";
    case WHATIF_REFUSED_PLANNER_LABEL:
        return "The planner's file has a label of 63 or more.";
    case WHATIF_REFUSED_PLANNER_ROOM:
        return "The planner's file has more than 32,767 nodes, or an output buffer is too short for it.";
    case WHATIF_REFUSED_LAID_OVER:
        return "Of the two lists laid over one another more than 64 nodes would remain.";
    case WHATIF_REFUSED_LABEL_COUNTS:
        return "The two rule tables do not have the same count of labels.";
    case WHATIF_REFUSED_STATE_PRODUCT:
        return "The product of the two rule tables' counts of states is above 16.";
    case WHATIF_REFUSED_SCREEN:
        return "A screen's number or the one to try first is above 7, or the run is not as long as eight records.";
    case WHATIF_REFUSED_ASSIGNMENTS:
        return "There are more than 10^18 assignments of labels to the nodes listed.";
    case WHATIF_REFUSED_COLOUR_STATES:
        return "The rule table has more than 4 states, too many for colours.";
    default:
        return "This is no answer of this version.";
    }
}

/* 1 where the session's calls refuse this record in every state: its length is another, or its bytes break the layout.
 * Else 0. It asks the library, on a copy: a Load with nothing passed in, or a Cancel where a question is running.
 * A flipped bit that leaves a record whole is not seen here, nor by any call: it is one more reason to confirm. */
WHATIF_NODISCARD static inline uint32_t whatif_record_damaged(const uint8_t *record, size_t record_len) {
    uint8_t copy[WHATIF_RECORD_BYTES];
    uint32_t answer;
    if (record_len != WHATIF_RECORD_BYTES)
        return 1u;
    whatif_put_bytes(copy, record, sizeof copy);
    if (whatif_session_state(copy, sizeof copy) == WHATIF_RUNNING)
        answer = whatif_cancel(copy, sizeof copy);
    else
        answer = whatif_load(copy, sizeof copy, NULL, 0, NULL, 0, NULL, 0, NULL, 0);
    return answer == WHATIF_REFUSED_SESSION_STATE ? 1u : 0u;
}

/* The first screen whose record is damaged; WHATIF_SCREENS where none is, or where the run has another length. */
WHATIF_NODISCARD static inline uint32_t whatif_screens_damaged(const uint8_t *records, size_t records_len) {
    for (uint32_t i = 0; records_len == WHATIF_SCREENS_BYTES && i < WHATIF_SCREENS; i++)
        if (whatif_record_damaged(records + WHATIF_RECORD_BYTES * i, WHATIF_RECORD_BYTES))
            return i;
    return WHATIF_SCREENS;
}

/*
 * Puts a record in the place of a screen's: a loaded one that was kept aside, or a fresh one, all zero. It may also be
 * that of another screen.
 * Answers: WHATIF_ACCEPTED, or the first of 25, 1. 1 is given where `record` is damaged or running. Refused, the run is
 *          unchanged.
 */
WHATIF_NODISCARD static inline uint32_t whatif_screens_replace(uint8_t *records, size_t records_len, uint32_t screen,
                                                               const uint8_t *record, size_t record_len) {
    if (records_len != WHATIF_SCREENS_BYTES || screen >= WHATIF_SCREENS)
        return WHATIF_REFUSED_SCREEN;
    if (whatif_record_damaged(record, record_len) || whatif_session_state(record, record_len) == WHATIF_RUNNING)
        return WHATIF_REFUSED_SESSION_STATE;
    whatif_put_bytes(records + WHATIF_RECORD_BYTES * screen, record, WHATIF_RECORD_BYTES);
    return WHATIF_ACCEPTED;
}

/* The calls that may get 1. A deal is an advance on a screen. */
enum whatif_call {
    WHATIF_CALL_LOAD = 0,
    WHATIF_CALL_START = 1,
    WHATIF_CALL_ADVANCE = 2,
    WHATIF_CALL_CANCEL = 3,
    WHATIF_CALL_READ = 4,
    WHATIF_CALL_READ_CURRENT = 5
};

/* Used by whatif_why_1: what a call meets in a state that is not for it, by call and state; NULL where it is. */
WHATIF_NODISCARD static inline const char *whatif_why_state(uint32_t state, enum whatif_call call) {
    static const char *const why[6][4] = {
        /* Load */
        {NULL, NULL, "A question is running: Load waits until it is finished or cancelled.", NULL},
        /* Start */
        {"No plan is loaded: call Load first.", NULL,
         "A question is running already: finish it or cancel it before the next Start.", NULL},
        /* advance, deal */
        {"No plan is loaded: call Load, then Start.", "No question is running: call Start first.", NULL,
         "The question is finished: read its answer."},
        /* Cancel */
        {"Nothing to cancel: no plan is loaded.", "Nothing to cancel: no question is running.", NULL,
         "Nothing to cancel: the question is finished."},
        /* Read */
        {"No plan is loaded: there is no answer.", "No question was finished since the last Load: there is no answer.",
         "No question was finished since the last Load: this one is still running.", NULL},
        /* whatif_read_current */
        {"No plan is loaded: there is no answer.", "No question is asked now: an earlier answer is not this one's.",
         "The question is still running: an earlier answer is not this one's.", NULL},
    };
    return state < WHATIF_NO_STATE && (uint32_t)call <= WHATIF_CALL_READ_CURRENT ? why[call][state] : NULL;
}

/*
 * Which of the causes of 1 it was, as a sentence: the length, a damaged record, or a state that is not for this call.
 * Pass the record that was refused: a refused call has not changed it.
 */
WHATIF_NODISCARD static inline const char *whatif_why_1(const uint8_t *record, size_t record_len,
                                                        enum whatif_call call) {
    struct whatif_told told;
    const char *why;
    if (record_len != WHATIF_RECORD_BYTES)
        return "The record does not have WHATIF_RECORD_BYTES bytes: another layout version, or a wrong length.";
    if (whatif_record_damaged(record, record_len))
        return "The record is damaged: put a loaded one in its place, or zero it and call Load.";
    if ((uint32_t)call > WHATIF_CALL_READ_CURRENT)
        return "This is no call that gets 1.";
    why = whatif_why_state(whatif_session_state(record, record_len), call);
    if (call == WHATIF_CALL_READ && whatif_read_told(record, record_len, &told) == WHATIF_ACCEPTED)
        why = NULL;
    return why ? why : "This record allows this call: the refusal was another record's or another call's.";
}

/* Used by whatif_screens_why_1: what a Load of eight meets. */
WHATIF_NODISCARD static inline const char *whatif_why_load_of_eight(const uint8_t *records, size_t records_len) {
    if (whatif_screens_damaged(records, records_len) < WHATIF_SCREENS)
        return "A screen's record is damaged: whatif_screens_damaged has its number. Replace it.";
    return whatif_screens_running(records, records_len)
               ? "A screen is running: Load waits until all are finished or cancelled."
               : "These records allow a Load: the refusal was another run's or another call's.";
}

/*
 * The same of a call of the screens. `screen` is the one that the call named, of a deal the number to try first, of a
 * Load any. What gets 25 has the sentence of 25.
 */
WHATIF_NODISCARD static inline const char *whatif_screens_why_1(const uint8_t *records, size_t records_len,
                                                                uint32_t screen, enum whatif_call call) {
    if (records_len != WHATIF_SCREENS_BYTES || (call != WHATIF_CALL_LOAD && screen >= WHATIF_SCREENS))
        return whatif_answer_text(WHATIF_REFUSED_SCREEN);
    if (call == WHATIF_CALL_LOAD)
        return whatif_why_load_of_eight(records, records_len);
    if (call == WHATIF_CALL_ADVANCE)
        screen = whatif_screens_next(records, records_len, screen);
    if (screen == WHATIF_SCREENS)
        return "No screen is running: there is nothing to deal.";
    return whatif_why_1(records + WHATIF_RECORD_BYTES * screen, WHATIF_RECORD_BYTES, call);
}

#ifdef __cplusplus
}
#endif

#endif /* WHATIF_H */
