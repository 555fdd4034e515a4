//! The library's functions as include/whatif.h declares them: its comments say what each reads, writes and answers, and
//! what a caller must see to. A slice is a pointer, then its count of elements. The crate `whatif` has safe functions
//! over these.
//!
//! The build script finds the library and links it; README.md says where it looks and which variables it reads.
//! Constants and declarations are generated from interface.txt, which the gate compares with the header and with the
//! library's source.
#![no_std]
#![deny(missing_docs, unsafe_op_in_unsafe_fn)]

// answers: generated from interface.txt by tools/interface
/// The call was accepted.
pub const WHATIF_ACCEPTED: u32 = 0;
/// The session is in a state in which this call may not be made, or its record is broken.
pub const WHATIF_REFUSED_SESSION_STATE: u32 = 1;
/// The plan has fewer than 12 bytes.
pub const WHATIF_REFUSED_PLAN_SHORT: u32 = 2;
/// The plan's node count is not 1 to 65,535.
pub const WHATIF_REFUSED_NODE_COUNT: u32 = 3;
/// The plan's offsets or its length are not exact.
pub const WHATIF_REFUSED_PLAN_LAYOUT: u32 = 4;
/// The plan's kinds are not those of one tree in post-order.
pub const WHATIF_REFUSED_PLAN_TREE: u32 = 5;
/// The rule table has fewer than 20 bytes, or the branch table fewer than 16.
pub const WHATIF_REFUSED_TABLE_SHORT: u32 = 6;
/// The table's count of states is not 1 to 16, or its count of labels not 1 to 64.
pub const WHATIF_REFUSED_TABLE_COUNTS: u32 = 7;
/// The table's offsets or its length are not exact.
pub const WHATIF_REFUSED_TABLE_LAYOUT: u32 = 8;
/// The table holds a state that it does not have, or a mark that is neither 0 nor 1.
pub const WHATIF_REFUSED_TABLE_ENTRY: u32 = 9;
/// The plan has a label that the table does not have.
pub const WHATIF_REFUSED_PLAN_LABEL: u32 = 10;
/// The node table, the state table or an output buffer is too short.
pub const WHATIF_REFUSED_BUFFER_SHORT: u32 = 11;
/// The list has more than 64 changes, or not as many labels as nodes.
pub const WHATIF_REFUSED_LIST_LENGTH: u32 = 12;
/// A node given is not one of the plan.
pub const WHATIF_REFUSED_NODE: u32 = 13;
/// A label given is not one of the table.
pub const WHATIF_REFUSED_LABEL: u32 = 14;
/// The list has a node twice.
pub const WHATIF_REFUSED_NODE_TWICE: u32 = 15;
/// The lower node is not at or below the upper node.
pub const WHATIF_REFUSED_NOT_BELOW: u32 = 16;
/// What is lent does not have the length that the counts of nodes, states and labels need.
pub const WHATIF_REFUSED_LENT_LENGTH: u32 = 17;
/// What Start is lent is not as built, or a value that another call reads leads outside or does not rise.
pub const WHATIF_REFUSED_LENT_VALUE: u32 = 18;
/// The planner's file is malformed, or the plan is not that of a planner's file.
pub const WHATIF_REFUSED_PLANNER_FILE: u32 = 19;
/// The planner's file has a label of 63 or more.
pub const WHATIF_REFUSED_PLANNER_LABEL: u32 = 20;
/// The planner's file has more than 32,767 nodes, or an output buffer is too short for it.
pub const WHATIF_REFUSED_PLANNER_ROOM: u32 = 21;
/// Of the two lists laid over one another more than 64 nodes would remain.
pub const WHATIF_REFUSED_LAID_OVER: u32 = 22;
/// The two rule tables do not have the same count of labels.
pub const WHATIF_REFUSED_LABEL_COUNTS: u32 = 23;
/// The product of the two rule tables' counts of states is above 16.
pub const WHATIF_REFUSED_STATE_PRODUCT: u32 = 24;
/// A screen's number or the one to try first is above 7, or the run is not as long as eight records.
pub const WHATIF_REFUSED_SCREEN: u32 = 25;
/// There are more than 10^18 assignments of labels to the nodes listed.
pub const WHATIF_REFUSED_ASSIGNMENTS: u32 = 26;
/// The rule table has more than 4 states, too many for colours.
pub const WHATIF_REFUSED_COLOUR_STATES: u32 = 27;
// end of answers

// calls: generated from interface.txt by tools/interface
extern "C" {
    /// Load: begins with a plan, and writes its tables.
    /// Answers 0, or the first of 1, 2, 3, 4, 5, 6, 7, 8, 9, 10, 11.
    pub fn whatif_load(
        record: *mut u8,
        record_len: usize,
        plan: *const u8,
        plan_len: usize,
        rules: *const u8,
        rules_len: usize,
        node_table: *mut u16,
        node_table_len: usize,
        state_table: *mut u8,
        state_table_len: usize,
    ) -> u32;

    /// Start: asks a question.
    /// Answers 0, or the first of 1, 17, 12, 13, 14, 18.
    pub fn whatif_start(
        record: *mut u8,
        record_len: usize,
        plan: *const u8,
        plan_len: usize,
        rules: *const u8,
        rules_len: usize,
        node_table: *const u16,
        node_table_len: usize,
        state_table: *const u8,
        state_table_len: usize,
        nodes: *const u16,
        nodes_len: usize,
        labels: *const u8,
        labels_len: usize,
        parts: *mut u32,
    ) -> u32;

    /// Advance: handles the next part of the question.
    /// Answers 0, or the first of 1, 17, 18.
    pub fn whatif_advance(
        record: *mut u8,
        record_len: usize,
        plan: *const u8,
        plan_len: usize,
        rules: *const u8,
        rules_len: usize,
        node_table: *const u16,
        node_table_len: usize,
        state_table: *const u8,
        state_table_len: usize,
        finished: *mut u32,
    ) -> u32;

    /// Cancel: drops the question.
    /// Answers 0, or the first of 1.
    pub fn whatif_cancel(record: *mut u8, record_len: usize) -> u32;

    /// Read: returns the last finished answer.
    /// Answers 0, or the first of 1.
    pub fn whatif_read(
        record: *const u8,
        record_len: usize,
        state: *mut u32,
        yes: *mut u32,
        parts: *mut u32,
        links: *mut u32,
        passed: *mut u32,
    ) -> u32;

    /// Load of eight screens: begins with a plan on all of them, and writes its tables.
    /// Answers 0, or the first of 25, 1, 2, 3, 4, 5, 6, 7, 8, 9, 10, 11.
    pub fn whatif_screens_load(
        records: *mut u8,
        records_len: usize,
        plan: *const u8,
        plan_len: usize,
        rules: *const u8,
        rules_len: usize,
        node_table: *mut u16,
        node_table_len: usize,
        state_table: *mut u8,
        state_table_len: usize,
        next: *mut u32,
    ) -> u32;

    /// Start on a screen: asks a question there.
    /// Answers 0, or the first of 25, 1, 17, 12, 13, 14, 18.
    pub fn whatif_screens_start(
        records: *mut u8,
        records_len: usize,
        screen: u32,
        plan: *const u8,
        plan_len: usize,
        rules: *const u8,
        rules_len: usize,
        node_table: *const u16,
        node_table_len: usize,
        state_table: *const u8,
        state_table_len: usize,
        nodes: *const u16,
        nodes_len: usize,
        labels: *const u8,
        labels_len: usize,
        parts: *mut u32,
    ) -> u32;

    /// Deal: one advance for the next running screen.
    /// Answers 0, or the first of 25, 1, 17, 18.
    pub fn whatif_screens_deal(
        records: *mut u8,
        records_len: usize,
        first: u32,
        plan: *const u8,
        plan_len: usize,
        rules: *const u8,
        rules_len: usize,
        node_table: *const u16,
        node_table_len: usize,
        state_table: *const u8,
        state_table_len: usize,
        next: *mut u32,
        finished: *mut u32,
    ) -> u32;

    /// Cancel on a screen: drops its question.
    /// Answers 0, or the first of 25, 1.
    pub fn whatif_screens_cancel(records: *mut u8, records_len: usize, screen: u32) -> u32;

    /// Read on a screen: returns its last finished answer.
    /// Answers 0, or the first of 25, 1.
    pub fn whatif_screens_read(
        records: *const u8,
        records_len: usize,
        screen: u32,
        state: *mut u32,
        yes: *mut u32,
        parts: *mut u32,
        links: *mut u32,
        passed: *mut u32,
    ) -> u32;

    /// Build of rule tables: writes the tables of a plan and a rule table.
    /// Answers 0, or the first of 2, 3, 4, 5, 6, 7, 8, 9, 10, 11.
    pub fn whatif_build(
        plan: *const u8,
        plan_len: usize,
        rules: *const u8,
        rules_len: usize,
        node_table: *mut u16,
        node_table_len: usize,
        state_table: *mut u8,
        state_table_len: usize,
    ) -> u32;

    /// Full check of rule tables: are they what `whatif_build` writes?
    /// Answers 0, or the first of 2, 3, 4, 5, 6, 7, 8, 9, 10, 11.
    pub fn whatif_check(
        plan: *const u8,
        plan_len: usize,
        rules: *const u8,
        rules_len: usize,
        node_table: *const u16,
        node_table_len: usize,
        state_table: *const u8,
        state_table_len: usize,
        yes: *mut u32,
    ) -> u32;

    /// Fresh run: runs the rule table over the changed plan, without tables.
    /// Answers 0, or the first of 2, 3, 4, 5, 6, 7, 8, 9, 10, 12, 13, 14.
    pub fn whatif_fresh_run(
        plan: *const u8,
        plan_len: usize,
        rules: *const u8,
        rules_len: usize,
        nodes: *const u16,
        nodes_len: usize,
        labels: *const u8,
        labels_len: usize,
        state: *mut u32,
        yes: *mut u32,
    ) -> u32;

    /// Ask: a whole question at once, outside the session.
    /// Answers 0, or the first of 17, 12, 13, 14, 18.
    pub fn whatif_ask(
        plan: *const u8,
        plan_len: usize,
        rules: *const u8,
        rules_len: usize,
        node_table: *const u16,
        node_table_len: usize,
        state_table: *const u8,
        state_table_len: usize,
        nodes: *const u16,
        nodes_len: usize,
        labels: *const u8,
        labels_len: usize,
        state: *mut u32,
        yes: *mut u32,
        parts: *mut u32,
        links: *mut u32,
        passed: *mut u32,
    ) -> u32;

    /// Allowed labels: for each node, with which labels is the plan cleared?
    /// Answers 0, or the first of 2, 3, 4, 5, 6, 7, 8, 9, 10, 11.
    pub fn whatif_allowed(
        plan: *const u8,
        plan_len: usize,
        rules: *const u8,
        rules_len: usize,
        masks: *mut u64,
        masks_len: usize,
    ) -> u32;

    /// Clearing states: for each node, with which states of its subtree is the plan cleared?
    /// Answers 0, or the first of 2, 3, 4, 5, 6, 7, 8, 9, 10, 11.
    pub fn whatif_clearing(
        plan: *const u8,
        plan_len: usize,
        rules: *const u8,
        rules_len: usize,
        sets: *mut u16,
        sets_len: usize,
    ) -> u32;

    /// Fewest changes: how many nodes must be relabelled at least so that the plan is cleared, or no longer is?
    /// Answers 0, or the first of 2, 3, 4, 5, 6, 7, 8, 9, 10, 17, 11.
    pub fn whatif_fewest(
        plan: *const u8,
        plan_len: usize,
        rules: *const u8,
        rules_len: usize,
        may: *const u64,
        may_len: usize,
        want: u32,
        work: *mut u32,
        work_len: usize,
        nodes: *mut u16,
        nodes_len: usize,
        labels: *mut u8,
        labels_len: usize,
        least: *mut u32,
        count: *mut u32,
    ) -> u32;

    /// Build of branch tables: writes the tables of a plan and a branch table.
    /// Answers 0, or the first of 2, 3, 4, 5, 6, 7, 8, 9, 10, 11.
    pub fn whatif_branch_build(
        plan: *const u8,
        plan_len: usize,
        branch: *const u8,
        branch_len: usize,
        node_table: *mut u16,
        node_table_len: usize,
        state_table: *mut u8,
        state_table_len: usize,
    ) -> u32;

    /// Full check of branch tables: are they what `whatif_branch_build` writes?
    /// Answers 0, or the first of 2, 3, 4, 5, 6, 7, 8, 9, 10, 11.
    pub fn whatif_branch_check(
        plan: *const u8,
        plan_len: usize,
        branch: *const u8,
        branch_len: usize,
        node_table: *const u16,
        node_table_len: usize,
        state_table: *const u8,
        state_table_len: usize,
        yes: *mut u32,
    ) -> u32;

    /// Branch question: reads the labels from below `upper` down to `lower`.
    /// Answers 0, or the first of 17, 13, 16, 18.
    pub fn whatif_branch(
        plan: *const u8,
        plan_len: usize,
        branch: *const u8,
        branch_len: usize,
        node_table: *const u16,
        node_table_len: usize,
        state_table: *const u8,
        state_table_len: usize,
        upper: u32,
        lower: u32,
        state: *mut u32,
        yes: *mut u32,
        links: *mut u32,
        passed: *mut u32,
    ) -> u32;

    /// Branch question with the upper node's label: reads the labels from `upper` down to `lower`, both included.
    /// Answers 0, or the first of 17, 13, 16, 18.
    pub fn whatif_branch_with_upper(
        plan: *const u8,
        plan_len: usize,
        branch: *const u8,
        branch_len: usize,
        node_table: *const u16,
        node_table_len: usize,
        state_table: *const u8,
        state_table_len: usize,
        upper: u32,
        lower: u32,
        state: *mut u32,
        yes: *mut u32,
        links: *mut u32,
        passed: *mut u32,
    ) -> u32;

    /// Build of colour tables for a rule table: writes them, for at most four states.
    /// Answers 0, or the first of 2, 3, 4, 5, 6, 7, 8, 9, 27, 10, 11.
    pub fn whatif_colour_build(
        plan: *const u8,
        plan_len: usize,
        rules: *const u8,
        rules_len: usize,
        colour_numbers: *mut u16,
        colour_numbers_len: usize,
        colour_bytes: *mut u8,
        colour_bytes_len: usize,
    ) -> u32;

    /// Question by colours: answers a list of changes at once.
    /// Answers 0, or the first of 17, 27, 12, 13, 14, 18.
    pub fn whatif_colour_ask(
        plan: *const u8,
        plan_len: usize,
        rules: *const u8,
        rules_len: usize,
        node_table: *const u16,
        node_table_len: usize,
        state_table: *const u8,
        state_table_len: usize,
        colour_numbers: *const u16,
        colour_numbers_len: usize,
        colour_bytes: *const u8,
        colour_bytes_len: usize,
        nodes: *const u16,
        nodes_len: usize,
        labels: *const u8,
        labels_len: usize,
        state: *mut u32,
        yes: *mut u32,
        drops: *mut u32,
        links: *mut u32,
        parts: *mut u32,
    ) -> u32;

    /// Build of colour tables for a branch table: writes them.
    /// Answers 0, or the first of 2, 3, 4, 5, 6, 7, 8, 9, 10, 11.
    pub fn whatif_colour_branch_build(
        plan: *const u8,
        plan_len: usize,
        branch: *const u8,
        branch_len: usize,
        colour_numbers: *mut u16,
        colour_numbers_len: usize,
        colour_bytes: *mut u8,
        colour_bytes_len: usize,
    ) -> u32;

    /// Branch question by colours: reads the labels from below `upper` down to `lower`.
    /// Answers 0, or the first of 17, 13, 16, 18.
    pub fn whatif_colour_branch(
        plan: *const u8,
        plan_len: usize,
        branch: *const u8,
        branch_len: usize,
        node_table: *const u16,
        node_table_len: usize,
        colour_numbers: *const u16,
        colour_numbers_len: usize,
        colour_bytes: *const u8,
        colour_bytes_len: usize,
        upper: u32,
        lower: u32,
        state: *mut u32,
        yes: *mut u32,
        drops: *mut u32,
        links: *mut u32,
    ) -> u32;

    /// Branch question by colours with the upper node's label: reads the labels from `upper` down to `lower`, both
    /// included.
    /// Answers 0, or the first of 17, 13, 16, 18.
    pub fn whatif_colour_branch_with_upper(
        plan: *const u8,
        plan_len: usize,
        branch: *const u8,
        branch_len: usize,
        node_table: *const u16,
        node_table_len: usize,
        colour_numbers: *const u16,
        colour_numbers_len: usize,
        colour_bytes: *const u8,
        colour_bytes_len: usize,
        upper: u32,
        lower: u32,
        state: *mut u32,
        yes: *mut u32,
        drops: *mut u32,
        links: *mut u32,
    ) -> u32;

    /// Count of choices: how many choices of labels for the nodes listed end in each state?
    /// Answers 0, or the first of 17, 12, 13, 15, 26, 18, 11.
    pub fn whatif_count(
        plan: *const u8,
        plan_len: usize,
        rules: *const u8,
        rules_len: usize,
        node_table: *const u16,
        node_table_len: usize,
        state_table: *const u8,
        state_table_len: usize,
        nodes: *const u16,
        nodes_len: usize,
        counts: *mut u64,
        counts_len: usize,
        parts: *mut u32,
        links: *mut u32,
    ) -> u32;

    /// Merge of two rule tables: writes one that clears exactly the plans that both clear.
    /// Answers 0, or the first of 6, 7, 8, 9, 6, 7, 8, 9, 23, 24, 11.
    pub fn whatif_merge(
        first: *const u8,
        first_len: usize,
        second: *const u8,
        second_len: usize,
        merged: *mut u8,
        merged_len: usize,
    ) -> u32;

    /// Agreement of two rule tables: do they clear the same plans? Else writes a plan on which they differ.
    /// Answers 0, or the first of 6, 7, 8, 9, 6, 7, 8, 9, 23, 11.
    pub fn whatif_agree(
        first: *const u8,
        first_len: usize,
        second: *const u8,
        second_len: usize,
        lines: *mut u16,
        lines_len: usize,
        agree: *mut u32,
        count: *mut u32,
    ) -> u32;

    /// Laying over: lays one list of changes over another.
    /// Answers 0, or the first of 12, 12, 22, 11.
    pub fn whatif_lay_over(
        lower_nodes: *const u16,
        lower_nodes_len: usize,
        lower_labels: *const u8,
        lower_labels_len: usize,
        upper_nodes: *const u16,
        upper_nodes_len: usize,
        upper_labels: *const u8,
        upper_labels_len: usize,
        nodes: *mut u16,
        nodes_len: usize,
        labels: *mut u8,
        labels_len: usize,
        count: *mut u32,
    ) -> u32;

    /// Out, planner's file to plan: writes our plan, and the place of each of the file's nodes in it.
    /// Answers 0, or the first of 19, 20, 21.
    pub fn whatif_plan_of_planner(
        file: *const u8,
        file_len: usize,
        plan: *mut u8,
        plan_len: usize,
        places: *mut u16,
        places_len: usize,
    ) -> u32;

    /// Home, plan to planner's file: writes the file from which the plan came.
    /// Answers 0, or the first of 19, 21.
    pub fn whatif_planner_of_plan(plan: *const u8, plan_len: usize, file: *mut u8, file_len: usize) -> u32;

    /// Version: that of the archive, as major * 10000 + minor * 100 + patch.
    pub fn whatif_version() -> u32;
}
// end of calls
