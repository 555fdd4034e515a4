//! Wrong variants of the reference, for the test that the comparison notices each of them. Outside `making` nothing is
//! `made`, and `unless` gives what is right. mistakes.patch has the places where they are made.

use std::cell::Cell;

#[derive(Clone, Copy, Debug, PartialEq, Eq)]
pub enum Mistake {
    /// The left child's state is taken for the right one's, and the other way round.
    ChildrenExchanged,
    /// "Using the run's state for a sibling that itself holds a changed node."
    SiblingFromOldRun,
    /// "Climbing to the part's root and so applying its old label."
    ClimbToTheRoot,
    /// A part's own label is taken as it was, not as changed.
    OldLabel,
    /// A move to the parent applies the node's own label.
    LabelOfTheNode,
    /// "Ready set without the children of a branching member."
    ChildrenLeftOut,
    /// "Composing branch maps from the wrong end."
    MapsFromTheWrongEnd,
    /// Words are read from the lower node up.
    WordsUpward,
    /// The word from below the upper node has its label, and the other word has not.
    ReadingsExchanged,
    /// The upper node's label is looked at where the word runs from below it.
    UpperRead,
    /// The jump of the jump is taken where the first distance is greater than the second, not equal.
    JumpRule,
    /// In a climb the jump is taken if its depth is greater than t, not at least t.
    ClimbRule,
    /// Where jump and parent are the same node, the move is to the parent.
    ParentBeforeJump,
    /// A question stays clean after an advance that was lent other bytes.
    CleanForEver,
    /// Finished is told one part too early.
    FinishedEarly,
    /// The moves of a climb are told as the nodes that it passed over.
    PassedCountsMoves,
    /// The nodes strictly between a climb's start and its end are told.
    PassedBetween,
    /// The nodes passed over are taken from the part's root, which is above the climb's end.
    PassedFromUpper,
    /// They are taken from the depth that was asked for, whatever depth the climb ends at.
    PassedToTheDepthAsked,
    /// Read tells the links in their place.
    PassedToldAsLinks,
    /// A Start goes on counting the nodes that the question before passed over.
    PassedKept,
    /// A record may have more links than nodes passed over.
    PassedFree,
    /// A Start goes on counting the links of the question before.
    LinksKept,
    /// Cancel empties the last finished answer.
    CancelEmpties,
    /// Start empties it.
    StartEmpties,
    /// An accepted Load keeps it.
    LoadKeeps,
    /// Whether the last finished question was clean is asked of the running one.
    LastCleanByRunning,
    /// In answered the last finished answer may be another than the record's own.
    LastFree,
    /// Numbers of 32 bits are cut to 16.
    NumbersCut,
    /// The nodes of a branch question are cut to 16 bits.
    NodesCut,
    /// 14 is put before 13.
    LabelsBeforeNodes,
    /// The full check compares the excess, too.
    ExcessCompared,
    /// The full check does not look at the last byte, which belongs to the root's map.
    LastByteFree,
    /// Any mark but 0 is a yes.
    AnyMarkIsYes,
    /// Of two entries of a record for one node, the first holds.
    FirstEntryHolds,
    /// Of two entries for one node in the list of a fresh run or a question, the first holds.
    FirstTapHolds,
    /// Of two lists laid over one another, the lower one's label holds.
    UpperUnderLower,
    /// 22 counts the entries of both lists, not the nodes that remain.
    EntriesRemain,
    /// A listed node whose label is the plan's stays in W.
    OwnLabelListed,
    /// What changes nothing is told entry by entry, before superseding.
    EntriesCompared,
    /// Unused entries of a record may be anything.
    TailsFree,
    /// A link that leads outside the plan or does not rise is no cause for 18.
    NodeTableIsNoCause,
    /// Start does not ask whether the headers name the record's N, S and K.
    NamesNotAsked,
    /// Start looks at the node table alone.
    BytesNotAsked,
    /// In a merged table p and q become q×S1+p.
    PairsExchanged,
    /// A merged state is marked where one of its two states is.
    EitherMark,
    /// 24 is put before 23.
    ProductBeforeLabels,
    /// Whether two tables agree is asked of plans of one node alone.
    LeavesAlone,
    /// Of two children the one that was found last is always the left one.
    NewestOnTheLeft,
    /// The image has a list's rest at the left and its children's list at the right.
    ListsExchanged,
    /// An empty list becomes a leaf with label 0.
    EmptyLabel,
    /// A planner's node is told one place too early.
    PlacesEarly,
    /// 21 is put before 20.
    RoomBeforeLabels,
    /// A plan with two trees at the top goes home.
    TwoTrees,
    /// An open node has its own label alone.
    OwnLabelOnly,
    /// The counts of two children are added, not multiplied.
    ForkAdded,
    /// The counts of a member stay at their states, as if no climb led from it.
    CountsNotCarried,
    /// 10^18 assignments are too many.
    LimitRefused,
    /// 15 is put before 13.
    TwiceBeforeNodes,
    /// A deal tries screen 0 first, whatever number it is handed.
    ServedFromZero,
    /// A deal tells the screen served, not the one past it.
    ServedTold,
    /// Past screen 7 the number told is 8.
    EightToldPastSeven,
    /// A deal refused with 17 or 18 goes on to the next running screen.
    RefusedGoesOn,
    /// A deal is refused where any of the eight records is broken.
    DealAsksAll,
    /// A deal passes over a broken record whose state says running.
    BrokenPassedOver,
    /// An accepted Load clears the first screen alone.
    OneCleared,
    /// An accepted Load leaves the last finished answers.
    AnswersStay,
    /// A call on a screen is written to the record after it, too.
    NextOneWritten,
    /// Screen numbers are cut to 8 bits.
    ScreenCut,
    /// 1 is put before 25.
    StateBeforeScreen,
    /// A run that is one byte longer is taken.
    LongerRun,
    /// A colour whose state is taken gets the lowest state that no colour leads to, not the lowest that no lower one has.
    FreeOfAll,
    /// The last drop on a path is told as none.
    LastDropFree,
    /// The depth among the nodes where a colour falls counts the node itself.
    DepthsWithTheNode,
    /// The word from below the upper node begins in the copy above it.
    CopyAbove,
    /// The drops of a target state that is not the one are left out.
    FailedTrialFree,
    /// Target states are tried in falling order.
    TargetsFalling,
    /// A step down goes by the side of the other child.
    PreimageOfTheOtherSide,
    /// 27 is put after 10.
    StatesAfterLabels,
    /// A label is allowed where the plan as it is is cleared, whatever the label.
    OldVerdictForEveryLabel,
    /// The state that is put in is that of the run.
    RunStatePutIn,
    /// Room for the masks is asked for before the labels of the plan.
    RoomBeforePlanLabels,
    /// Every node of a relabelling is counted as changed, also one that keeps its label.
    KeptLabelsCounted,
    /// The first relabelling that does it is taken for the least.
    FirstRelabellingTaken,
    /// Every node may take every label, whatever sets are given.
    SetsNotLookedAt,
    /// A cleared plan is wanted, whatever is asked for.
    ClearedForEveryWant,
    /// 11 is put before 17 in the fewest changes.
    RoomBeforeSets,
    /// A whole question counts the listed nodes as its parts.
    ListedToldAsParts,
    /// Its answer is that of the plan as it is.
    WholeOfTheOldPlan,
}

thread_local! {
    static MADE: Cell<Option<Mistake>> = const { Cell::new(None) };
}

/// Is this mistake made?
pub fn made(mistake: Mistake) -> bool {
    MADE.with(Cell::get) == Some(mistake)
}

/// What is right; what is wrong where this mistake is made.
pub fn unless<T>(mistake: Mistake, right: T, wrong: T) -> T {
    if made(mistake) {
        wrong
    } else {
        right
    }
}

/// Makes a mistake in this thread while `f` runs.
pub fn making<T>(mistake: Option<Mistake>, f: impl FnOnce() -> T) -> T {
    MADE.with(|made| made.set(mistake));
    let done = f();
    MADE.with(|made| made.set(None));
    done
}
