//! Why a call was refused: the pinned numbers of include/whatif.h, with its sentences.

use core::fmt;

macro_rules! refusals {
    ($($name:ident = $number:literal, $sentence:literal;)*) => {
        /// Why a call was refused. A refused call has changed nothing. The numbers are those of docs/REFUSALS.md, which
        /// the sections *Errors* of this documentation name.
        #[derive(Clone, Copy, Debug, PartialEq, Eq, Hash)]
        #[non_exhaustive]
        pub enum Refusal {
            $(#[doc = concat!("Number ", stringify!($number), ". ", $sentence)] $name,)*
            /// A number that this version does not know: the library is of another one.
            Unknown(u32),
        }

        impl Refusal {
            /// All that this version knows, by rising number.
            pub const ALL: &'static [Refusal] = &[$(Refusal::$name),*];

            /// The refusal of a number; none for 0, which is no refusal.
            ///
            /// ```
            /// use whatif::Refusal;
            /// assert_eq!(Refusal::from_number(5), Some(Refusal::PlanTree));
            /// assert_eq!(Refusal::from_number(0), None);
            /// assert_eq!(Refusal::from_number(999), Some(Refusal::Unknown(999)));
            /// ```
            #[must_use]
            pub const fn from_number(number: u32) -> Option<Refusal> {
                match number {
                    0 => None,
                    $($number => Some(Refusal::$name),)*
                    other => Some(Refusal::Unknown(other)),
                }
            }

            /// The library's number, as the documents give it.
            #[must_use]
            pub const fn number(self) -> u32 {
                match self {
                    $(Refusal::$name => $number,)*
                    Refusal::Unknown(number) => number,
                }
            }

            /// One sentence.
            #[must_use]
            pub const fn sentence(self) -> &'static str {
                match self {
                    $(Refusal::$name => $sentence,)*
                    Refusal::Unknown(_) => "This is no answer of this version.",
                }
            }
        }
    };
}

refusals! {
    // refusals: generated from interface.txt by tools/interface
    SessionState = 1, "The session is in a state in which this call may not be made, or its record is broken.";
    PlanShort = 2, "The plan has fewer than 12 bytes.";
    NodeCount = 3, "The plan's node count is not 1 to 65,535.";
    PlanLayout = 4, "The plan's offsets or its length are not exact.";
    PlanTree = 5, "The plan's kinds are not those of one tree in post-order.";
    TableShort = 6, "The rule table has fewer than 20 bytes, or the branch table fewer than 16.";
    TableCounts = 7, "The table's count of states is not 1 to 16, or its count of labels not 1 to 64.";
    TableLayout = 8, "The table's offsets or its length are not exact.";
    TableEntry = 9, "The table holds a state that it does not have, or a mark that is neither 0 nor 1.";
    PlanLabel = 10, "The plan has a label that the table does not have.";
    BufferShort = 11, "The node table, the state table or an output buffer is too short.";
    ListLength = 12, "The list has more than 64 changes, or not as many labels as nodes.";
    Node = 13, "A node given is not one of the plan.";
    Label = 14, "A label given is not one of the table.";
    NodeTwice = 15, "The list has a node twice.";
    NotBelow = 16, "The lower node is not at or below the upper node.";
    LentLength = 17, "What is lent does not have the length that the counts of nodes, states and labels need.";
    LentValue = 18, "What Start is lent is not as built, or a value that another call reads leads outside or does not rise.";
    PlannerFile = 19, "The planner's file is malformed, or the plan is not that of a planner's file.";
    PlannerLabel = 20, "The planner's file has a label of 63 or more.";
    PlannerRoom = 21, "The planner's file has more than 32,767 nodes, or an output buffer is too short for it.";
    LaidOver = 22, "Of the two lists laid over one another more than 64 nodes would remain.";
    LabelCounts = 23, "The two rule tables do not have the same count of labels.";
    StateProduct = 24, "The product of the two rule tables' counts of states is above 16.";
    Screen = 25, "A screen's number or the one to try first is above 7, or the run is not as long as eight records.";
    Assignments = 26, "There are more than 10^18 assignments of labels to the nodes listed.";
    ColourStates = 27, "The rule table has more than 4 states, too many for colours.";
    // end of refusals
}

impl fmt::Display for Refusal {
    fn fmt(&self, f: &mut fmt::Formatter<'_>) -> fmt::Result {
        write!(f, "refused {}: {}", self.number(), self.sentence())
    }
}

#[cfg(feature = "std")]
impl std::error::Error for Refusal {}
