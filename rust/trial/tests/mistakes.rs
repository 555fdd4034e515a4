//! The comparison itself on trial: wrong variants of the reference implementation, each of which the rounds named with
//! it must notice; and without a mistake no round may find a difference.

use reference::mistakes::{making, Mistake};
use trial::counts::Counts;
use trial::difference::Difference;
use trial::rounds::ROUNDS;

/// The seeds of the rounds that are run at most.
const SEEDS: std::ops::Range<u64> = 1..201;

/// A mistake, and the rounds that must notice it.
const NOTICED: [(Mistake, &[&str]); 89] = [
    (Mistake::ChildrenExchanged, &["builds", "fresh runs", "questions", "other bytes", "call lists", "panels"]),
    (Mistake::SiblingFromOldRun, &["questions", "other bytes", "damaged inputs", "call lists", "panels"]),
    (Mistake::ClimbToTheRoot, &["questions", "other bytes", "damaged inputs", "call lists"]),
    (Mistake::OldLabel, &["questions", "other bytes", "damaged inputs", "call lists", "panels"]),
    (Mistake::LabelOfTheNode, &["questions", "other bytes", "damaged inputs", "call lists"]),
    (Mistake::ChildrenLeftOut, &["questions", "other bytes", "damaged inputs", "call lists", "panels"]),
    (Mistake::MapsFromTheWrongEnd, &["branch questions", "damaged tables"]),
    (Mistake::WordsUpward, &["builds", "full checks", "branch questions", "owned types"]),
    (Mistake::ReadingsExchanged, &["branch questions", "damaged tables"]),
    (Mistake::UpperRead, &["damaged tables"]),
    (Mistake::JumpRule, &["builds", "full checks", "branch questions", "questions", "call lists"]),
    (Mistake::ClimbRule, &["branch questions", "questions", "call lists"]),
    (Mistake::ParentBeforeJump, &["damaged tables", "other bytes", "damaged inputs", "call lists"]),
    (Mistake::CleanForEver, &["other bytes", "call lists"]),
    (Mistake::FinishedEarly, &["questions", "call lists", "panels"]),
    (Mistake::PassedCountsMoves, &["questions", "branch questions", "other bytes", "damaged inputs", "call lists"]),
    (Mistake::PassedBetween, &["questions", "branch questions", "other bytes", "damaged tables", "call lists"]),
    (Mistake::PassedFromUpper, &["questions", "other bytes", "damaged inputs", "call lists"]),
    (Mistake::PassedToTheDepthAsked, &["damaged tables", "damaged inputs"]),
    (Mistake::PassedToldAsLinks, &["questions", "other bytes", "call lists", "panels"]),
    (Mistake::PassedKept, &["questions", "call lists"]),
    (Mistake::PassedFree, &["damaged records"]),
    (Mistake::LinksKept, &["questions", "call lists"]),
    (Mistake::CancelEmpties, &["damaged records", "session refusals", "call lists", "panels"]),
    (Mistake::StartEmpties, &["damaged records", "session refusals", "questions", "call lists", "panels"]),
    (Mistake::LoadKeeps, &["damaged records", "call lists", "panels"]),
    (Mistake::LastCleanByRunning, &["call lists"]),
    (Mistake::LastFree, &["damaged records", "call lists"]),
    (
        Mistake::NumbersCut,
        &["refusals", "branch questions", "session refusals", "call lists", "merges", "planner files", "owned types"],
    ),
    (Mistake::NodesCut, &["branch questions"]),
    (Mistake::LabelsBeforeNodes, &["refusals", "session refusals", "panels"]),
    (Mistake::ExcessCompared, &["full checks"]),
    (Mistake::LastByteFree, &["full checks", "session refusals"]),
    (Mistake::AnyMarkIsYes, &["damaged tables", "damaged inputs"]),
    (Mistake::FirstEntryHolds, &["damaged records"]),
    (Mistake::FirstTapHolds, &["fresh runs", "questions", "call lists", "panels"]),
    (Mistake::UpperUnderLower, &["laying over"]),
    (Mistake::EntriesRemain, &["laying over"]),
    (Mistake::OwnLabelListed, &["questions", "call lists", "panels"]),
    (Mistake::EntriesCompared, &["questions", "call lists"]),
    (Mistake::TailsFree, &["damaged records", "call lists"]),
    (Mistake::NodeTableIsNoCause, &["damaged inputs"]),
    (Mistake::NamesNotAsked, &["call lists"]),
    (Mistake::BytesNotAsked, &["other bytes", "damaged inputs", "call lists"]),
    (Mistake::PairsExchanged, &["merges", "owned types"]),
    (Mistake::EitherMark, &["merges", "owned types"]),
    (Mistake::ProductBeforeLabels, &["merges"]),
    (Mistake::LeavesAlone, &["agreements", "owned types"]),
    (Mistake::NewestOnTheLeft, &["agreements"]),
    (Mistake::ListsExchanged, &["planner files", "owned types"]),
    (Mistake::EmptyLabel, &["planner files"]),
    (Mistake::PlacesEarly, &["planner files", "owned types"]),
    (Mistake::RoomBeforeLabels, &["planner files"]),
    (Mistake::TwoTrees, &["planner files"]),
    (Mistake::OwnLabelOnly, &["choices", "panels"]),
    (Mistake::ForkAdded, &["choices"]),
    (Mistake::CountsNotCarried, &["choices"]),
    (Mistake::LimitRefused, &["choices"]),
    (Mistake::TwiceBeforeNodes, &["choices"]),
    (Mistake::ServedFromZero, &["screen lists", "mills"]),
    (Mistake::ServedTold, &["screen lists", "screen refusals", "mills"]),
    (Mistake::EightToldPastSeven, &["screen lists", "screen refusals"]),
    (Mistake::RefusedGoesOn, &["screen lists"]),
    (Mistake::DealAsksAll, &["screen lists"]),
    (Mistake::BrokenPassedOver, &["screen lists"]),
    (Mistake::OneCleared, &["screen lists", "screen refusals", "mills"]),
    (Mistake::AnswersStay, &["screen lists", "screen refusals", "mills"]),
    (Mistake::NextOneWritten, &["screen lists", "screen refusals", "mills"]),
    (Mistake::ScreenCut, &["screen lists", "screen refusals", "mills"]),
    (Mistake::StateBeforeScreen, &["screen lists", "screen refusals"]),
    (Mistake::LongerRun, &["screen lists", "screen refusals"]),
    (Mistake::FreeOfAll, &["colours of words", "colours of sets"]),
    (Mistake::LastDropFree, &["colours of words"]),
    (Mistake::DepthsWithTheNode, &["colours of words", "colours of sets"]),
    (Mistake::CopyAbove, &["colours of words"]),
    (Mistake::FailedTrialFree, &["colours of sets"]),
    (Mistake::TargetsFalling, &["colours of sets", "owned types"]),
    (Mistake::PreimageOfTheOtherSide, &["colours of sets", "owned types"]),
    (Mistake::StatesAfterLabels, &["colours of sets"]),
    (Mistake::OldVerdictForEveryLabel, &["allowed labels"]),
    (Mistake::RunStatePutIn, &["allowed labels"]),
    (Mistake::RoomBeforePlanLabels, &["allowed labels"]),
    (Mistake::KeptLabelsCounted, &["fewest changes"]),
    (Mistake::FirstRelabellingTaken, &["fewest changes"]),
    (Mistake::SetsNotLookedAt, &["fewest changes"]),
    (Mistake::ClearedForEveryWant, &["fewest changes"]),
    (Mistake::RoomBeforeSets, &["fewest changes"]),
    (Mistake::ListedToldAsParts, &["whole questions"]),
    (Mistake::WholeOfTheOldPlan, &["whole questions"]),
];

/// The first difference in the rounds of a kind, and its seed.
fn first(mistake: Option<Mistake>, name: &str) -> Option<(u64, Difference)> {
    let round = ROUNDS.iter().find(|round| round.name == name).expect("a kind of round");
    let run = |seed| making(mistake, || round.run(seed, &mut Counts::default()));
    SEEDS.into_iter().find_map(|seed| Some((seed, run(seed)?)))
}

#[test]
fn every_mistake_is_noticed() {
    for (mistake, rounds) in NOTICED {
        for name in rounds {
            let found = first(Some(mistake), name);
            let (seed, difference) = found.unwrap_or_else(|| panic!("{}: {:?} was not noticed", name, mistake));
            println!("{:?}, {}, seed {}: {} ({})", mistake, name, seed, difference.what, difference.at);
            assert!(!difference.case.is_empty(), "the case is told");
            // by the comparison, not by an accident in the reference implementation
            assert!(difference.at.contains("compare/src/"), "{}: {:?}: {:?}", name, mistake, difference);
        }
    }
}

#[test]
fn without_a_mistake_there_is_no_difference() {
    for round in ROUNDS {
        assert!(first(None, round.name).is_none(), "{}", round.name);
    }
}

/// No round is there for nothing.
#[test]
fn every_kind_of_round_notices_something() {
    for round in ROUNDS {
        assert!(NOTICED.iter().any(|(_, rounds)| rounds.contains(&round.name)), "{}", round.name);
    }
}
