//! Kinds of cases that a refusal number alone doesn't tell apart: those of subtraction and of input digits beyond the sums (job 2),
//! those of midpoints at the half (job 6), those of the reach (job 7), those of degree three and four (job 8), those of the forecast
//! (job 13), those of bad rows (job 5), those of mirrored tables (job 3), and those of orders of edits (job 10).

mod bad_row;
mod degrees;
mod forecast;
pub mod mirrored;
pub mod orders;
mod reach;

use crate::further::{self, Digits};
use crate::interface::{Call, Lent};
use crate::tally::Outcome;

/// A kind of case that a run should meet.
#[derive(Clone, Copy, Debug, PartialEq, Eq, PartialOrd, Ord)]
pub enum Kind {
    /// Subtraction gives facts.
    Subtracted,
    /// The same where some difference is no sum, so that further input digits are needed.
    SubtractedByFurther,
    /// 42 at place 0, and at a later one.
    UnlistedFromZero,
    UnlistedFromLater,
    /// 42 with empty rows, and with a second row of zeros, whose own differences are all listed.
    UnlistedEmptyRows,
    UnlistedHarmlessRows,
    /// 27 by subtraction.
    BadDifference,
    /// A table with further input digits is accepted; one of them stands in front of a sum; there are 136 records.
    FurtherAccepted,
    FurtherBetweenAccepted,
    FurtherFull,
    /// 14, though the leaves of sums alone would pass.
    FurtherBreaks14,
    /// 8 for a further digit that repeats an earlier one, and for a missing sum in spite of further digits.
    FurtherRepeated,
    SumMissingAmongFurther,
    /// As many records as sums or more, but a sum is missing.
    SumReplaced,
    /// Additions and edits with further digits in the table.
    FurtherAdded,
    FurtherEdited,
    /// The values of two rows and their sum or difference, all three within 32 bits.
    SumValues,
    DifferenceValues,
    /// A half that goes up to the even neighbour, and one that goes down.
    HalfUp,
    HalfDown,
    /// A half below zero, and one whose sum doesn't fit into 32 bits.
    HalfBelowZero,
    HalfOfWideSum,
    /// A reach under the depth.
    AddReachesLess,
    SubtractReachesLess,
    EditReachesLess,
    /// Addition or subtraction whose longest words stand above the rows only; the same where they aren't leaf 0's.
    LongestAbove,
    LongestAboveNotZeros,
    /// Addition or subtraction with the longest word at place 0 only.
    LongestAtPlace0,
    /// Empty rows where leaf 0 has more than one digit.
    LongZerosWithoutRows,
    /// Subtraction with another reach than addition of the same rows.
    ReachOfDifferences,
    /// An edit with the longest word at p − 1 only, also at p = 1; at p + h only; above the rows only.
    LongestBelowEdit,
    LongestBelowEditAt1,
    LongestAtTopOfEdit,
    LongestAboveInEdit,
    /// An edit with a longer word just beside its places: at −1 where p = 0, at p − 2, at p + h + 1.
    LongerBelowZero,
    LongerBelowEdit,
    LongerAboveEdit,
    /// An edit that reaches further than it would in the rows before it, and one that reaches less far.
    ReachGained,
    ReachLost,
    /// 3 for a section 0 between the lengths of two degrees.
    BaseBetweenDegrees,
    /// 3 for another section, where section 0 tells degree three or four.
    RecordsOfOtherDegree,
    /// 4 for a number of section 0 at degree four that the others allow; accepted at degree three with one that four doesn't allow.
    OverTheLimitOfFour,
    WideBaseOfThree,
    /// Beyond degree two, past 4: numbers that rule 5 would refuse at degree two.
    SquareBeyondTwo,
    /// Beyond degree two: 6 by each determinant, and ±2 past it.
    DeterminantMinusOne,
    DeterminantZero,
    DeterminantOne,
    DeterminantTwo,
    /// A table of degree three is accepted, and one of degree four; with a weight that has no part zero; with over 32,000 bytes of leaves.
    ThreeAccepted,
    FourAccepted,
    AllPartsWeigh,
    ManyLeavesBeyondTwo,
    /// Calls beyond degree two that give facts, and 27.
    AddedBeyondTwo,
    SubtractedBeyondTwo,
    EditedBeyondTwo,
    RanBeyondTwo,
    ValueBeyondTwo,
    BadDigitBeyondTwo,
    /// 28 where the first two parts fit, and a value with a higher part at the limit.
    HighPartOver,
    HighPartAtLimit,
    /// A half in the third or fourth part of a midpoint.
    HalfOfHighPart,
    /// A forecast for rows of no digit and of 256; 20 for 257 digits, and for more than 32 bits hold.
    ForecastOfNothing,
    ForecastOfMost,
    ForecastJustOver,
    ForecastFarOver,
    /// A fault of the table, though the digits are over 256 too.
    TableFaultBeforeDigits,
    /// Fewer pairs than leaves squared; more of them than 16 bits hold; over 3,000 leaves.
    PairsUnderSquare,
    ManyPairs,
    ForecastOfManyLeaves,
    /// A tail that is longer than a word that fits it.
    TailBeyondWord,
    /// Facts by a table that rule 14 refuses, and by one of degree three or four.
    ForecastInSpiteOf14,
    ForecastBeyondTwo,
    /// The pairs of the check and of a forecast, and the bytes of a forecast and of the sum after it.
    PairsOfCheckAndForecast,
    SumAsForecast,
    /// A bad row is shown, nothing is, and a fault of 1 to 13 is passed on.
    RowShown,
    NothingToShow,
    BadRowRefused,
    /// The upper word's tail is longer than the lower word, as long, and shorter.
    TailLonger,
    TailAsLong,
    TailShorter,
    /// A string of two digits, and one of nine.
    ShortestString,
    LongestString,
    /// The upper leaf is the lower one too.
    LeafWithItself,
    /// In small tables, before the lower leaf: one that fits and passes, and one that fails and doesn't fit.
    FittingLowerBefore,
    FailingLowerBefore,
    /// In small tables: a later lower leaf fails with the upper one too; a later upper leaf fails too, and with an earlier lower one.
    LaterLower,
    LaterUpper,
    LowerOfLaterUpper,
    /// Facts by a table of degree three or four.
    BadRowBeyondTwo,
    /// A part of the digit that 16 bits don't hold; a row shown of over 3,000 leaves.
    WideDigit,
    RowOfManyLeaves,
    /// A lent string of more than nine bytes, and one of fewer.
    LongString,
    ShortString,
    /// The upper leaf and the place of the check's 14; an addition of rows that hold the string, which says 27.
    UpperOfCheck,
    AddedBadRow,
    /// A table is mirrored, and one isn't; it is TERN, and it is BIN.
    MirroredTable,
    UnmirroredTable,
    NegatedByTern,
    NegatedByBin,
    /// A mirrored table of degree three, and one of degree four; one with words of more than two digits; one whose alphabet lacks a negated digit.
    MirroredOfThree,
    MirroredOfFour,
    MirroredLongWords,
    MirroredUnsymmetric,
    /// By a mirrored table: the sum and the difference of negated rows; refusals of both.
    NegatedSum,
    NegatedDifference,
    NegatedRefused,
    /// By one that isn't: digits that aren't the negated ones, and another reach.
    OtherDigits,
    OtherReach,
    /// Two edits in either order (job 10), neither refused: of one target; of one place in both rows; of places less than h apart, h apart, h + 1
    /// apart, and further apart; both in one row.
    OrdersOfOneTarget,
    OrdersOfOnePlace,
    OrdersNear,
    OrdersAtDepth,
    OrdersJustBeyond,
    OrdersFarApart,
    OrdersInOneRow,
    /// With a refused edit; by TERN, by BIN, by a table of degree three, of degree four, of depth eight; from a sum that isn't addition's.
    OrdersWithRefused,
    OrdersByTern,
    OrdersByBin,
    OrdersOfThree,
    OrdersOfFour,
    OrdersByDeepest,
    OrdersFromAnySum,
    /// What was demanded of both orders: the same three rows; the same counts for places h apart, and for ones further apart, among all of them from
    /// a sum that isn't addition's; the same reach, and that of the higher edit for places h apart.
    RowsDemanded,
    CountsDemandedAtDepth,
    CountsDemandedBeyond,
    CountsDemandedFromAnySum,
    ReachDemanded,
    HigherReachDemandedAtDepth,
    /// From a right sum, places h apart, and both edits change the place of the sum that both renew.
    SharedPlaceChanges,
    /// What differed where nothing was demanded: three rows for one target; counts from a right sum for places less than h apart; counts from
    /// another sum for places h apart, and the reach.
    RowsDifferOfOneTarget,
    CountsDifferNear,
    CountsDifferAtDepth,
    ReachDiffersAtDepth,
    /// A list in an order that keeps targets; with refused edits; with several edits of a target; from a sum that isn't addition's; through the
    /// runner. Counts that add up to another number.
    Reordered,
    ReorderedWithRefused,
    ReorderedRepeats,
    ReorderedFromAnySum,
    ReorderedRuns,
    TotalsDiffer,
    /// A list in an order that doesn't keep targets, and one that leaves other rows.
    TargetsTurned,
    RowsDifferTurned,
}

impl Kind {
    /// All of them, for the report of those that a run missed.
    pub const ALL: [Kind; 141] = [
        Kind::Subtracted,
        Kind::SubtractedByFurther,
        Kind::UnlistedFromZero,
        Kind::UnlistedFromLater,
        Kind::UnlistedEmptyRows,
        Kind::UnlistedHarmlessRows,
        Kind::BadDifference,
        Kind::FurtherAccepted,
        Kind::FurtherBetweenAccepted,
        Kind::FurtherFull,
        Kind::FurtherBreaks14,
        Kind::FurtherRepeated,
        Kind::SumMissingAmongFurther,
        Kind::SumReplaced,
        Kind::FurtherAdded,
        Kind::FurtherEdited,
        Kind::SumValues,
        Kind::DifferenceValues,
        Kind::HalfUp,
        Kind::HalfDown,
        Kind::HalfBelowZero,
        Kind::HalfOfWideSum,
        Kind::AddReachesLess,
        Kind::SubtractReachesLess,
        Kind::EditReachesLess,
        Kind::LongestAbove,
        Kind::LongestAboveNotZeros,
        Kind::LongestAtPlace0,
        Kind::LongZerosWithoutRows,
        Kind::ReachOfDifferences,
        Kind::LongestBelowEdit,
        Kind::LongestBelowEditAt1,
        Kind::LongestAtTopOfEdit,
        Kind::LongestAboveInEdit,
        Kind::LongerBelowZero,
        Kind::LongerBelowEdit,
        Kind::LongerAboveEdit,
        Kind::ReachGained,
        Kind::ReachLost,
        Kind::BaseBetweenDegrees,
        Kind::RecordsOfOtherDegree,
        Kind::OverTheLimitOfFour,
        Kind::WideBaseOfThree,
        Kind::SquareBeyondTwo,
        Kind::DeterminantMinusOne,
        Kind::DeterminantZero,
        Kind::DeterminantOne,
        Kind::DeterminantTwo,
        Kind::ThreeAccepted,
        Kind::FourAccepted,
        Kind::AllPartsWeigh,
        Kind::ManyLeavesBeyondTwo,
        Kind::AddedBeyondTwo,
        Kind::SubtractedBeyondTwo,
        Kind::EditedBeyondTwo,
        Kind::RanBeyondTwo,
        Kind::ValueBeyondTwo,
        Kind::BadDigitBeyondTwo,
        Kind::HighPartOver,
        Kind::HighPartAtLimit,
        Kind::HalfOfHighPart,
        Kind::ForecastOfNothing,
        Kind::ForecastOfMost,
        Kind::ForecastJustOver,
        Kind::ForecastFarOver,
        Kind::TableFaultBeforeDigits,
        Kind::PairsUnderSquare,
        Kind::ManyPairs,
        Kind::ForecastOfManyLeaves,
        Kind::TailBeyondWord,
        Kind::ForecastInSpiteOf14,
        Kind::ForecastBeyondTwo,
        Kind::PairsOfCheckAndForecast,
        Kind::SumAsForecast,
        Kind::RowShown,
        Kind::NothingToShow,
        Kind::BadRowRefused,
        Kind::TailLonger,
        Kind::TailAsLong,
        Kind::TailShorter,
        Kind::ShortestString,
        Kind::LongestString,
        Kind::LeafWithItself,
        Kind::FittingLowerBefore,
        Kind::FailingLowerBefore,
        Kind::LaterLower,
        Kind::LaterUpper,
        Kind::LowerOfLaterUpper,
        Kind::BadRowBeyondTwo,
        Kind::WideDigit,
        Kind::RowOfManyLeaves,
        Kind::LongString,
        Kind::ShortString,
        Kind::UpperOfCheck,
        Kind::AddedBadRow,
        Kind::MirroredTable,
        Kind::UnmirroredTable,
        Kind::NegatedByTern,
        Kind::NegatedByBin,
        Kind::MirroredOfThree,
        Kind::MirroredOfFour,
        Kind::MirroredLongWords,
        Kind::MirroredUnsymmetric,
        Kind::NegatedSum,
        Kind::NegatedDifference,
        Kind::NegatedRefused,
        Kind::OtherDigits,
        Kind::OtherReach,
        Kind::OrdersOfOneTarget,
        Kind::OrdersOfOnePlace,
        Kind::OrdersNear,
        Kind::OrdersAtDepth,
        Kind::OrdersJustBeyond,
        Kind::OrdersFarApart,
        Kind::OrdersInOneRow,
        Kind::OrdersWithRefused,
        Kind::OrdersByTern,
        Kind::OrdersByBin,
        Kind::OrdersOfThree,
        Kind::OrdersOfFour,
        Kind::OrdersByDeepest,
        Kind::OrdersFromAnySum,
        Kind::RowsDemanded,
        Kind::CountsDemandedAtDepth,
        Kind::CountsDemandedBeyond,
        Kind::CountsDemandedFromAnySum,
        Kind::ReachDemanded,
        Kind::HigherReachDemandedAtDepth,
        Kind::SharedPlaceChanges,
        Kind::RowsDifferOfOneTarget,
        Kind::CountsDifferNear,
        Kind::CountsDifferAtDepth,
        Kind::ReachDiffersAtDepth,
        Kind::Reordered,
        Kind::ReorderedWithRefused,
        Kind::ReorderedRepeats,
        Kind::ReorderedFromAnySum,
        Kind::ReorderedRuns,
        Kind::TotalsDiffer,
        Kind::TargetsTurned,
        Kind::RowsDifferTurned,
    ];
}

/// The kinds that a call met, from its outcome and the buffers that it was lent and left.
pub fn met(call: &Call, outcome: Outcome, before: &Lent, lent: &Lent) -> Vec<Kind> {
    let mut kinds = of_digits(call, outcome, lent);
    kinds.extend(holding(degrees::met(call, outcome, lent)));
    if let Call::Forecast { digits } = *call {
        kinds.extend(holding(forecast::met(digits, outcome, lent)));
    }
    if *call == Call::BadRow {
        kinds.extend(holding(bad_row::met(outcome, lent)));
    }
    let reaches = matches!(call, Call::Add | Call::Subtract | Call::Edit { .. });
    if reaches && outcome == Outcome::Facts {
        kinds.extend(holding(reach::met(call, before, lent)));
    }
    kinds
}

/// The kinds of subtraction, input digits and midpoints.
fn of_digits(call: &Call, outcome: Outcome, lent: &Lent) -> Vec<Kind> {
    if let (Call::Midpoint { x, y }, Outcome::Facts) = (call, outcome) {
        return holding(half(x[0], y[0]));
    }
    let judged = match (call, outcome) {
        (Call::Subtract, Outcome::Facts | Outcome::Fault(27 | 42)) => true,
        (Call::Check, Outcome::Facts | Outcome::Fault(8 | 14)) => true,
        (Call::Add | Call::Edit { .. }, Outcome::Facts) => true,
        _ => false,
    };
    let digits = judged.then(|| Digits::of(&lent.table)).flatten();
    let Some(digits) = digits else {
        return Vec::new();
    };
    holding(match (call, outcome) {
        (Call::Subtract, _) => subtraction(&digits, outcome, lent),
        (Call::Check, Outcome::Fault(8)) => broken_inputs(&digits, lent.answer[2] as usize),
        (Call::Check, _) => checked(&digits, outcome, lent),
        (Call::Add, _) => vec![(digits.any_further(), Kind::FurtherAdded)],
        _ => vec![(digits.any_further(), Kind::FurtherEdited)],
    })
}

/// Those of some kinds that hold.
pub fn holding(kinds: Vec<(bool, Kind)>) -> Vec<Kind> {
    let holding = kinds.into_iter().filter(|(holds, _)| *holds);
    holding.map(|(_, kind)| kind).collect()
}

/// Of a midpoint's first parts.
fn half(p: i32, q: i32) -> Vec<(bool, Kind)> {
    let sum = i64::from(p) + i64::from(q);
    if sum % 2 == 0 {
        return Vec::new();
    }
    let up = sum.rem_euclid(4) == 3;
    vec![
        (up, Kind::HalfUp),
        (!up, Kind::HalfDown),
        (sum < 0, Kind::HalfBelowZero),
        (i32::try_from(sum).is_err(), Kind::HalfOfWideSum),
    ]
}

fn subtraction(digits: &Digits, outcome: Outcome, lent: &Lent) -> Vec<(bool, Kind)> {
    let zeros = lent.second.iter().all(|digit| *digit == 0);
    let (from_zero, empty) = (lent.answer[2] == 0, lent.first.is_empty());
    match outcome {
        Outcome::Facts => vec![
            (true, Kind::Subtracted),
            (digits.needs_further(), Kind::SubtractedByFurther),
        ],
        Outcome::Fault(42) => vec![
            (from_zero, Kind::UnlistedFromZero),
            (!from_zero, Kind::UnlistedFromLater),
            (empty, Kind::UnlistedEmptyRows),
            (zeros && !empty, Kind::UnlistedHarmlessRows),
        ],
        _ => vec![(true, Kind::BadDifference)],
    }
}

/// Of a table past rule 8.
fn checked(digits: &Digits, outcome: Outcome, lent: &Lent) -> Vec<(bool, Kind)> {
    if !digits.any_further() {
        return Vec::new();
    }
    let full = (digits.inputs.len() == 136, Kind::FurtherFull);
    if outcome != Outcome::Facts {
        let alone = further::only_further_pairs_fail(&lent.table);
        return vec![full, (alone, Kind::FurtherBreaks14)];
    }
    vec![
        full,
        (true, Kind::FurtherAccepted),
        (digits.further_between(), Kind::FurtherBetweenAccepted),
    ]
}

/// Of a table that rule 8 refuses at a place.
fn broken_inputs(digits: &Digits, place: usize) -> Vec<(bool, Kind)> {
    let count = digits.inputs.len();
    let missing = place == count;
    vec![
        (
            !missing && place > 0 && digits.is_further(place),
            Kind::FurtherRepeated,
        ),
        (
            missing && digits.any_further(),
            Kind::SumMissingAmongFurther,
        ),
        (missing && count >= digits.sums(), Kind::SumReplaced),
    ]
}
