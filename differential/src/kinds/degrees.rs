//! Kinds of cases of degree three and four (job 8): how files tell their degree, what the rules say of sizes and base, and what calls
//! make of elements with more than two parts.

use reference::file::{self, Contents};
use reference::ring::determinant;
use reference::{table, Base, Element};

use super::Kind;
use crate::interface::{Call, Lent, PARTS};
use crate::tally::Outcome;

/// Of a call, from its outcome and the buffers that it left.
pub fn met(call: &Call, outcome: Outcome, lent: &Lent) -> Vec<(bool, Kind)> {
    if let (Call::Midpoint { x, y }, Outcome::Facts) = (call, outcome) {
        let odd = |part: usize| i64::from(x[part]) + i64::from(y[part]);
        let high = (2..PARTS).any(|part| odd(part) % 2 != 0);
        return vec![(high, Kind::HalfOfHighPart)];
    }
    let Some(length) = base_length(call, outcome, lent) else {
        return Vec::new();
    };
    let beyond = length > 8;
    match (call, outcome) {
        (Call::Check, Outcome::Fault(3)) => sections(length, lent.answer[2]),
        _ if !beyond => Vec::new(),
        (Call::Check, Outcome::Fault(4)) => vec![(over_the_limit(lent), Kind::OverTheLimitOfFour)],
        (Call::Check, _) => checked(outcome, lent),
        (Call::Value, Outcome::Facts) => given(lent),
        (Call::Value, Outcome::Fault(28)) => vec![(two_parts_fit(lent), Kind::HighPartOver)],
        (_, Outcome::Facts) => vec![(true, of_call(call))],
        (_, Outcome::Fault(27)) => vec![(true, Kind::BadDigitBeyondTwo)],
        _ => Vec::new(),
    }
}

/// The length of section 0 in a file that passes 1 and 2.
fn base_length(call: &Call, outcome: Outcome, lent: &Lent) -> Option<usize> {
    let sections = match (call.takes_table(), outcome) {
        (false, _) | (_, Outcome::TooShort | Outcome::Fault(1 | 2)) => return None,
        _ => file::read_sections(&lent.table).ok()?,
    };
    Some(sections[0].len())
}

fn of_call(call: &Call) -> Kind {
    match call {
        Call::Subtract => Kind::SubtractedBeyondTwo,
        Call::Edit { .. } => Kind::EditedBeyondTwo,
        Call::Run => Kind::RanBeyondTwo,
        Call::Forecast { .. } => Kind::ForecastBeyondTwo,
        Call::BadRow => Kind::BadRowBeyondTwo,
        _ => Kind::AddedBeyondTwo,
    }
}

/// Of a file that rule 3 refuses at a section.
fn sections(length: usize, section: i64) -> Vec<(bool, Kind)> {
    let between = (9..16).contains(&length) && length != 12;
    vec![
        (between, Kind::BaseBetweenDegrees),
        (section > 0 && length > 8, Kind::RecordsOfOtherDegree),
    ]
}

/// Where 4 is said, the number is one of section 0 and of a size that other degrees allow there.
fn over_the_limit(lent: &Lent) -> bool {
    let place = lent.answer[2] as usize;
    let number = i16::from_le_bytes([lent.table[place], lent.table[place + 1]]);
    place < 36 && i64::from(number).abs() <= 64
}

/// Where 28 is said, the first two parts are within 32 bits.
fn two_parts_fit(lent: &Lent) -> bool {
    let Ok(table) = table::read(&lent.table) else {
        return false;
    };
    let digits = lent.first[lent.answer[2] as usize..].iter().rev();
    let zero = Element::zero(table.base.degree());
    let total = digits.fold(zero, |total, index| {
        &table.base.times(&total) + &table.alphabet[usize::from(*index)]
    });
    let fits = |part: &i64| part.abs() <= i64::from(i32::MAX);
    total.parts[..2].iter().all(fits)
}

/// Of a value that is given.
fn given(lent: &Lent) -> Vec<(bool, Kind)> {
    let mut high = lent.answer[..=lent.degree()].iter().skip(3);
    let at_limit = high.any(|part| part.abs() == i64::from(i32::MAX));
    vec![
        (true, Kind::ValueBeyondTwo),
        (at_limit, Kind::HighPartAtLimit),
    ]
}

/// Of a file beyond degree two that passes 1 to 4.
fn checked(outcome: Outcome, lent: &Lent) -> Vec<(bool, Kind)> {
    let Ok(contents) = file::read(&lent.table) else {
        return Vec::new();
    };
    let Contents { base, leaves, .. } = &contents;
    let numbers = base.numbers();
    let size = determinant(base.matrix());
    let square = Base::of(&[numbers[0], numbers[1], 2, 0]).splits();
    let mut kinds = vec![(square, Kind::SquareBeyondTwo)];
    match outcome {
        Outcome::Fault(6) => kinds.extend([
            (size == -1, Kind::DeterminantMinusOne),
            (size == 0, Kind::DeterminantZero),
            (size == 1, Kind::DeterminantOne),
        ]),
        _ => kinds.push((size.abs() == 2, Kind::DeterminantTwo)),
    }
    if outcome == Outcome::Facts {
        let three = base.degree() == 3;
        let wide = numbers.iter().any(|number| number.abs() > 32);
        let full = |weight: &Element| weight.parts.iter().all(|part| *part != 0);
        let bytes = leaves.len() * (4 + 2 * base.degree());
        kinds.extend([
            (three, Kind::ThreeAccepted),
            (!three, Kind::FourAccepted),
            (three && wide, Kind::WideBaseOfThree),
            (
                leaves.iter().any(|leaf| full(&leaf.weight)),
                Kind::AllPartsWeigh,
            ),
            (bytes > 32_000, Kind::ManyLeavesBeyondTwo),
        ]);
    }
    kinds
}
