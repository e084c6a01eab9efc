//! Mistakes about the degree (job 8). Each is made with files of one degree only, so that it has to be found by cases of that degree.

use reference::file::{self, Contents, Form, Sections};
use reference::ring::determinant;
use reference::table::{self, Reading, Table};
use reference::{assemble, Base, Element, Fault, Group, DEGREES};

use super::Mistake;
use crate::interface::{Call, Lent, FACTS, FAULT, PARTS};
use crate::model;

/// What is done wrong at one degree.
#[derive(Clone, Copy, Debug, PartialEq, Eq)]
pub enum Slip {
    /// The degree is refused with 3.
    Unknown,
    /// Bytes that are left over in section 0 are let through.
    Rounded,
    /// d is told by another section's length.
    ToldBy(usize),
    /// Records have four bytes and leaves eight.
    RecordsOfFour,
    /// There may be 32,000 bytes of leaves, as at degree two.
    LeavesByBytes,
    /// The numbers of section 0 have another limit.
    BaseLimit(i64),
    /// Rule 4 looks in section 3 where degree two has its weights.
    SizesAsAtTwo,
    /// The parts of ω^d are read lowest first, those of β highest first, or those of every record.
    PowerLowestFirst,
    BaseHighestFirst,
    RecordsHighestFirst,
    /// Beyond degree two rule 5 is given; at degree two it isn't.
    Rule5,
    /// At degree two rule 6 looks at the determinant alone.
    Rule6,
    /// A determinant passes rule 6.
    Passes(i128),
    /// The determinant has one product with the wrong sign.
    WrongSign,
    /// Digits are compared without their last part.
    PartNotCompared,
    /// Rule 13 looks at two parts.
    ZeroByTwoParts,
    /// β times a weight is made with a column too few.
    ColumnTooFew,
    /// Rule 28 looks at two parts.
    LimitOfTwoParts,
    /// The last part of a value is told as zero or not at all, or zeros are told above it.
    LastPartZero,
    LastPartKept,
    ZerosAbove,
}

/// The mistakes of this file.
pub fn mistakes() -> Vec<Mistake> {
    use Slip::*;
    let mut all = Vec::new();
    for degree in DEGREES {
        let mut slips = vec![
            Unknown,
            Rounded,
            ToldBy(1),
            ToldBy(3),
            PowerLowestFirst,
            BaseHighestFirst,
            RecordsHighestFirst,
            Rule5,
            LastPartZero,
            LastPartKept,
        ];
        match degree {
            2 => slips.push(Rule6),
            _ => slips.extend([
                RecordsOfFour,
                LeavesByBytes,
                BaseLimit(if degree == 4 { 64 } else { 32 }),
                SizesAsAtTwo,
                Passes(-1),
                Passes(0),
                Passes(1),
                WrongSign,
                PartNotCompared,
                ZeroByTwoParts,
                ColumnTooFew,
                LimitOfTwoParts,
            ]),
        }
        if degree < PARTS {
            slips.push(ZerosAbove);
        }
        let at_degree = |slip| Mistake::AtDegree(degree, slip);
        all.extend(slips.into_iter().map(at_degree));
    }
    all
}

/// A call of an implementation with such a mistake.
pub fn call(degree: usize, slip: Slip, call: &Call, lent: &mut Lent) -> u64 {
    let before = lent.clone();
    let read = |file: &[u8]| read(degree, slip, file);
    let returned = model::call_by(read, call, lent);
    if !call.takes_table() || !matches!(returned, FACTS | FAULT) {
        return returned;
    }
    match table::read(&lent.table) {
        Ok(table) if table.base.degree() == degree => {
            spoil(slip, &table, call, returned, &before, lent)
        }
        _ => returned,
    }
}

fn author(number: u8, place: usize) -> Fault {
    Fault {
        group: Group::Author,
        number,
        place,
    }
}

/// Rules 1 to 13 with the mistake in them.
fn read(degree: usize, slip: Slip, file: &[u8]) -> Reading {
    let mut sections = file::read_sections(file)?;
    if slip == Slip::Rounded && sections[0].len() / 4 == degree {
        sections[0] = &sections[0][..4 * degree];
        return table::read(&assemble(&sections.map(<[u8]>::to_vec)));
    }
    if sections[0].len() != 4 * degree {
        return table::read(file);
    }
    check_sections(degree, slip, file, &sections)?;
    let contents = contents(degree, slip, &sections);
    check_base(degree, slip, &contents.base)?;
    if slip == Slip::PartNotCompared {
        check_repeats(&contents.alphabet, 7)?;
        check_repeats(&contents.inputs, 8)?;
    }
    table::judge(contents)
}

/// Rules 3 and 4.
fn check_sections(
    degree: usize,
    slip: Slip,
    file: &[u8],
    sections: &Sections,
) -> Result<(), Fault> {
    let unknown = match slip {
        Slip::Unknown => true,
        Slip::ToldBy(section) => sections[section].len() != 4 * degree,
        _ => false,
    };
    if unknown {
        return Err(author(3, 0));
    }
    let mut form = Form::of_degree(degree);
    if slip == Slip::RecordsOfFour {
        form.element = 4;
    }
    form.check_lengths(sections)?;
    if slip == Slip::LeavesByBytes && sections[3].len() > 32_000 {
        return Err(author(3, 3));
    }
    match slip {
        Slip::BaseLimit(limit) => form.base_limit = limit,
        Slip::SizesAsAtTwo => form.element = 4,
        _ => (),
    }
    form.check_sizes(file, sections)
}

fn contents(degree: usize, slip: Slip, sections: &Sections) -> Contents {
    let mut form = Form::of_degree(degree);
    if slip == Slip::RecordsOfFour {
        form.element = 4;
    }
    let mut contents = form.contents(sections);
    let mut numbers = contents.base.numbers();
    match slip {
        Slip::PowerLowestFirst => numbers[..degree].reverse(),
        Slip::BaseHighestFirst => numbers[degree..].reverse(),
        Slip::ZeroByTwoParts => contents.leaves[0].weight.parts[2..].fill(0),
        _ => (),
    }
    contents.base = Base::of(&numbers);
    let weights = contents.leaves.iter_mut().map(|leaf| &mut leaf.weight);
    let digits = contents.alphabet.iter_mut().chain(&mut contents.inputs);
    for element in digits.chain(weights) {
        match slip {
            Slip::RecordsOfFour => element.parts.resize(degree, 0),
            Slip::RecordsHighestFirst => element.parts.reverse(),
            _ => (),
        }
    }
    contents
}

/// Rules 5 and 6.
fn check_base(degree: usize, slip: Slip, base: &Base) -> Result<(), Fault> {
    let numbers = base.numbers();
    // The numbers that are s and t at degree two.
    let square = Base::of(&[numbers[0], numbers[1], 2, 0]).splits();
    if square && (degree == 2) != (slip == Slip::Rule5) {
        return Err(author(5, 0));
    }
    let by_determinant = degree > 2 || slip == Slip::Rule6;
    let size = match slip {
        Slip::WrongSign => wrong_determinant(&base.matrix()),
        _ => determinant(base.matrix()),
    };
    let passes = match slip {
        Slip::Passes(allowed) if size == allowed => true,
        _ if by_determinant => !(-1..=1).contains(&size),
        _ => base.passes(),
    };
    match passes {
        true => Ok(()),
        false => Err(author(6, 0)),
    }
}

/// The determinant by its first row, whose second entry isn't taken with the other sign.
fn wrong_determinant(matrix: &[Vec<i64>]) -> i128 {
    let (first, rest) = matrix.split_first().expect("a row");
    let of_column = |(column, entry): (usize, &i64)| {
        let without = |row: &Vec<i64>| {
            let mut row = row.clone();
            row.remove(column);
            row
        };
        let minor = determinant(rest.iter().map(without).collect());
        let sign = if column == 3 { -1 } else { 1 };
        sign * i128::from(*entry) * minor
    };
    first.iter().enumerate().map(of_column).sum()
}

/// All parts of an element but the last.
fn cut(element: &Element) -> &[i64] {
    &element.parts[..element.parts.len() - 1]
}

/// A record that repeats an earlier one but for the last part.
fn check_repeats(records: &[Element], number: u8) -> Result<(), Fault> {
    let repeats = |at: &usize| {
        let mut earlier = records[..*at].iter();
        earlier.any(|other| cut(other) == cut(&records[*at]))
    };
    match (1..records.len()).find(repeats) {
        Some(record) if records[0].is_zero() => Err(author(number, record)),
        _ => Ok(()),
    }
}

/// Mistakes that are made with a table past 1 to 13.
fn spoil(
    slip: Slip,
    table: &Table,
    call: &Call,
    returned: u64,
    before: &Lent,
    lent: &mut Lent,
) -> u64 {
    let degree = table.base.degree();
    match (slip, call) {
        (Slip::PartNotCompared, Call::Check) if returned == FAULT && lent.answer[1] == 14 => {
            let known = |digit: &Element| table.alphabet.iter().any(|x| cut(x) == cut(digit));
            let weights = |leaf: &Element| table.base.times(leaf);
            check_again(table, weights, known, before, lent)
        }
        (Slip::ColumnTooFew, Call::Check) => {
            let known = |digit: &Element| table.alphabet.contains(digit);
            let weights = |leaf: &Element| {
                let mut leaf = leaf.clone();
                leaf.parts[degree - 1] = 0;
                table.base.times(&leaf)
            };
            check_again(table, weights, known, before, lent)
        }
        (Slip::LimitOfTwoParts, Call::Value) if returned == FAULT && lent.answer[1] == 28 => {
            value_again(table, before, lent).unwrap_or(returned)
        }
        (Slip::LastPartZero, Call::Value) if returned == FACTS => {
            lent.answer[degree] = 0;
            returned
        }
        (Slip::LastPartKept, Call::Value) if returned == FACTS => {
            lent.answer[degree] = before.answer[degree];
            returned
        }
        (Slip::ZerosAbove, Call::Value) if returned == FACTS => {
            lent.answer[1 + degree..=PARTS].fill(0);
            returned
        }
        _ => returned,
    }
}

/// Rule 14 with another product or another comparison.
fn check_again(
    table: &Table,
    times: impl Fn(&Element) -> Element,
    known: impl Fn(&Element) -> bool,
    before: &Lent,
    lent: &mut Lent,
) -> u64 {
    let bad = table.leaves.iter().position(|upper| {
        let left = &table.inputs[usize::from(upper.word[0])] - &times(&upper.weight);
        table.leaves.iter().any(|lower| {
            let fit = upper.word[1..].iter().zip(&lower.word).all(|(x, y)| x == y);
            fit && !known(&(&left + &lower.weight))
        })
    });
    lent.answer.clone_from(&before.answer);
    match bad {
        Some(upper) => {
            lent.answer[..3].copy_from_slice(&[1, 14, upper as i64]);
            FAULT
        }
        None => {
            let (depth, leaves) = (table.depth as i64, table.leaves.len() as i64);
            let digits = table.alphabet.len() as i64;
            let pairs = table.fitting_pairs() as i64;
            lent.answer[..5].copy_from_slice(&[0, depth, leaves, digits, pairs]);
            FACTS
        }
    }
}

/// The value, as far as two parts stay within 32 bits and the others don't grow out of sight.
fn value_again(table: &Table, before: &Lent, lent: &mut Lent) -> Option<u64> {
    let mut total = Element::zero(table.base.degree());
    for index in lent.first.iter().rev() {
        total = &table.base.times(&total) + &table.alphabet[usize::from(*index)];
        let fits = |part: &i64| part.abs() <= i64::from(i32::MAX);
        let in_sight = |part: &i64| part.abs() < 1 << 40;
        if !total.parts[..2].iter().all(fits) || !total.parts.iter().all(in_sight) {
            return None;
        }
    }
    lent.answer.clone_from(&before.answer);
    lent.answer[0] = 0;
    lent.answer[1..=total.parts.len()].copy_from_slice(&total.parts);
    Some(FACTS)
}
