//! The calls that are given a table, by what the reader made of its file: a table past 1 to 13, or the fault that they pass on.

use crate::answer::{editor, rows, Answer, Fault};
use crate::bad_row::{self, BadRow};
use crate::conversion::converted_row;
use crate::element::{Element, Operation};
use crate::reach;
use crate::table::{Reading, Table};

/// The longest row that rule 20 lets pass.
pub const LONGEST_ROW: usize = 256;

/// The facts of the check; the fitting pairs came with job 13.
#[derive(Clone, Copy, Debug, PartialEq, Eq)]
pub struct TableFacts {
    pub depth: usize,
    pub leaves: usize,
    pub digits: usize,
    pub pairs: usize,
}

/// The facts of a forecast (job 13): the fitting pairs, and the bytes that the sum of two rows will need.
#[derive(Clone, Copy, Debug, PartialEq, Eq)]
pub struct ForecastFacts {
    pub pairs: usize,
    pub bytes: usize,
}

/// The facts of addition and subtraction: the digits written, and the reach (job 7).
#[derive(Clone, Copy, Debug, PartialEq, Eq)]
pub struct RowFacts {
    pub written: usize,
    pub reach: usize,
}

/// The facts of the edit: the count of sum bytes that changed, and the reach (job 7).
#[derive(Clone, Copy, Debug, PartialEq, Eq)]
pub struct EditFacts {
    pub changed: usize,
    pub reach: usize,
}

/// An edit in a list: row number, place and new digit.
pub type Asked = (u64, u64, u64);

/// The table, or the reader's fault.
fn table_of(reading: &Reading) -> Result<&Table, Fault> {
    reading.as_ref().map_err(|fault| *fault)
}

/// The table check: rules 1 to 14.
pub fn check(reading: &Reading) -> Answer<TableFacts> {
    let judge = || {
        let table = table_of(reading)?;
        let pairs = table.check_pairs()?;
        Ok(TableFacts {
            depth: table.depth,
            leaves: table.leaves.len(),
            digits: table.alphabet.len(),
            pairs,
        })
    };
    judge().into()
}

/// The row that refusal 14 is about, which is no fault here; none where there is nothing to show.
pub fn bad_row(reading: &Reading) -> Answer<Option<BadRow>> {
    table_of(reading).map(bad_row::first).into()
}

/// The forecast for rows of so many digits. It looks at words alone, so that a table that rule 14 refuses has one too.
pub fn forecast(reading: &Reading, digits: u64) -> Answer<ForecastFacts> {
    let look = || {
        let table = table_of(reading)?;
        rows(digits <= LONGEST_ROW as u64, 20, 0)?;
        Ok(ForecastFacts {
            pairs: table.fitting_pairs(),
            bytes: digits as usize + table.depth,
        })
    };
    look().into()
}

/// Addition and subtraction. Rule 8 has every sum among the input digits, so only differences have to be judged, by 42, after 23.
pub fn combine(
    operation: Operation,
    reading: &Reading,
    first: &[u8],
    second: &[u8],
    out: &mut [u8],
) -> Answer<RowFacts> {
    let convert = || {
        let table = table_of(reading)?;
        check_rows(table, first, second, out.len())?;
        if operation == Operation::Difference {
            table.check_differences()?;
        }
        let places = 0..first.len() + table.depth;
        let digits = converted_row(operation, table, first, second, places)?;
        let inputs = reach::inputs(operation, table, first, second);
        let looked_up = reach::places_of_rows(table, first.len());
        Ok((digits, reach::reach(table, &inputs, looked_up)))
    };
    let taken = convert().map(|(digits, reach)| {
        let written = digits.len();
        out[..written].copy_from_slice(&digits);
        RowFacts { written, reach }
    });
    taken.into()
}

/// The digit edit: stores a digit and renews the sum places p to p + h; says how many of these bytes changed, and the reach in the rows
/// as edited.
pub fn edit(
    reading: &Reading,
    first: &mut [u8],
    second: &mut [u8],
    sum: &mut [u8],
    (row, place, digit): Asked,
) -> Answer<EditFacts> {
    let judge = || {
        let table = table_of(reading)?;
        check_rows(table, first, second, sum.len())?;
        check_edit(table, first.len(), (row, place, digit))?;
        // All three are small now. Rule 27 judges the rows as they will be, before anything is stored.
        let (place, digit) = (place as usize, digit as u8);
        let mut edited = [first.to_vec(), second.to_vec()];
        edited[row as usize][place] = digit;
        let places = place..place + table.depth + 1;
        let digits = converted_row(Operation::Sum, table, &edited[0], &edited[1], places)?;
        let inputs = reach::inputs(Operation::Sum, table, &edited[0], &edited[1]);
        let looked_up = reach::places_of_edit(table, place);
        let reach = reach::reach(table, &inputs, looked_up);
        Ok((edited, place, digits, reach))
    };
    let taken = judge().map(|(edited, place, digits, reach)| {
        first.copy_from_slice(&edited[0]);
        second.copy_from_slice(&edited[1]);
        let renewed = &mut sum[place..place + digits.len()];
        let changed = renewed.iter().zip(&digits).filter(|(x, y)| x != y).count();
        renewed.copy_from_slice(&digits);
        EditFacts { changed, reach }
    });
    taken.into()
}

/// A list of edits: the check, then the addition, then each edit, with an answer for each. Where the check or the addition refuses,
/// nothing is written. After a taken edit the whole sum row is computed anew, and the count is of all its bytes that changed. The
/// answers are the counts alone, without a reach.
pub fn run(
    reading: &Reading,
    first: &mut [u8],
    second: &mut [u8],
    sum: &mut [u8],
    edits: &[Asked],
) -> Answer<Vec<Answer<usize>>> {
    if let Answer::Fault(fault) = check(reading) {
        return Answer::Fault(fault);
    }
    if let Answer::Fault(fault) = combine(Operation::Sum, reading, first, second, sum) {
        return Answer::Fault(fault);
    }
    let answers = edits.iter().map(|&(row, place, digit)| {
        let mut take = || {
            let table = table_of(reading)?;
            check_edit(table, first.len(), (row, place, digit))?;
            match row {
                0 => first[place as usize] = digit as u8,
                _ => second[place as usize] = digit as u8,
            }
            let places = 0..first.len() + table.depth;
            let digits = converted_row(Operation::Sum, table, first, second, places)?;
            let changed = sum.iter().zip(&digits).filter(|(x, y)| x != y).count();
            sum[..digits.len()].copy_from_slice(&digits);
            Ok(changed)
        };
        take().into()
    });
    Answer::Facts(answers.collect())
}

/// The value of a row, from the top place down (Horner), refused with 28 as soon as a part leaves ±2,147,483,647.
pub fn value(reading: &Reading, row: &[u8]) -> Answer<Element> {
    let evaluate = || {
        let table = table_of(reading)?;
        rows(row.len() <= LONGEST_ROW, 20, 0)?;
        check_digits(table, row, 21)?;
        let mut total = Element::zero(table.base.degree());
        for place in (0..row.len()).rev() {
            total = &table.base.times(&total) + &table.alphabet[usize::from(row[place])];
            let fits = |part: &i64| part.abs() <= i64::from(i32::MAX);
            rows(total.parts.iter().all(fits), 28, place)?;
        }
        Ok(total)
    };
    evaluate().into()
}

/// Rules 20 to 23. The rows are judged as lent, the digit to be replaced included.
fn check_rows(table: &Table, first: &[u8], second: &[u8], sum: usize) -> Result<(), Fault> {
    let short = first.len() <= LONGEST_ROW && second.len() <= LONGEST_ROW;
    rows(short && first.len() == second.len(), 20, 0)?;
    check_digits(table, first, 21)?;
    check_digits(table, second, 22)?;
    rows(sum >= first.len() + table.depth, 23, 0)
}

/// Rules 21 and 22: each byte of a row is an alphabet index.
fn check_digits(table: &Table, row: &[u8], number: u8) -> Result<(), Fault> {
    let foreign = row
        .iter()
        .position(|&x| usize::from(x) >= table.alphabet.len());
    rows(foreign.is_none(), number, foreign.unwrap_or(0))
}

/// Rules 24 to 26, of rows of some length.
fn check_edit(table: &Table, length: usize, (row, place, digit): Asked) -> Result<(), Fault> {
    editor(row <= 1, 24)?;
    editor(place < length as u64, 25)?;
    editor(digit < table.alphabet.len() as u64, 26)
}
