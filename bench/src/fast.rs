//! A fast form of the reference: the same calls with the best algorithms we know, to measure the proved library against.
//!
//! - Rules 1 to 13 are judged by passes that only say yes or no, nearly without branches; after a no a second pass names the fault.
//! - An element is one key, its parts 32 bits apart, on which sums, differences and β act as on the element; the alphabet has a perfect hash.
//!   At degree two a key has 64 bits, beyond it 128. Each degree is compiled for itself.
//! - A word is a left-aligned big-endian number, so that order, "begins" and the window's search are comparisons of numbers.
//! - Rule 12 adds up how many strings each word begins; the sums of two digits, or their differences, are indexed once a call.
//! - Rule 14 walks upper and lower leaves side by side, in runs of neighbours or by sets of weights.
//! - The fitting pairs are counted without going through them: they are leaves times inputs, and some tails more.
#![forbid(unsafe_code)]

mod alphabet;
mod degree;
mod layout;
mod leaves;
mod naming;
mod pairs;
mod rows;
mod sums;
mod weights;

use reference::{Fault, Group, TableFacts};

use alphabet::Alphabet;
use degree::{Degree, Four, Three, Two};
use layout::Sections;
use leaves::Code;
use sums::PairIndex;

/// A table past 1 to 13.
struct Table<'a, D: Degree> {
    sections: Sections<'a, D>,
    alphabet: Alphabet<D>,
    sums: PairIndex,
    code: Code<'a, D>,
}

/// A call by the degree that the file tells.
macro_rules! by_degree {
    ($file:expr, $call:ident($($argument:expr),*)) => {
        match layout::degree_told($file) {
            3 => $call::<Three>($file, $($argument),*),
            4 => $call::<Four>($file, $($argument),*),
            _ => $call::<Two>($file, $($argument),*),
        }
    };
}

/// How the pairs of rule 14 are gone through.
#[derive(Clone, Copy, PartialEq)]
pub enum Pairs {
    /// Whichever is quicker for the number of leaves.
    Best,
    /// One fitting pair after the other.
    Runs,
}

/// Rules 1 to 13. With `KEYS` the words are kept as numbers, for calls that search among them often.
fn read<D: Degree, const KEYS: bool>(file: &[u8]) -> Result<Table<'_, D>, Fault> {
    accept::<D, KEYS>(file).ok_or_else(|| naming::first_broken::<D>(file))
}

/// The table, if no rule of 1 to 13 is broken.
fn accept<D: Degree, const KEYS: bool>(file: &[u8]) -> Option<Table<'_, D>> {
    let sections = layout::sections(file)?;
    let alphabet = Alphabet::of(&sections)?;
    let sums = sums::index(&sections)?;
    let code = leaves::code::<D, KEYS>(&sections)?;
    Some(Table {
        sections,
        alphabet,
        sums,
        code,
    })
}

/// The table check.
pub fn check(file: &[u8], pairs: Pairs) -> Result<TableFacts, Fault> {
    by_degree!(file, check_at(pairs))
}

fn check_at<D: Degree>(file: &[u8], pairs: Pairs) -> Result<TableFacts, Fault> {
    let table = read::<D, true>(file)?;
    let pairs = pairs::judge(&table, pairs).map_err(|upper| author(14, upper))?;
    Ok(TableFacts {
        depth: table.code.depth,
        leaves: table.code.count(),
        digits: table.alphabet.count,
        pairs,
    })
}

/// The facts of a bad row, as many as there are: one where there is nothing to show.
pub struct Shown {
    words: [i64; 7],
    count: usize,
}

impl AsRef<[i64]> for Shown {
    fn as_ref(&self) -> &[i64] {
        &self.words[..self.count]
    }
}

/// The bad row, whose string is written.
pub fn bad_row(file: &[u8], pairs: Pairs, string: &mut [u8]) -> Result<Shown, Fault> {
    by_degree!(file, bad_row_at(pairs, string))
}

fn bad_row_at<D: Degree>(file: &[u8], pairs: Pairs, string: &mut [u8]) -> Result<Shown, Fault> {
    let table = read::<D, true>(file)?;
    let mut words = [0; 7];
    let Err(upper) = pairs::judge(&table, pairs) else {
        return Ok(Shown { words, count: 1 });
    };
    let lower = pairs::first_bad_lower(&table, upper);
    let bytes = pairs::write_string(&table, upper, lower, string);
    words[..3].copy_from_slice(&[bytes, upper, lower].map(|fact| fact as i64));
    words[3..][..D::PARTS].copy_from_slice(pairs::digit(&table, upper, lower).as_ref());
    let count = 3 + D::PARTS;
    Ok(Shown { words, count })
}

/// The forecast: the fitting pairs, and the bytes of a sum.
pub fn forecast(file: &[u8], digits: u64) -> Result<[usize; 2], Fault> {
    by_degree!(file, forecast_at(digits))
}

fn forecast_at<D: Degree>(file: &[u8], digits: u64) -> Result<[usize; 2], Fault> {
    let table = read::<D, true>(file)?;
    let digits = rows::check_length(digits)?;
    Ok([pairs::count(&table), digits + table.code.depth])
}

/// Addition: the bytes written, and the reach.
pub fn add(file: &[u8], first: &[u8], second: &[u8], sum: &mut [u8]) -> Result<[usize; 2], Fault> {
    by_degree!(file, add_at(first, second, sum))
}

fn add_at<D: Degree>(
    file: &[u8],
    first: &[u8],
    second: &[u8],
    sum: &mut [u8],
) -> Result<[usize; 2], Fault> {
    let table = read::<D, true>(file)?;
    rows::check(&table, first, second, sum.len())?;
    combine(&table, &table.sums, first, second, sum)
}

/// Subtraction, with the same facts.
pub fn subtract(
    file: &[u8],
    first: &[u8],
    second: &[u8],
    out: &mut [u8],
) -> Result<[usize; 2], Fault> {
    by_degree!(file, subtract_at(first, second, out))
}

fn subtract_at<D: Degree>(
    file: &[u8],
    first: &[u8],
    second: &[u8],
    out: &mut [u8],
) -> Result<[usize; 2], Fault> {
    let table = read::<D, true>(file)?;
    rows::check(&table, first, second, out.len())?;
    let differences = sums::differences(&table.sections).map_err(|digit| author(42, digit))?;
    combine(&table, &differences, first, second, out)
}

/// The conversion of what an index makes of the digits at each place.
#[inline(always)]
fn combine<D: Degree>(
    table: &Table<D>,
    index: &PairIndex,
    first: &[u8],
    second: &[u8],
    sum: &mut [u8],
) -> Result<[usize; 2], Fault> {
    let places = first.len() + table.code.depth;
    let mut row = [0; leaves::LONGEST + rows::MOST_PLACES];
    let pairs = first.iter().zip(second);
    for (input, (x, y)) in row[leaves::LONGEST..].iter_mut().zip(pairs) {
        *input = rows::input(index, *x, *y);
    }
    let row = &row[..leaves::LONGEST + places];
    let by_first = table.code.first_digits(table.sections.inputs.len());
    let mut digits = [0; rows::MOST_PLACES];
    let digits = &mut digits[..places];
    let find = |window| by_first.search(window);
    let reach = rows::convert::<D, { rows::MOST_PLACES }>(table, find, row, 0, digits)?;
    sum[..places].copy_from_slice(digits);
    Ok([places, reach])
}

/// The digit edit; asked are row number, place and digit. The bytes changed, and the reach.
pub fn edit(
    file: &[u8],
    rows: [&mut [u8]; 2],
    sum: &mut [u8],
    asked: [u64; 3],
) -> Result<[usize; 2], Fault> {
    by_degree!(file, edit_at(rows, sum, asked))
}

fn edit_at<D: Degree>(
    file: &[u8],
    [first, second]: [&mut [u8]; 2],
    sum: &mut [u8],
    asked: [u64; 3],
) -> Result<[usize; 2], Fault> {
    let table = read::<D, false>(file)?;
    rows::check(&table, first, second, sum.len())?;
    let [row, edited, digit] = rows::check_edit(asked, first.len(), table.alphabet.count)?;
    let places = table.code.depth + 1;
    let mut inputs = [0; 2 * leaves::LONGEST + 1];
    for (at, input) in inputs[..leaves::LONGEST + places].iter_mut().enumerate() {
        // Places below 0 are zero, as those past the rows' end are.
        let place = (edited + at).wrapping_sub(leaves::LONGEST);
        let mut pair = [rows::digit(first, place), rows::digit(second, place)];
        if place == edited {
            pair[row] = digit as u8;
        }
        *input = rows::input(&table.sums, pair[0], pair[1]);
    }
    let inputs = &inputs[..leaves::LONGEST + places];
    let mut digits = [0; leaves::LONGEST + 1];
    let digits = &mut digits[..places];
    let find = |window| table.code.search_file(window);
    let reach = rows::convert::<D, { leaves::LONGEST + 1 }>(&table, find, inputs, edited, digits)?;
    [first, second][row][edited] = digit as u8;
    let changed = rows::renew(&mut sum[edited..][..digits.len()], digits);
    Ok([changed, reach])
}

/// An element of any degree: its parts are the first ones, as many as the degree.
pub struct Value {
    parts: [i64; 4],
    degree: usize,
}

impl AsRef<[i64]> for Value {
    fn as_ref(&self) -> &[i64] {
        &self.parts[..self.degree]
    }
}

/// The value of a row.
pub fn value(file: &[u8], row: &[u8]) -> Result<Value, Fault> {
    by_degree!(file, value_at(row))
}

fn value_at<D: Degree>(file: &[u8], row: &[u8]) -> Result<Value, Fault> {
    let table = read::<D, false>(file)?;
    let value = rows::value(&table, row)?;
    let mut parts = [0; 4];
    parts[..D::PARTS].copy_from_slice(value.as_ref());
    let degree = D::PARTS;
    Ok(Value { parts, degree })
}

fn author(number: u8, place: usize) -> Fault {
    Fault {
        group: Group::Author,
        number,
        place,
    }
}
