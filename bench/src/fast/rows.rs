//! Rows of digits: rules 20 to 28, and conversion.

use reference::{Fault, Group};

use super::degree::{Degree, Key};
use super::leaves::LONGEST;
use super::sums::PairIndex;
use super::{author, Table};

const LONGEST_ROW: usize = 256;
/// The most digits of a sum row.
pub const MOST_PLACES: usize = LONGEST_ROW + LONGEST;

/// Rule 20 for rows that aren't there yet: how long they will be.
pub fn check_length(digits: u64) -> Result<usize, Fault> {
    match digits {
        0..=256 => Ok(digits as usize),
        _ => Err(of_rows(20, 0)),
    }
}

/// Rules 20 to 23.
pub fn check<D: Degree>(
    table: &Table<D>,
    first: &[u8],
    second: &[u8],
    sum: usize,
) -> Result<(), Fault> {
    if first.len() > LONGEST_ROW || first.len() != second.len() {
        return Err(of_rows(20, 0));
    }
    check_digits(first, table.alphabet.count, 21)?;
    check_digits(second, table.alphabet.count, 22)?;
    if sum < first.len() + table.code.depth {
        return Err(of_rows(23, 0));
    }
    Ok(())
}

/// Rules 21 and 22: the highest index first, its place only where it is too high.
fn check_digits(row: &[u8], digits: usize, number: u8) -> Result<(), Fault> {
    let highest = row.iter().fold(0, |high, &index| high.max(index));
    if usize::from(highest) < digits {
        return Ok(());
    }
    let place = row.iter().position(|&index| usize::from(index) >= digits);
    Err(of_rows(number, place.unwrap_or(0)))
}

/// Rules 24 to 26: row number, place and digit, which are small after that.
pub fn check_edit(asked: [u64; 3], places: usize, digits: usize) -> Result<[usize; 3], Fault> {
    let bounds = [2, places as u64, digits as u64];
    for (number, (asked, bound)) in (24..).zip(asked.into_iter().zip(bounds)) {
        if asked >= bound {
            return Err(Fault {
                group: Group::Editor,
                number,
                place: 0,
            });
        }
    }
    Ok(asked.map(|number| number as usize))
}

/// The alphabet index at a place of a row, 0 past its end.
pub fn digit(row: &[u8], place: usize) -> u8 {
    row.get(place).copied().unwrap_or(0)
}

/// The input index of two digits. The remainders change nothing, they only say that indexes are small.
#[inline(always)]
pub fn input(index: &PairIndex, first: u8, second: u8) -> u8 {
    index[usize::from(first % 16)][usize::from(second % 16)]
}

/// The digits of the sum from a place on and the longest word looked up for them, or 27. The row has the input indexes of these places, in
/// front of them the eight below; the window moves up one of them at a time. The word looked up below place 0 doesn't count.
#[inline(always)]
pub fn convert<D: Degree, const PLACES: usize>(
    table: &Table<D>,
    find: impl Fn(u64) -> usize,
    row: &[u8],
    from: usize,
    digits: &mut [u8],
) -> Result<usize, Fault> {
    let moved = |window: u64, index: u8| window >> 8 | u64::from(index) << 56;
    let (lower, row) = row.split_at(LONGEST);
    let mut window = lower.iter().fold(0, |window, index| moved(window, *index));
    let lowest = find(window);
    let mut below = D::key(table.code.weight(lowest));
    let mut reach = table.code.length(lowest) * usize::from(from > 0);
    let mut leaves = [0; PLACES];
    // All three cut to one length, so that no place has to be compared with it.
    let leaves = &mut leaves[..digits.len()];
    let row = &row[..digits.len()];
    for (leaf, index) in leaves.iter_mut().zip(row) {
        window = moved(window, *index);
        *leaf = find(window) as u16;
    }
    for at in 0..digits.len() {
        let own = table.code.weight(leaves[at].into());
        let here = D::element(table.sections.inputs[usize::from(row[at])].as_ref());
        let carried_up = D::key_times_base(&table.sections.base, own);
        let digit = D::key(here).plus(below).minus(carried_up);
        digits[at] = table.alphabet.index(digit).ok_or(author(27, from + at))?;
        below = D::key(own);
        reach = reach.max(table.code.length(leaves[at].into()));
    }
    Ok(reach)
}

/// Writes digits over a part of the sum; how many bytes changed.
pub fn renew(part: &mut [u8], digits: &[u8]) -> usize {
    let changed = part.iter().zip(digits).filter(|(x, y)| x != y).count();
    part.copy_from_slice(digits);
    changed
}

/// Rules 20, 21 and 28, and the value. Zeros at the top add nothing and are passed over.
pub fn value<D: Degree>(table: &Table<D>, row: &[u8]) -> Result<D::Parts, Fault> {
    if row.len() > LONGEST_ROW {
        return Err(of_rows(20, 0));
    }
    check_digits(row, table.alphabet.count, 21)?;
    let mut total = D::ZERO;
    for place in (0..significant(row)).rev() {
        let mut next = D::element(table.sections.alphabet[usize::from(row[place])].as_ref());
        for (power, part) in table.sections.base.as_ref().iter().zip(total.as_ref()) {
            for (sum, of_power) in next.as_mut().iter_mut().zip(power.as_ref()) {
                *sum += of_power * part;
            }
        }
        total = next;
        let over = |part: &i64| part.abs() > i64::from(i32::MAX);
        if total.as_ref().iter().any(over) {
            return Err(of_rows(28, place));
        }
    }
    Ok(total)
}

/// The length of a row without the zeros at its top, to within 16.
fn significant(row: &[u8]) -> usize {
    let (rest, blocks) = row.as_rchunks::<16>();
    let last = blocks.iter().rposition(|block| *block != [0; 16]);
    rest.len() + 16 * last.map_or(0, |last| last + 1)
}

fn of_rows(number: u8, place: usize) -> Fault {
    Fault {
        group: Group::Rows,
        number,
        place,
    }
}
