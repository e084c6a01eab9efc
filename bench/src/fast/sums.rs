//! The sums and differences of two alphabet digits among the input digits (rules 8 and 42), each indexed once.

use super::degree::{Degree, Slot};
use super::layout::Sections;

const MOST_DIGITS: usize = 16;

/// The input index of the sum, or of the difference, of two alphabet digits.
pub type PairIndex = [[u8; MOST_DIGITS]; MOST_DIGITS];

/// A hash table of input digits.
struct Inputs<D: Degree, const SLOTS: usize> {
    slots: [D::Slot; SLOTS],
}

/// An element as one number that adds as elements do; elements with parts up to 128 have numbers of their own.
fn number<D: Degree>(record: &D::Record) -> i64 {
    let element = D::element(record.as_ref());
    let parts = element.as_ref().iter();
    parts.fold(0, |number, part| 512 * number + part)
}

impl<D: Degree, const SLOTS: usize> Inputs<D, SLOTS> {
    /// The slot of a digit, or the empty one where it would go.
    fn slot(&self, number: i64) -> usize {
        let mut slot = D::Slot::hash(number) % SLOTS;
        while self.slots[slot] != D::Slot::EMPTY && !self.slots[slot].holds(number) {
            slot = (slot + 1) % SLOTS;
        }
        slot
    }

    /// The table of all input digits, if record 0 is zero and none repeats.
    fn of(records: &[D::Record]) -> Option<Self> {
        let slots = [D::Slot::EMPTY; SLOTS];
        let mut inputs = Inputs::<D, SLOTS> { slots };
        for (index, record) in records.iter().enumerate() {
            let number = number::<D>(record);
            let slot = inputs.slot(number);
            if inputs.slots[slot] != D::Slot::EMPTY {
                return None;
            }
            inputs.slots[slot] = D::Slot::new(number, index as u8);
        }
        (number::<D>(&records[0]) == 0).then_some(inputs)
    }

    /// The index of the digit with this number, if there is one.
    fn index(&self, number: i64) -> Option<u8> {
        let found = self.slots[self.slot(number)];
        (found != D::Slot::EMPTY).then(|| found.index())
    }
}

/// The index of sums, if record 0 of the input digits is zero, none repeats and no sum is missing.
pub fn index<D: Degree>(sections: &Sections<D>) -> Option<PairIndex> {
    // A quarter full at most, and small where the table is, since it is cleared for every call.
    match sections.inputs.len() {
        0..=16 => sums_with::<D, 64>(sections),
        17..=34 => sums_with::<D, 128>(sections),
        _ => sums_with::<D, 512>(sections),
    }
}

/// The index of differences, first digit minus second; else the first digit of the lowest pair whose difference isn't there. Of a
/// table past rule 8.
pub fn differences<D: Degree>(sections: &Sections<D>) -> Result<PairIndex, usize> {
    match sections.inputs.len() {
        0..=16 => differences_with::<D, 64>(sections),
        17..=34 => differences_with::<D, 128>(sections),
        _ => differences_with::<D, 512>(sections),
    }
}

/// The alphabet digits as numbers.
fn digits<D: Degree>(sections: &Sections<D>) -> [i64; MOST_DIGITS] {
    let mut digits = [0; MOST_DIGITS];
    for (digit, record) in digits.iter_mut().zip(sections.alphabet) {
        *digit = number::<D>(record);
    }
    digits
}

fn sums_with<D: Degree, const SLOTS: usize>(sections: &Sections<D>) -> Option<PairIndex> {
    let inputs = Inputs::<D, SLOTS>::of(sections.inputs)?;
    let digits = digits(sections);
    let mut index = [[0; MOST_DIGITS]; MOST_DIGITS];
    for x in 0..sections.alphabet.len() {
        for y in 0..=x {
            let input = inputs.index(digits[x] + digits[y])?;
            index[x][y] = input;
            index[y][x] = input;
        }
    }
    Some(index)
}

fn differences_with<D: Degree, const SLOTS: usize>(
    sections: &Sections<D>,
) -> Result<PairIndex, usize> {
    let inputs = Inputs::<D, SLOTS>::of(sections.inputs).ok_or(0usize)?;
    let digits = digits(sections);
    let mut index = [[0; MOST_DIGITS]; MOST_DIGITS];
    for x in 0..sections.alphabet.len() {
        for y in 0..sections.alphabet.len() {
            index[x][y] = inputs.index(digits[x] - digits[y]).ok_or(x)?;
        }
    }
    Ok(index)
}
