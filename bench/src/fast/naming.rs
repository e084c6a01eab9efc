//! The second pass, after a no: which rule of 1 to 13 is broken first, and where.

use reference::Fault;

use super::author;
use super::degree::{Degree, Key};
use super::layout::{self, is_square, signed, unsigned};

/// The fault of a file that breaks a rule of 1 to 13.
pub fn first_broken<D: Degree>(file: &[u8]) -> Fault {
    let broken = layout::<D>(file).err();
    let fault = broken.or_else(|| contents::<D>(file).err());
    fault.expect("a file that is not accepted breaks a rule")
}

fn demand(holds: bool, number: u8, place: usize) -> Result<(), Fault> {
    if holds {
        Ok(())
    } else {
        Err(author(number, place))
    }
}

/// A section as its pair of the directory says.
fn section(file: &[u8], number: usize) -> &[u8] {
    &file[unsigned(file, 4 * number)..][..unsigned(file, 4 * number + 2)]
}

/// Rules 1 to 4.
fn layout<D: Degree>(file: &[u8]) -> Result<(), Fault> {
    demand((20..=65_535).contains(&file.len()), 1, 0)?;
    let mut end = 20;
    for pair in 0..5 {
        let start = unsigned(file, 4 * pair);
        let follows = start == end;
        end = start + unsigned(file, 4 * pair + 2);
        let closes = end <= file.len() && (pair < 4 || end == file.len());
        demand(follows && closes, 2, pair)?;
    }
    let records = layout::records(D::PARTS);
    for (number, (record, least, most)) in records.into_iter().enumerate() {
        let length = section(file, number).len();
        let allowed = (least * record..=most * record).contains(&length);
        demand(length.is_multiple_of(record) && allowed, 3, number)?;
    }
    let numbers = [
        (0, 0, D::BASE_LIMIT as i16),
        (1, 0, 64),
        (2, 0, 128),
        (3, 4, 1_024),
    ];
    for (number, skipped, limit) in numbers {
        sizes(file, number, [records[number].0, skipped], limit)?;
    }
    Ok(())
}

/// Rule 4 in a section whose records have their numbers behind some bytes to be skipped.
fn sizes(file: &[u8], number: usize, record: [usize; 2], limit: i16) -> Result<(), Fault> {
    let start = unsigned(file, 4 * number);
    let [size, skipped] = record;
    for at in (start..start + section(file, number).len()).step_by(2) {
        let judged = (at - start) % size >= skipped;
        let allowed = (-limit..=limit).contains(&signed(file, at));
        demand(allowed || !judged, 4, at)?;
    }
    Ok(())
}

/// Rules 5 to 13, of a file that passes 1 to 4.
fn contents<D: Degree>(file: &[u8]) -> Result<(), Fault> {
    let base = section(file, 0);
    let [s, t] = [0, 2].map(|at| i64::from(signed(base, at)));
    demand(D::PARTS > 2 || !is_square(s * s + 4 * t), 5, 0)?;
    demand(
        layout::base_holds::<D>(base, &layout::base::<D>(base)),
        6,
        0,
    )?;
    let key = |record: &D::Record| D::key(D::element(record.as_ref()));
    let keys = |number| D::records(section(file, number)).iter().map(key).collect();
    let (alphabet, inputs): (Vec<D::Key>, Vec<D::Key>) = (keys(1), keys(2));
    for (record, digit) in alphabet.iter().enumerate() {
        demand(new_digit(&alphabet, record, *digit), 7, record)?;
    }
    input_digits(&alphabet, &inputs)?;
    leaves::<D>(section(file, 3), section(file, 4), inputs.len())
}

/// Record 0 is zero, and no record repeats an earlier one.
fn new_digit<K: Key>(records: &[K], record: usize, digit: K) -> bool {
    (record > 0 || digit == K::ZERO) && !records[..record].contains(&digit)
}

/// Rule 8.
fn input_digits<K: Key>(alphabet: &[K], inputs: &[K]) -> Result<(), Fault> {
    for (record, input) in inputs.iter().enumerate() {
        demand(new_digit(inputs, record, *input), 8, record)?;
    }
    let mut sums = alphabet
        .iter()
        .flat_map(|x| alphabet.iter().map(|y| x.plus(*y)));
    demand(sums.all(|sum| inputs.contains(&sum)), 8, inputs.len())
}

/// Rules 9 to 13.
fn leaves<D: Degree>(records: &[u8], words: &[u8], inputs: usize) -> Result<(), Fault> {
    let size = 4 + 2 * D::PARTS;
    let last = records.len() / size - 1;
    let mut end = 0;
    for (leaf, record) in records.chunks_exact(size).enumerate() {
        let (start, length) = (unsigned(record, 0), unsigned(record, 2));
        let follows = start == end && (1..=8).contains(&length);
        end = start + length;
        let closes = end <= words.len() && (leaf < last || end == words.len());
        demand(follows && closes, 9, leaf)?;
    }
    for (place, index) in words.iter().enumerate() {
        demand(usize::from(*index) < inputs, 10, place)?;
    }
    let word = |record: &[u8]| words[unsigned(record, 0)..][..unsigned(record, 2)].to_vec();
    let code: Vec<Vec<u8>> = records.chunks_exact(size).map(word).collect();
    for (leaf, pair) in code.windows(2).enumerate() {
        let above = pair[0] < pair[1] && !pair[1].starts_with(&pair[0]);
        demand(above, 11, leaf + 1)?;
    }
    let strings = |word: &Vec<u8>| (inputs as u64).pow(8 - word.len() as u32);
    let covered: u64 = code.iter().map(strings).sum();
    demand(covered == (inputs as u64).pow(8), 12, 0)?;
    demand(records[4..size].iter().all(|byte| *byte == 0), 13, 0)
}
