//! Mistakes in forming the carried tables by mirroring, and in the law of negated rows (job 3).

use reference::mirrored::negated_row;
use reference::table::{self, Table};
use reference::{carried, Element, Parts};

use super::Mistake;
use crate::interface::{Call, Calls, Lent, FACTS, FAULT};
use crate::model::Model;

/// What is wrong with a carried table that is formed of its non-negative half: zero and the digits above it, and the leaves whose words begin
/// with them. The rest is called mirrored here.
#[derive(Clone, Copy, Debug, PartialEq, Eq)]
pub enum Formed {
    /// A weight is one too high, a stored one or a mirrored one.
    StoredWeight,
    MirroredWeight,
    /// The last digit of a word is the next one, of a stored word or of a mirrored one.
    StoredWord,
    MirroredWord,
    /// A mirrored digit of the alphabet or of the inputs is one too high, or every mirrored word begins with the digit after the right one.
    AlphabetOff,
    InputOff,
    FirstDigitsOff,
    /// The sign isn't turned: of alphabet digits, of input digits, of weights, of the first digits of words.
    AlphabetKept,
    InputsKept,
    WeightsKept,
    FirstDigitsKept,
    /// The lower digit of a mirrored word isn't negated, and its weight is that of the other word.
    LowerDigitsKept,
    /// Mirrored leaves, alphabet digits or input digits in reverse order.
    LeavesReversed,
    AlphabetReversed,
    InputsReversed,
    /// Mirrored leaves in the order of those that they are mirrored from.
    LeavesInStoredOrder,
    /// Zero is mirrored too, so that the last digit has no room.
    ZeroTwice,
    /// The mirrored half is left out: zeros.
    HalfOnly,
    /// The other carried table, as far as there is room.
    Exchanged,
}

/// How addition or subtraction breaks the law: only where something is negative.
#[derive(Clone, Copy, Debug, PartialEq, Eq)]
pub enum Negative {
    /// The highest negative digit is written as zero; all negative digits are written as the negated ones.
    HighestLost,
    SignLost,
    /// Where a row has a negative digit: the reach is one more, a place less is told, 27 is said.
    ReachOff,
    PlacesOff,
    Refused,
}

/// The mistakes of this file.
pub fn mistakes() -> Vec<Mistake> {
    use Negative::*;
    let mut all: Vec<Mistake> = formed().map(|slip| Mistake::Carried("tern", slip)).to_vec();
    all.extend(formed().map(|slip| Mistake::Carried("bin", slip)));
    // TERN has no lower digits, and its mirrored leaves stand in the stored order; BIN has one mirrored alphabet digit.
    let without_effect = |mistake: &Mistake| {
        matches!(
            mistake,
            Mistake::Carried(
                "tern",
                Formed::LowerDigitsKept | Formed::LeavesInStoredOrder
            ) | Mistake::Carried("bin", Formed::AlphabetReversed)
        )
    };
    all.retain(|mistake| !without_effect(mistake));
    for name in ["add", "subtract"] {
        let slips = [HighestLost, SignLost, ReachOff, PlacesOff, Refused];
        all.extend(slips.map(|slip| Mistake::Negative(name, slip)));
    }
    all
}

fn formed() -> [Formed; 19] {
    use Formed::*;
    [
        StoredWeight,
        MirroredWeight,
        StoredWord,
        MirroredWord,
        AlphabetOff,
        InputOff,
        FirstDigitsOff,
        AlphabetKept,
        InputsKept,
        WeightsKept,
        FirstDigitsKept,
        LowerDigitsKept,
        LeavesReversed,
        AlphabetReversed,
        InputsReversed,
        LeavesInStoredOrder,
        ZeroTwice,
        HalfOnly,
        Exchanged,
    ]
}

/// A call of an implementation that hands out such a table.
pub fn call(name: &str, slip: Formed, call: &Call, lent: &mut Lent) -> u64 {
    let returned = Model.call(call, lent);
    if call.name() == name && returned == FACTS {
        let (own, other) = match call {
            Call::Tern => (carried::tern_parts(), carried::bin_parts()),
            _ => (carried::bin_parts(), carried::tern_parts()),
        };
        let file = match slip {
            Formed::Exchanged => other.write(),
            _ => Halves::of(own).form(slip).write(),
        };
        let room = lent.sum.len().min(file.len());
        lent.sum[..room].copy_from_slice(&file[..room]);
    }
    returned
}

/// A carried table and where its mirrored halves begin.
struct Halves {
    parts: Parts,
    digits: usize,
    inputs: usize,
    leaves: usize,
}

impl Halves {
    fn of(parts: Parts) -> Self {
        let negative = |record: &Vec<i16>| record[0] < 0;
        let first = |records: &[Vec<i16>]| records.iter().position(negative).unwrap_or(0);
        let (digits, inputs) = (first(&parts.alphabet), first(&parts.inputs));
        let mirrored = |leaf: &(Vec<u8>, Vec<i16>)| usize::from(leaf.0[0]) >= inputs;
        let leaves = parts.leaves.iter().position(mirrored).unwrap_or(0);
        Halves {
            parts,
            digits,
            inputs,
            leaves,
        }
    }

    /// The table as the mistake forms it.
    fn form(mut self, slip: Formed) -> Parts {
        let (alphabet, inputs) = (&mut self.parts.alphabet, &mut self.parts.inputs);
        let minus = |record: &mut Vec<i16>| record[0] = -record[0];
        match slip {
            Formed::AlphabetOff => alphabet[self.digits][0] += 1,
            Formed::InputOff => inputs[self.inputs][0] += 1,
            Formed::AlphabetKept => alphabet[self.digits..].iter_mut().for_each(minus),
            Formed::InputsKept => inputs[self.inputs..].iter_mut().for_each(minus),
            Formed::AlphabetReversed => alphabet[self.digits..].reverse(),
            Formed::InputsReversed => inputs[self.inputs..].reverse(),
            Formed::ZeroTwice => {
                for (records, from) in [(alphabet, self.digits), (inputs, self.inputs)] {
                    records.insert(from, vec![0, 0]);
                    records.pop();
                }
            }
            Formed::HalfOnly => {
                for (records, from) in [(alphabet, self.digits), (inputs, self.inputs)] {
                    records[from..].fill(vec![0, 0]);
                }
                for (word, weight) in &mut self.parts.leaves[self.leaves..] {
                    word.fill(0);
                    weight.fill(0);
                }
            }
            _ => self.form_leaves(slip),
        }
        self.parts
    }

    fn form_leaves(&mut self, slip: Formed) {
        let inputs = self.parts.inputs.len() as u8;
        let (first, below) = (self.inputs as u8, self.inputs as u8 - 1);
        let (stored, mirrored) = self.parts.leaves.split_at_mut(self.leaves);
        let next = |digit: &mut u8| *digit = (*digit + 1) % inputs;
        let last = |leaves: &mut [(Vec<u8>, Vec<i16>)]| {
            let leaf = leaves.last_mut();
            leaf.and_then(|leaf| leaf.0.last_mut())
                .into_iter()
                .for_each(next);
        };
        match slip {
            Formed::StoredWeight => stored[1].1[0] += 1,
            Formed::MirroredWeight => mirrored[0].1[0] += 1,
            Formed::StoredWord => last(stored),
            Formed::MirroredWord => last(mirrored),
            Formed::FirstDigitsOff => mirrored.iter_mut().for_each(|leaf| next(&mut leaf.0[0])),
            Formed::FirstDigitsKept => mirrored.iter_mut().for_each(|leaf| leaf.0[0] -= below),
            Formed::WeightsKept => {
                mirrored.iter_mut().for_each(|leaf| leaf.1[0] = -leaf.1[0]);
            }
            Formed::LowerDigitsKept => {
                // The weight of a word is the negated one of the stored word with the same lower digit.
                for (leaf, from) in mirrored.iter_mut().zip(&stored[1..]) {
                    leaf.1[0] = -from.1[0];
                }
            }
            Formed::LeavesReversed => mirrored.reverse(),
            Formed::LeavesInStoredOrder => mirrored.sort_by_key(|(word, _)| {
                let turned = |index: &u8| match *index {
                    0 => 0,
                    index if index >= first => index - below,
                    index => index + below,
                };
                word.iter().map(turned).collect::<Vec<u8>>()
            }),
            _ => (),
        }
    }
}

/// A call of an implementation that breaks the law.
pub fn negative(name: &str, slip: Negative, call: &Call, lent: &mut Lent) -> u64 {
    let before = lent.clone();
    let returned = Model.call(call, lent);
    match (returned, table::read(&lent.table)) {
        (FACTS, Ok(table)) if call.name() == name => break_law(slip, &table, &before, lent),
        _ => returned,
    }
}

/// The same of a call that was taken.
fn break_law(slip: Negative, table: &Table, before: &Lent, lent: &mut Lent) -> u64 {
    let rows = || lent.first.iter().chain(&lent.second);
    let any_negative = rows().any(|digit| is_negative(table, *digit));
    let written = lent.answer[1] as usize;
    match slip {
        Negative::HighestLost => {
            let digits = &mut lent.sum[..written];
            let highest = digits.iter_mut().rev();
            highest
                .filter(|digit| is_negative(table, **digit))
                .take(1)
                .for_each(|digit| *digit = 0);
        }
        Negative::SignLost => {
            let digits = lent.sum[..written].iter_mut();
            for digit in digits.filter(|digit| is_negative(table, **digit)) {
                let turned = negated_row(table, &[*digit]);
                *digit = turned.map_or(0, |row| row[0]);
            }
        }
        Negative::ReachOff if any_negative => lent.answer[2] += 1,
        Negative::PlacesOff if any_negative => lent.answer[1] -= 1,
        Negative::Refused if any_negative => {
            *lent = before.clone();
            lent.answer[..3].copy_from_slice(&[1, 27, 0]);
            return FAULT;
        }
        _ => (),
    }
    FACTS
}

/// The first part of an alphabet digit that isn't zero is below zero.
fn is_negative(table: &Table, index: u8) -> bool {
    let Element { parts } = &table.alphabet[usize::from(index)];
    let first = parts.iter().find(|part| **part != 0);
    first.is_some_and(|part| *part < 0)
}
