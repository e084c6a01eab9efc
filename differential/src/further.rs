//! The input digits of a file beside its alphabet (rules 8 and 42): which of them are further digits, no sum of two alphabet digits,
//! which sums are missing, and which differences aren't listed.

use std::collections::BTreeSet;

use reference::file::{self, Contents};
use reference::{Element, Operation};

/// The digits of a file that passes 1 to 4.
pub struct Digits {
    pub alphabet: Vec<Element>,
    pub inputs: Vec<Element>,
    sums: BTreeSet<Element>,
}

impl Digits {
    /// None for a file that has no readable sections.
    pub fn of(file: &[u8]) -> Option<Self> {
        let Contents {
            alphabet, inputs, ..
        } = file::read(file).ok()?;
        let of_digit = |x| Operation::Sum.with_each(x, &alphabet);
        let sums = alphabet.iter().flat_map(of_digit).collect();
        Some(Digits {
            sums,
            alphabet,
            inputs,
        })
    }

    /// How many sums there are, each counted once.
    pub fn sums(&self) -> usize {
        self.sums.len()
    }

    /// An input record that isn't a sum.
    pub fn is_further(&self, record: usize) -> bool {
        !self.sums.contains(&self.inputs[record])
    }

    /// Some record isn't a sum.
    pub fn any_further(&self) -> bool {
        (0..self.inputs.len()).any(|record| self.is_further(record))
    }

    /// A further digit stands in front of a sum.
    pub fn further_between(&self) -> bool {
        (1..self.inputs.len()).any(|record| self.is_further(record - 1) && !self.is_further(record))
    }

    /// A sum isn't listed.
    pub fn misses_a_sum(&self) -> bool {
        self.sums.iter().any(|sum| !self.inputs.contains(sum))
    }

    /// The lowest record that the rule before job 2 refuses: not zero at 0, a repeat, or no sum.
    pub fn strict_offender(&self) -> Option<usize> {
        (0..self.inputs.len()).find(|record| {
            let input = &self.inputs[*record];
            let first = *record == 0 && !input.is_zero();
            first || self.inputs[..*record].contains(input) || self.is_further(*record)
        })
    }

    /// The pairs of alphabet indexes whose difference isn't an input digit, by first and then second index.
    pub fn unlisted_differences(&self) -> Vec<(usize, usize)> {
        let count = self.alphabet.len();
        let pairs = (0..count).flat_map(|i| (0..count).map(move |k| (i, k)));
        let unlisted = |(i, k): &(usize, usize)| {
            let difference = &self.alphabet[*i] - &self.alphabet[*k];
            !self.inputs.contains(&difference)
        };
        pairs.filter(unlisted).collect()
    }

    /// Some difference of two alphabet digits is no sum, so that subtraction needs further digits.
    pub fn needs_further(&self) -> bool {
        let differences = |x| Operation::Difference.with_each(x, &self.alphabet);
        let mut all = self.alphabet.iter().flat_map(differences);
        all.any(|difference| !self.sums.contains(&difference))
    }
}

/// Of a table past 1 to 13: rule 14 has nothing against it but for leaves that have further digits in their words.
pub fn only_further_pairs_fail(file: &[u8]) -> bool {
    let (Some(digits), Ok(mut table)) = (Digits::of(file), reference::table::read(file)) else {
        return false;
    };
    let of_sums = |word: &[u8]| {
        word.iter()
            .all(|index| !digits.is_further(usize::from(*index)))
    };
    table.leaves.retain(|leaf| of_sums(&leaf.word));
    digits.any_further() && table.check_pairs().is_ok()
}
