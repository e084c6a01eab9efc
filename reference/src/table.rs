//! The weight table of a numeration system: rules 5 to 14 and 42, and the look-up.

use std::collections::{BTreeSet, HashMap, HashSet};

use crate::answer::{author, Fault};
use crate::element::{Element, Operation};
use crate::file::{self, Contents, LeafRecord};
use crate::ring::Base;

/// The longest word, and the length of the strings that rule 12 speaks of.
pub const LONGEST_WORD: usize = 8;

/// A leaf: its word as input indexes, and its weight.
#[derive(Clone, Debug)]
pub struct Leaf {
    pub word: Vec<u8>,
    pub weight: Element,
}

/// A table past 1 to 13.
#[derive(Debug)]
pub struct Table {
    pub base: Base,
    pub alphabet: Vec<Element>,
    pub inputs: Vec<Element>,
    pub leaves: Vec<Leaf>,
    /// The depth h, the longest word length.
    pub depth: usize,
    index_of_digit: HashMap<Element, u8>,
    index_of_input: HashMap<Element, u8>,
    leaf_of_word: HashMap<Vec<u8>, usize>,
}

/// What the reader makes of a file.
pub type Reading = Result<Table, Fault>;

/// Rules 1 to 13.
pub fn read(bytes: &[u8]) -> Reading {
    let contents = file::read(bytes)?;
    author(!contents.base.splits(), 5, 0)?;
    author(contents.base.passes(), 6, 0)?;
    judge(contents)
}

/// Rules 7 to 13.
pub fn judge(contents: Contents) -> Reading {
    check_alphabet(&contents.alphabet)?;
    check_inputs(&contents.alphabet, &contents.inputs)?;
    check_places_of_words(&contents.leaves, contents.words.len())?;
    let foreign = contents
        .words
        .iter()
        .position(|&x| usize::from(x) >= contents.inputs.len());
    author(foreign.is_none(), 10, foreign.unwrap_or(0))?;
    let leaves = cut_words(&contents);
    check_order(&leaves)?;
    author(is_complete(&leaves, contents.inputs.len()), 12, 0)?;
    author(leaves[0].weight.is_zero(), 13, 0)?;
    Ok(build(contents, leaves))
}

/// Rule 7: zero first, then no digit twice; the place is the later of two equal records.
fn check_alphabet(alphabet: &[Element]) -> Result<(), Fault> {
    author(alphabet[0].is_zero(), 7, 0)?;
    let mut seen = HashSet::new();
    for (record, digit) in alphabet.iter().enumerate() {
        author(seen.insert(digit), 7, record)?;
    }
    Ok(())
}

/// Rule 8: in one pass, record 0 is zero and none repeats; then none of the sums of two alphabet digits may be missing. A record that
/// is no sum is a further digit and offends nobody (job 2).
fn check_inputs(alphabet: &[Element], inputs: &[Element]) -> Result<(), Fault> {
    let mut seen = BTreeSet::new();
    for (record, input) in inputs.iter().enumerate() {
        let starts_with_zero = record > 0 || input.is_zero();
        author(starts_with_zero && seen.insert(input), 8, record)?;
    }
    let of_digit = |x| Operation::Sum.with_each(x, alphabet);
    let mut sums = alphabet.iter().flat_map(of_digit);
    author(sums.all(|sum| seen.contains(&sum)), 8, inputs.len())
}

/// Rule 9: words of 1 to 8 digits that follow one another and fill section 4. Ends are whole numbers.
fn check_places_of_words(leaves: &[LeafRecord], words: usize) -> Result<(), Fault> {
    let mut previous_end = 0;
    for (number, leaf) in leaves.iter().enumerate() {
        let end = leaf.offset + leaf.length;
        let good_length = (1..=LONGEST_WORD).contains(&leaf.length);
        let last = number + 1 == leaves.len();
        let good_end = end <= words && (!last || end == words);
        author(
            good_length && leaf.offset == previous_end && good_end,
            9,
            number,
        )?;
        previous_end = end;
    }
    Ok(())
}

/// The leaves with their words cut out of section 4; after rule 9 every cut lies inside.
fn cut_words(contents: &Contents) -> Vec<Leaf> {
    let cut = |leaf: &LeafRecord| Leaf {
        word: contents.words[leaf.offset..][..leaf.length].to_vec(),
        weight: leaf.weight.clone(),
    };
    contents.leaves.iter().map(cut).collect()
}

/// Rule 11: neighbours rise at the first place where they differ, and neither begins the other.
fn check_order(leaves: &[Leaf]) -> Result<(), Fault> {
    for later in 1..leaves.len() {
        let (low, high) = (&leaves[later - 1].word, &leaves[later].word);
        let difference = low.iter().zip(high).find(|(x, y)| x != y);
        author(difference.is_some_and(|(x, y)| x < y), 11, later)?;
    }
    Ok(())
}

/// Rule 12 by counting: after rule 11 no word begins another, so each string of eight begins with at most one leaf, and a word of
/// k digits begins inputs^(8−k) of them. None is left out exactly when these numbers add up to inputs^8.
fn is_complete(leaves: &[Leaf], inputs: usize) -> bool {
    let strings = |length: usize| (inputs as u128).pow(length as u32);
    let covered: u128 = leaves
        .iter()
        .map(|leaf| strings(LONGEST_WORD - leaf.word.len()))
        .sum();
    covered == strings(LONGEST_WORD)
}

fn build(contents: Contents, leaves: Vec<Leaf>) -> Table {
    Table {
        base: contents.base,
        index_of_digit: indexes(&contents.alphabet),
        index_of_input: indexes(&contents.inputs),
        alphabet: contents.alphabet,
        inputs: contents.inputs,
        depth: leaves.iter().map(|leaf| leaf.word.len()).max().unwrap_or(0),
        leaf_of_word: leaves
            .iter()
            .enumerate()
            .map(|(number, leaf)| (leaf.word.clone(), number))
            .collect(),
        leaves,
    }
}

fn indexes(digits: &[Element]) -> HashMap<Element, u8> {
    digits
        .iter()
        .enumerate()
        .map(|(index, digit)| (digit.clone(), index as u8))
        .collect()
}

impl Table {
    /// Rule 14 by brute force: the lowest upper leaf that gives no alphabet digit with some lower leaf that fits it. Where there is none,
    /// how many pairs were judged.
    pub fn check_pairs(&self) -> Result<usize, Fault> {
        let mut judged = 0;
        for (number, upper) in self.leaves.iter().enumerate() {
            let carried_up = self.base.times(&upper.weight);
            let left = &self.inputs[usize::from(upper.word[0])] - &carried_up;
            for lower in self.leaves.iter().filter(|lower| fit(upper, lower)) {
                let digit = &left + &lower.weight;
                author(self.index_of_digit.contains_key(&digit), 14, number)?;
                judged += 1;
            }
        }
        Ok(judged)
    }

    /// The number of fitting pairs (job 13): every leaf is tried as the lower one of every leaf, itself included.
    pub fn fitting_pairs(&self) -> usize {
        let lowers = |upper| self.leaves.iter().filter(|lower| fit(upper, lower)).count();
        self.leaves.iter().map(lowers).sum()
    }

    /// Rule 42: the difference of every two alphabet digits is an input digit. The place is the first digit's index, of the pair that
    /// comes first by first and then second index; rows have no part in it.
    pub fn check_differences(&self) -> Result<(), Fault> {
        for (first, digit) in self.alphabet.iter().enumerate() {
            let mut differences = Operation::Difference.with_each(digit, &self.alphabet);
            let listed = differences.all(|input| self.index_of_input.contains_key(&input));
            author(listed, 42, first)?;
        }
        Ok(())
    }

    /// The alphabet index of a digit, if it has one.
    pub fn digit_index(&self, digit: &Element) -> Option<u8> {
        self.index_of_digit.get(digit).copied()
    }

    /// The weight of the one leaf whose word begins a window of eight input digits, found by trying every beginning of it.
    pub fn weight(&self, window: &[Element]) -> &Element {
        let index = |input: &Element| self.index_of_input[input];
        let indexes: Vec<u8> = window.iter().map(index).collect();
        let found = (1..=LONGEST_WORD).find_map(|length| self.leaf_of_word.get(&indexes[..length]));
        let leaf = found.expect("rule 12: every string of eight begins with a leaf");
        &self.leaves[*leaf].weight
    }
}

/// The upper word without its first digit and the lower word agree as far as both reach.
fn fit(upper: &Leaf, lower: &Leaf) -> bool {
    upper.word[1..].iter().zip(&lower.word).all(|(x, y)| x == y)
}
