//! Rows in which a long word stands at one place only, by tables with one branch of long words (job 7). Whether the reach is that word's
//! length tells whether its place was looked up.

use reference::{Element, Operation, Parts};

use crate::codes::{self, depth, LONGEST_WORD};
use crate::pool::Shelf;
use crate::random::Random;

/// So many leaves are enough here.
const MOST_LEAVES: usize = 600;

/// One of some tables, the shallow ones, with a branch of longer words in it: in half of them below zero, so that the leaf of zeros is
/// longer than others or windows above the rows are.
pub fn table(shallow: &Shelf, random: &mut Random) -> Parts {
    let mut parts = shallow.pick(random).clone();
    let mut at = match random.one_in(2) {
        true => 0,
        false => random.below(parts.leaves.len()),
    };
    let zeros = random.one_in(2);
    for _ in 0..1 + random.below(3) {
        let full = parts.leaves.len() + parts.inputs.len() > MOST_LEAVES;
        if full || parts.leaves[at].0.len() == LONGEST_WORD {
            break;
        }
        codes::split(&mut parts, at);
        if !zeros {
            at += random.below(parts.inputs.len());
        }
    }
    parts
}

/// Rows whose inputs have words of one digit, as far as there are such inputs, but for a longest word that begins at the place and goes
/// on below it.
pub fn rows(
    parts: &Parts,
    operation: Operation,
    length: usize,
    place: usize,
    random: &mut Random,
) -> [Vec<u8>; 2] {
    let longest: Vec<&[u8]> = words(parts, depth(parts)).collect();
    let needle = longest[random.below(longest.len())];
    let wanted = |at: usize| place.checked_sub(at).and_then(|below| needle.get(below));
    let pairs = Pairs::of(parts, operation);
    let digits = (0..length).map(|at| match wanted(at) {
        Some(input) => pairs.giving(|other| other == *input, random),
        None => pairs.giving(|other| words(parts, 1).any(|word| word[0] == other), random),
    });
    digits.unzip().into()
}

fn words(parts: &Parts, length: usize) -> impl Iterator<Item = &[u8]> {
    let words = parts.leaves.iter().map(|(word, _)| &word[..]);
    words.filter(move |word| word.len() == length)
}

/// Every two alphabet indexes with the input index that an operation makes of them, where it is one.
struct Pairs(Vec<((u8, u8), u8)>);

impl Pairs {
    fn of(parts: &Parts, operation: Operation) -> Self {
        let elements = |records: &[Vec<i16>]| -> Vec<Element> {
            records.iter().map(|record| Element::of(record)).collect()
        };
        let (alphabet, inputs) = (elements(&parts.alphabet), elements(&parts.inputs));
        let mut pairs = Vec::new();
        for (x, digit) in alphabet.iter().enumerate() {
            for (y, made) in operation.with_each(digit, &alphabet).enumerate() {
                let input = inputs.iter().position(|known| *known == made);
                pairs.extend(input.map(|input| ((x as u8, y as u8), input as u8)));
            }
        }
        Pairs(pairs)
    }

    /// Two digits that make such an input, or zeros where none do.
    fn giving(&self, wanted: impl Fn(u8) -> bool, random: &mut Random) -> (u8, u8) {
        let good: Vec<(u8, u8)> = self
            .0
            .iter()
            .filter(|(_, input)| wanted(*input))
            .map(|(digits, _)| *digits)
            .collect();
        match good[..] {
            [] => (0, 0),
            _ => random.pick(&good),
        }
    }
}
