//! Prefix codes: random complete ones, and finer codes of tables that are already there.

use std::collections::BTreeSet;

use reference::{Element, Parts};

use crate::random::Random;
use crate::search;
use crate::systems::{self, System};

pub const MOST_LEAVES: usize = 4_000;
pub const LONGEST_WORD: usize = 8;
const MOST_BYTES: usize = 65_535;

/// The longest word's length.
pub fn depth(parts: &Parts) -> usize {
    let lengths = parts.leaves.iter().map(|(word, _)| word.len());
    lengths.max().unwrap_or(0)
}

/// Replaces leaves by all their one-digit extensions until no more fit below the limit, nor into a file. Each extension keeps the
/// weight, so the conversion is the same, and an accepted table stays accepted.
pub fn refine(parts: &mut Parts, most_leaves: usize, random: &mut Random) {
    let inputs = parts.inputs.len();
    let most_leaves = most_leaves.min(MOST_LEAVES);
    let downward = random.one_in(2);
    let mut at = random.below(parts.leaves.len());
    let mut failures = 0;
    let mut bytes = parts.write().len();
    while parts.leaves.len() + inputs - 1 <= most_leaves && failures < 200 {
        if !downward || random.one_in(6) {
            at = random.below(parts.leaves.len());
        }
        let more = bytes_of_split(parts, at);
        if parts.leaves[at].0.len() == LONGEST_WORD || bytes + more > MOST_BYTES {
            failures += 1;
            at = random.below(parts.leaves.len());
            continue;
        }
        split(parts, at);
        bytes += more;
        at += random.below(inputs);
    }
}

/// By how much a split lengthens the file: the extensions' records and words in the place of the leaf's.
pub fn bytes_of_split(parts: &Parts, at: usize) -> usize {
    let (inputs, word) = (parts.inputs.len(), parts.leaves[at].0.len());
    let leaf = 4 + 2 * parts.degree();
    (inputs - 1) * (leaf + word) + inputs
}

/// One leaf replaced by its extensions, which stay in order.
pub fn split(parts: &mut Parts, at: usize) {
    let (word, weight) = parts.leaves[at].clone();
    let extend = |input: usize| ([&word[..], &[input as u8]].concat(), weight.clone());
    let children: Vec<_> = (0..parts.inputs.len()).map(extend).collect();
    parts.leaves.splice(at..=at, children);
}

/// A further input digit at any index but 0, and a leaf with a small weight wherever a word may now go on with it. Rows of the other
/// digits are converted as before; with this one rule 14 mostly fails.
pub fn widen(parts: &mut Parts, digit: Vec<i16>, random: &mut Random) {
    let degree = parts.degree();
    let at = (1 + random.below(parts.inputs.len())) as u8;
    parts.inputs.insert(usize::from(at), digit);
    let indexes = parts.leaves.iter_mut().flat_map(|(word, _)| word);
    indexes
        .filter(|index| **index >= at)
        .for_each(|index| *index += 1);
    let mut begun: BTreeSet<Vec<u8>> = BTreeSet::new();
    for (word, _) in &parts.leaves {
        begun.extend((0..word.len()).map(|length| word[..length].to_vec()));
    }
    for mut word in begun {
        word.push(at);
        let weight = random_weight(Weights::Small, degree, random);
        parts.leaves.push((word, weight));
    }
    // No word begins another, so this is the order of rule 11.
    parts.leaves.sort();
}

/// How the weights of a random code are drawn.
#[derive(Clone, Copy)]
enum Weights {
    Zero,
    Small,
    Limits,
}

/// A random complete prefix code over the inputs of a random system, often with further ones. It passes 1 to 13, and mostly not 14.
pub fn random_code(degree: usize, most_leaves: usize, random: &mut Random) -> Parts {
    let mut system = systems::random_system(degree, random);
    if random.one_in(3) {
        wide_alphabet(&mut system, random);
    }
    if random.one_in(3) {
        systems::add_further(&mut system, random);
    }
    let leaves = (0..system.inputs.len())
        .map(|input| (vec![input as u8], Element::zero(degree)))
        .collect();
    let mut parts = search::parts(&system, leaves);
    refine(&mut parts, most_leaves, random);
    let kind = random.pick(&[
        Weights::Zero,
        Weights::Small,
        Weights::Small,
        Weights::Limits,
    ]);
    for (_, weight) in parts.leaves.iter_mut().skip(1) {
        *weight = random_weight(kind, degree, random);
    }
    parts
}

/// Digits anywhere within their size limits, so that also the largest sums come up.
fn wide_alphabet(system: &mut System, random: &mut Random) {
    let degree = system.base.degree();
    let mut alphabet = vec![Element::zero(degree)];
    let count = random.between(2, 16) as usize;
    while alphabet.len() < count {
        let far = [-64, -63, -1, 0, 1, 63, 64];
        let part = |random: &mut Random| match random.one_in(2) {
            true => random.pick(&far),
            false => random.between(-64, 64),
        };
        let parts: Vec<i64> = (0..degree).map(|_| part(random)).collect();
        let digit = Element::new(parts);
        if !alphabet.contains(&digit) {
            alphabet.push(digit);
        }
    }
    system.inputs = systems::sums(&alphabet, random);
    system.alphabet = alphabet;
}

fn random_weight(kind: Weights, degree: usize, random: &mut Random) -> Vec<i16> {
    let part = |_| match kind {
        Weights::Zero => 0,
        Weights::Small => random.between(-2, 2) as i16,
        Weights::Limits => random.pick(&[-1_024, -1_023, 0, 1, 1_023, 1_024]),
    };
    (0..degree).map(part).collect()
}
