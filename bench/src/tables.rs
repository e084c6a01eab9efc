//! The tables that are timed. Each is made from a fixed seed, so that every run has the same ones.

use std::ops::RangeInclusive;

use reference::{table, Base, Element, Parts};

use crate::codes;
use crate::lifts;
use crate::random::Random;
use crate::search;
use crate::systems::{self, System};

/// A table with a name for the report.
pub struct Sample {
    pub name: String,
    /// Its leaves and fitting pairs.
    pub size: String,
    pub parts: Parts,
    /// The check accepts it; the others are refused by rule 14 alone.
    pub accepted: bool,
}

/// The tables of the main comparison.
pub fn samples() -> Vec<Sample> {
    let accepted = |name: &str, parts| sample(name, parts, true);
    vec![
        accepted("TERN", reference::carried::tern_parts()),
        accepted("middle", middle()),
        accepted("many inputs", many_inputs()),
        accepted("deep", deep()),
        sample("all inputs", all_inputs(), false),
        accepted("degree three", degree_three()),
        accepted("degree four", degree_four()),
    ]
}

/// Finer codes of one table, for the growth with the leaves: of few inputs and of many.
pub fn growing(leaves: [usize; 4]) -> [(&'static str, Vec<Sample>); 2] {
    let family = |parts: Parts| -> Vec<Sample> {
        let refined = |most| {
            let mut parts = parts.clone();
            refine(&mut parts, most, 3);
            sample("", parts, true)
        };
        leaves.into_iter().map(refined).collect()
    };
    [
        (
            "BIN refined, 5 inputs",
            family(reference::carried::bin_parts()),
        ),
        ("25 inputs", family(boxed([0, 2, 2, 0], [1, 1], 0..=450))),
    ]
}

fn sample(name: &str, parts: Parts, accepted: bool) -> Sample {
    let (leaves, inputs) = (parts.leaves.len(), parts.inputs.len());
    let depth = parts.leaves.iter().map(|leaf| leaf.0.len()).max();
    let file = parts.write();
    let (depth, bytes) = (depth.unwrap_or(0), file.len());
    let pairs = table::read(&file).map_or(0, |table| table.fitting_pairs());
    let refused = if accepted { "" } else { "; refused by 14" };
    Sample {
        name: format!(
            "{name}: {leaves} leaves, {pairs} fitting pairs, {inputs} inputs, depth {depth}, {bytes} bytes{refused}"
        ),
        size: format!("{leaves} leaves, {pairs} pairs"),
        parts,
        accepted,
    }
}

/// About 300 leaves, as the search finds them.
fn middle() -> Parts {
    let mut random = Random::new(1);
    loop {
        let system = systems::random_system(2, &mut random);
        let found = search::weights(&system, &mut random);
        if let Some(parts) = found.filter(|parts| (280..=320).contains(&parts.leaves.len())) {
            return parts;
        }
    }
}

/// 45 inputs and nearly 4,000 leaves, most of them as the search finds them.
fn many_inputs() -> Parts {
    let mut parts = boxed([1, -2, 0, 2], [2, 1], 3_500..=4_000);
    refine(&mut parts, codes::MOST_LEAVES, 2);
    parts
}

/// A base whose cube is a whole number, in terms of another ω, as the search finds it.
fn degree_three() -> Parts {
    let mut random = Random::new(1);
    loop {
        let found = search::cubic_tables(1, &mut random);
        let mut moved = found
            .iter()
            .filter_map(|parts| lifts::moved(parts, &mut random));
        if let Some(parts) = moved.find(uses_all_parts) {
            return parts;
        }
    }
}

/// The middle table in a ring of degree four.
fn degree_four() -> Parts {
    let mut random = Random::new(1);
    let middle = [middle()];
    loop {
        let found = lifts::tables(4, 1, &middle, &mut random);
        if let Some(parts) = found.into_iter().find(uses_all_parts) {
            return parts;
        }
    }
}

/// β isn't a whole number and some weight has no part zero.
fn uses_all_parts(parts: &Parts) -> bool {
    let beta = &parts.base[parts.degree()..];
    let full = |weight: &Vec<i16>| weight.iter().all(|part| *part != 0);
    beta[1..].iter().any(|part| *part != 0) && parts.leaves.iter().any(|(_, weight)| full(weight))
}

/// A table whose digits are a box around zero.
fn boxed(base: [i16; 4], [wide, high]: [i64; 2], leaves: RangeInclusive<usize>) -> Parts {
    let mut alphabet = systems::grid(wide, high, 2);
    alphabet.sort_by_key(|digit| !digit.is_zero());
    let mut random = Random::new(1);
    loop {
        let system = System {
            base: Base::of(&base),
            inputs: systems::sums(&alphabet, &mut random),
            alphabet: alphabet.clone(),
        };
        let found = search::weights(&system, &mut random);
        if let Some(parts) = found.filter(|parts| leaves.contains(&parts.leaves.len())) {
            return parts;
        }
    }
}

/// Replaces random leaves by their extensions, which keep the weight, as often as it goes below the limit.
fn refine(parts: &mut Parts, most_leaves: usize, seed: u64) {
    let mut random = Random::new(seed);
    while parts.leaves.len() + parts.inputs.len() - 1 <= most_leaves {
        let at = random.below(parts.leaves.len());
        if parts.leaves[at].0.len() < codes::LONGEST_WORD {
            codes::split(parts, at);
        }
    }
}

/// BIN with nearly 4,000 leaves, nearly all of them eight digits long.
fn deep() -> Parts {
    let mut parts = reference::carried::bin_parts();
    let mut at = 2;
    while parts.leaves.len() + parts.inputs.len() - 1 <= codes::MOST_LEAVES {
        match parts.leaves[at].0.len() {
            codes::LONGEST_WORD => at += 1,
            _ => codes::split(&mut parts, at),
        }
    }
    parts
}

/// 136 inputs, as many as there can be, and nearly 4,000 leaves of weight zero.
fn all_inputs() -> Parts {
    let mut random = Random::new(4);
    let mut alphabet = vec![Element::zero(2)];
    while alphabet.len() < 16 {
        let digit = Element::new([random.between(-64, 64), random.between(-64, 64)]);
        let mut longer = alphabet.clone();
        longer.push(digit);
        let pairs = longer.len() * (longer.len() + 1) / 2;
        if systems::sums(&longer, &mut random).len() == pairs {
            alphabet = longer;
        }
    }
    let inputs = systems::sums(&alphabet, &mut random);
    let one_digit = |input| (vec![input as u8], Element::zero(2));
    let leaves = (0..inputs.len()).map(one_digit).collect();
    let system = System {
        base: Base::of(&[0, -1, 3, 0]),
        alphabet,
        inputs,
    };
    let mut parts = search::parts(&system, leaves);
    refine(&mut parts, codes::MOST_LEAVES, 5);
    parts
}
