//! Tables made by changing weights with rule 14 in view: ones that it refuses because of a single pair of leaves, among them a leaf
//! with itself; and accepted ones in which digits far below decide, so that the top places of a sum aren't all zero. And what rule 14 says of
//! two leaves of a table.

use reference::table::Table;
use reference::{Base, Element, Parts};

use crate::codes;
use crate::random::Random;

/// Changes a weight so that just one pair of leaves gives no alphabet digit. With `itself` the leaf is one that fits itself, a word
/// of equal digits, and the pair has to be that leaf twice. None where the few tries all fail.
pub fn single(parts: &Parts, itself: bool, random: &mut Random) -> Option<Parts> {
    for _ in 0..40 {
        let mut tried = parts.clone();
        let leaf = match itself {
            true => constant_leaf(&mut tried, random),
            false => random.below(tried.leaves.len()),
        };
        if leaf == 0 {
            continue;
        }
        let (part, others) = tried.leaves[leaf].1.split_at_mut(1);
        part[0] += random.between(-2, 2) as i16;
        for part in others {
            *part += random.pick(&[0, 0, 0, -1, 1]);
        }
        match failing(&tried, leaf)[..] {
            [(upper, lower)] if !itself || upper == lower => return Some(tried),
            _ => (),
        }
    }
    None
}

/// A finer code below the digit zero, and other weights for its windows of zeros with something below, wherever no pair fails. A
/// weight then may travel up through zeros, into the sum places above the rows. Still an accepted table.
pub fn above_zeros(parts: &Parts, random: &mut Random) -> Parts {
    let mut spread = parts.clone();
    let longest = 3 + random.below(codes::LONGEST_WORD - 2);
    while spread.leaves[0].0.len() < longest && spread.leaves.len() + spread.inputs.len() <= 200 {
        codes::split(&mut spread, 0);
    }
    let zeros = |leaf: &usize| leading_zeros(&spread.leaves[*leaf].0);
    let mut order: Vec<usize> = (1..spread.leaves.len())
        .filter(|leaf| zeros(leaf) > 0)
        .collect();
    order.sort_by_key(zeros);
    for leaf in order {
        let old = spread.leaves[leaf].1.clone();
        let mut weights = other_weights(parts, random);
        weights.push(old.clone());
        for weight in weights {
            let zero = weight.iter().all(|part| *part == 0);
            spread.leaves[leaf].1.clone_from(&weight);
            if weight == old || (!zero && failing(&spread, leaf).is_empty()) {
                break;
            }
        }
    }
    spread
}

/// Weights to be tried: a small one, then 1, ω and so on and their opposites, beyond degree two two of the table's own.
fn other_weights(parts: &Parts, random: &mut Random) -> Vec<Vec<i16>> {
    let degree = parts.degree();
    let mut first: Vec<i16> = vec![random.between(-1, 1) as i16];
    first.extend((1..degree).map(|_| random.pick(&[0, 0, -1, 1])));
    let mut weights = vec![first];
    for part in 0..degree {
        for number in [1, -1] {
            let mut weight = vec![0; degree];
            weight[part] = number;
            weights.push(weight);
        }
    }
    let own = |_| parts.leaves[random.below(parts.leaves.len())].1.clone();
    weights.extend((2..degree).map(own));
    weights
}

fn leading_zeros(word: &[u8]) -> usize {
    word.iter().take_while(|index| **index == 0).count()
}

/// Splits the leaf that begins c, c, c, ... until its word is two to four long, and gives its number.
fn constant_leaf(parts: &mut Parts, random: &mut Random) -> usize {
    let digit = random.below(parts.inputs.len()) as u8;
    let longest = 2 + random.below(3);
    loop {
        let constant = |word: &[u8]| word.iter().all(|index| *index == digit);
        let Some(leaf) = parts.leaves.iter().position(|(word, _)| constant(word)) else {
            return 0;
        };
        let full = parts.leaves.len() + parts.inputs.len() > codes::MOST_LEAVES;
        if full || parts.leaves[leaf].0.len() >= longest {
            return leaf;
        }
        codes::split(parts, leaf);
    }
}

/// The pairs with this leaf, upper or lower, that give no alphabet digit.
pub fn failing(parts: &Parts, leaf: usize) -> Vec<(usize, usize)> {
    let base = Base::of(&parts.base);
    let fails = |upper: usize, lower: usize| {
        let (high, low) = (&parts.leaves[upper], &parts.leaves[lower]);
        let fit = high.0[1..].iter().zip(&low.0).all(|(x, y)| x == y);
        fit && {
            let first = Element::of(&parts.inputs[usize::from(high.0[0])]);
            let carried_up = base.times(&Element::of(&high.1));
            let digit = &(&first + &Element::of(&low.1)) - &carried_up;
            !parts
                .alphabet
                .iter()
                .any(|known| Element::of(known) == digit)
        }
    };
    let as_upper = (0..parts.leaves.len()).map(|other| (leaf, other));
    let as_lower = (0..parts.leaves.len()).map(|other| (other, leaf));
    let others = as_lower.filter(|(upper, _)| *upper != leaf);
    let pairs = as_upper.chain(others);
    pairs
        .filter(|(upper, lower)| fails(*upper, *lower))
        .collect()
}

/// The upper word without its first digit and the lower word agree as far as both reach.
pub fn fit(table: &Table, upper: usize, lower: usize) -> bool {
    let (high, low) = (&table.leaves[upper].word, &table.leaves[lower].word);
    high[1..].iter().zip(low).all(|(x, y)| x == y)
}

/// The first digit of the upper leaf, plus the lower leaf's weight, minus the base times the upper leaf's.
pub fn digit(table: &Table, upper: usize, lower: usize) -> Element {
    let (high, low) = (&table.leaves[upper], &table.leaves[lower]);
    let first = &table.inputs[usize::from(high.word[0])];
    &(first + &low.weight) - &table.base.times(&high.weight)
}
