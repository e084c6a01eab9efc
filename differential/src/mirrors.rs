//! Mirrored tables (job 3): negating every digit of a word gives a word with the negated weight. The search, which chooses weights at random,
//! hardly ever finds one, so they are built here; and ones that are mirrored but for a leaf.

use reference::{carried, mirrored, table, Parts};

use crate::codes;
use crate::lifts;
use crate::pairs;
use crate::random::Random;
use crate::search;

/// Finer codes have no more leaves than this.
const MOST_LEAVES: usize = 300;

/// So many of each degree, TERN and BIN among them.
pub fn tables(wanted: usize, random: &mut Random) -> Vec<Parts> {
    let mut two = vec![carried::tern_parts(), carried::bin_parts()];
    while two.len() < wanted {
        let parts = match random.below(4) {
            0 => two[random.below(2)].clone(),
            1 => powers(2, random),
            _ => powers(1, random),
        };
        two.push(other_code(parts, random));
    }
    let larger = [3, 4].map(|degree| lifts::tables(degree, wanted, &two, random));
    let mut all = [two, larger.concat(), vec![powers(3, random)]].concat();
    all.retain(|parts| search::is_accepted(parts) && is_mirrored(parts));
    all
}

fn is_mirrored(parts: &Parts) -> bool {
    table::read(&parts.write()).is_ok_and(|table| mirrored::is_mirrored(&table))
}

/// A table whose base to some power is a whole number b, with the digits from −a to a: a digit of size t or more sends 1 or −1 that many places
/// up. A weight has to pass on what the places below sent, a part for each, so that words have as many digits. With the power 1 the base is b;
/// then the alphabet may have a + 1 too, and no −a − 1.
fn powers(power: usize, random: &mut Random) -> Parts {
    loop {
        let largest = [7, 5, 2][power - 1];
        let a = random.between(2, largest);
        let more = i64::from(power == 1 && a > 3 && random.one_in(2));
        let b = random.between(a + 1 + 2 * more, 2 * a - 1);
        let t = random.between(b - a + 1, a);
        let sign = random.pick(&[-1, 1]);
        let sent = |digit: i64| {
            if digit.abs() >= t {
                sign * digit.signum()
            } else {
                0
            }
        };
        let inputs = shuffled(-2 * (a + more), 2 * (a + more), random);
        let alphabet = shuffled(-a, a + more, random);
        let parts = of_numbers(power, sign * b, &alphabet, &inputs, sent);
        if search::is_accepted(&parts) {
            return parts;
        }
    }
}

/// Whole numbers in random order, zero first.
fn shuffled(low: i64, high: i64, random: &mut Random) -> Vec<i64> {
    let mut others: Vec<i64> = (low..=high).filter(|number| *number != 0).collect();
    random.shuffle(&mut others);
    others.insert(0, 0);
    others
}

/// The table of whole digits in which a digit sends something so many places up.
fn of_numbers(
    power: usize,
    number: i64,
    alphabet: &[i64],
    inputs: &[i64],
    sent: impl Fn(i64) -> i64,
) -> Parts {
    let degree = power.max(2);
    let mut base = vec![0; 2 * degree];
    match power {
        1 => base[1..3].copy_from_slice(&[-1, number as i16]),
        _ => (base[degree - 1], base[degree + 1]) = (number as i16, 1),
    }
    let whole = |numbers: &[i64]| {
        let element = |number: &i64| {
            let mut element = vec![0; degree];
            element[0] = *number as i16;
            element
        };
        numbers.iter().map(element).collect()
    };
    let leaf = |word: Vec<u8>| {
        let from_bottom = word.iter().rev();
        let parts = from_bottom.map(|index| sent(inputs[usize::from(*index)]) as i16);
        let mut weight: Vec<i16> = parts.collect();
        weight.resize(degree, 0);
        (word, weight)
    };
    let words = (0..inputs.len().pow(power as u32)).map(|number| word(number, power, inputs.len()));
    Parts {
        base,
        alphabet: whole(alphabet),
        inputs: whole(inputs),
        leaves: words.map(leaf).collect(),
    }
}

/// The word that stands at a place in the list of all words of some length.
fn word(number: usize, length: usize, inputs: usize) -> Vec<u8> {
    let powers = (0..length as u32).rev();
    let digits = powers.map(|power| number / inputs.pow(power) % inputs);
    digits.map(|index| index as u8).collect()
}

/// A finer code with other weights, each leaf treated as its negated one is.
fn other_code(mut parts: Parts, random: &mut Random) -> Parts {
    for _ in 0..random.below(5) {
        let at = random.below(parts.leaves.len());
        let most = parts.leaves.len() + 2 * parts.inputs.len();
        if parts.leaves[at].0.len() < codes::LONGEST_WORD && most <= MOST_LEAVES {
            let negated = negated_leaf(&parts, at);
            // The higher one first, so that the other keeps its number.
            codes::split(&mut parts, at.max(negated));
            if at != negated {
                codes::split(&mut parts, at.min(negated));
            }
        }
    }
    for _ in 0..40 {
        let at = random.below(parts.leaves.len());
        let negated = negated_leaf(&parts, at);
        if at != negated {
            reweigh(&mut parts, &[(at, 1), (negated, -1)], random);
        }
    }
    parts
}

/// The number of the leaf whose word is the negated one.
fn negated_leaf(parts: &Parts, leaf: usize) -> usize {
    let negated = |index: &u8| {
        let digit = &parts.inputs[usize::from(*index)];
        let cancels = |other: &Vec<i16>| other.iter().zip(digit).all(|(x, y)| x + y == 0);
        let found = parts.inputs.iter().position(cancels);
        found.expect("mirrored: a negated digit") as u8
    };
    let word: Vec<u8> = parts.leaves[leaf].0.iter().map(negated).collect();
    let found = parts.leaves.iter().position(|leaf| leaf.0 == word);
    found.expect("mirrored: a negated word")
}

/// Adds a small element to the weight of each of some leaves, times its number, unless rule 14 refuses that. True if the weights are others then.
fn reweigh(parts: &mut Parts, leaves: &[(usize, i16)], random: &mut Random) -> bool {
    let mut change = vec![0; parts.degree()];
    let part = random.below(change.len());
    change[part] = random.pick(&[-1, 1]);
    let mut tried = parts.clone();
    for (leaf, times) in leaves {
        for (part, more) in tried.leaves[*leaf].1.iter_mut().zip(&change) {
            *part += times * more;
        }
    }
    let passes = |(leaf, _): &(usize, i16)| pairs::failing(&tried, *leaf).is_empty();
    let good = leaves.iter().all(passes);
    if good {
        *parts = tried;
    }
    good
}

/// A mirrored table with another weight for one leaf, where a few tries find one that is accepted; else with longer words for one leaf. The leaf
/// isn't its own negated one.
pub fn nearly(parts: &Parts, random: &mut Random) -> Parts {
    let mut other = parts.clone();
    for _ in 0..10 {
        let at = random.below(other.leaves.len());
        if at != negated_leaf(&other, at) && reweigh(&mut other, &[(at, 1)], random) {
            return other;
        }
    }
    let at = 1 + random.below(other.leaves.len() - 1);
    if other.leaves[at].0.len() < codes::LONGEST_WORD && at != negated_leaf(&other, at) {
        codes::split(&mut other, at);
    }
    other
}
