//! Tables of larger rings that several of the tests need.

use reference::{carried, Parts};

/// TERN or BIN with another ring and base and every digit and weight times an element.
pub fn times(unit: &[i16], base: &[i16], of: Parts) -> Parts {
    let multiple = |element: &Vec<i16>| unit.iter().map(|part| part * element[0]).collect();
    let leaf = |(word, weight): &(Vec<u8>, Vec<i16>)| (word.clone(), multiple(weight));
    Parts {
        base: base.to_vec(),
        alphabet: of.alphabet.iter().map(multiple).collect(),
        inputs: of.inputs.iter().map(multiple).collect(),
        leaves: of.leaves.iter().map(leaf).collect(),
    }
}

/// BIN with all parts of its digits alike, in a ring where nothing else than ω^d = 0 holds.
pub fn bin_of(degree: usize) -> Parts {
    let mut base = vec![0; 2 * degree];
    base[degree] = 2;
    times(&vec![1; degree], &base, carried::bin_parts())
}

/// ω³ = 3 and β = ω: a carry of 3 goes three places up, so that a weight holds those of three places, each as its own part.
pub fn three_carries() -> Parts {
    let tern = carried::tern_parts();
    let whole = |elements: &[Vec<i16>]| elements.iter().map(|x| vec![x[0], 0, 0]).collect();
    let carry = |input: usize| tern.leaves[input].1[0];
    let leaf = |number: usize| {
        let word = [number / 81, number / 9 % 9, number % 9];
        let weight = word.map(carry);
        let upward = weight.into_iter().rev().collect();
        (word.map(|index| index as u8).to_vec(), upward)
    };
    Parts {
        base: vec![0, 0, 3, 0, 1, 0],
        alphabet: whole(&tern.alphabet),
        inputs: whole(&tern.inputs),
        leaves: (0..729).map(leaf).collect(),
    }
}
