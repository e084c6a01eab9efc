//! The two carried tables ("Carried tables"), written from their description.

use crate::file::Parts;

const TERN_INPUTS: [i16; 9] = [0, 1, 2, 3, 4, -1, -2, -3, -4];
const BIN_INPUTS: [i16; 5] = [0, 1, 2, -1, -2];

/// TERN: base 3, one-digit words, weight 1 from 2 up and −1 from −2 down.
pub fn tern_parts() -> Parts {
    let leaf = |index: usize| {
        let input = TERN_INPUTS[index];
        let weight = if input.abs() >= 2 { input.signum() } else { 0 };
        (vec![index as u8], vec![weight, 0])
    };
    Parts {
        base: vec![0, -1, 3, 0],
        alphabet: rational(&[0, 1, 2, -1, -2]),
        inputs: rational(&TERN_INPUTS),
        leaves: (0..TERN_INPUTS.len()).map(leaf).collect(),
    }
}

/// BIN: base 2; after 1 and −1 the digit below decides, so their words are two long.
pub fn bin_parts() -> Parts {
    let mut leaves = Vec::new();
    for (index, input) in BIN_INPUTS.into_iter().enumerate() {
        if input.abs() != 1 {
            leaves.push((vec![index as u8], vec![input / 2, 0]));
            continue;
        }
        for (below, lower) in BIN_INPUTS.into_iter().enumerate() {
            let weight = if lower.signum() == input { input } else { 0 };
            leaves.push((vec![index as u8, below as u8], vec![weight, 0]));
        }
    }
    Parts {
        base: vec![0, -1, 2, 0],
        alphabet: rational(&[0, 1, -1]),
        inputs: rational(&BIN_INPUTS),
        leaves,
    }
}

/// TERN's file.
pub fn tern() -> Vec<u8> {
    tern_parts().write()
}

/// BIN's file.
pub fn bin() -> Vec<u8> {
    bin_parts().write()
}

/// Whole numbers as elements.
fn rational(numbers: &[i16]) -> Vec<Vec<i16>> {
    numbers.iter().map(|&a| vec![a, 0]).collect()
}
