//! The row that refusal 14 is about (job 5): the two leaves, the digit that they give, and the string of input digits that brings them together.
//!
//! Rule 14 has no part in this: every two leaves are taken in order, and whether they fit is told by the string, which has to begin with both words.

use crate::element::Element;
use crate::table::{Leaf, Table};

/// The facts of the call: the leaves' numbers, the digit that isn't in the alphabet, and input indexes, that of the top place first.
#[derive(Clone, Debug, PartialEq, Eq)]
pub struct BadRow {
    pub upper: usize,
    pub lower: usize,
    pub digit: Element,
    pub string: Vec<u8>,
}

/// What there is to show of a table: the first of all pairs, by upper and then by lower leaf, that fits and gives no alphabet digit.
pub fn first(table: &Table) -> Option<BadRow> {
    (0..table.leaves.len()).find_map(|upper| with_upper(table, upper))
}

/// The first lower leaf that shows something with an upper one. The digit at the string's top place is its input digit, minus the base times the
/// weight that goes up, plus the weight that comes up from below.
fn with_upper(table: &Table, upper: usize) -> Option<BadRow> {
    let high = &table.leaves[upper];
    let goes_up = table.base.times(&high.weight);
    let left = &table.inputs[usize::from(high.word[0])] - &goes_up;
    let mut lowers = table.leaves.iter().enumerate();
    lowers.find_map(|(lower, low)| {
        let below = below_top(high, low)?;
        let digit = &left + &low.weight;
        let bad = !table.alphabet.contains(&digit);
        bad.then(|| BadRow {
            upper,
            lower,
            digit,
            string: [&high.word[..1], below].concat(),
        })
    })
}

/// What stands below the string's top place: the longer of the upper word's tail and the lower word. The leaves fit where both begin it.
fn below_top<'a>(upper: &'a Leaf, lower: &'a Leaf) -> Option<&'a [u8]> {
    let (tail, word) = (&upper.word[1..], &lower.word[..]);
    let longer = if tail.len() > word.len() { tail } else { word };
    (longer.starts_with(tail) && longer.starts_with(word)).then_some(longer)
}
