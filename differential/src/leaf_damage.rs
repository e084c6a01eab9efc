//! Damage to the leaves: rules 9 to 14.

use crate::draft::Draft;
use crate::random::Random;

/// The offset of a part of a leaf's weight.
pub fn part_of(leaf: usize, draft: &Draft, random: &mut Random) -> usize {
    draft.record(3) * leaf + 4 + 2 * random.below(draft.degree)
}

/// A leaf's length or offset changed, or section 4 longer or shorter than the leaves say.
pub fn places_of_words(draft: &mut Draft, random: &mut Random) {
    let leaf = draft.record(3) * random.below(draft.records(3));
    let last = draft.record(3) * (draft.records(3) - 1);
    let (offset, length) = (draft.get(3, leaf), draft.get(3, leaf + 2));
    match random.below(7) {
        0 => draft.set(3, leaf + 2, random.pick(&[0, 9, 10, -1, i16::MIN])),
        1 => draft.set(
            3,
            leaf,
            offset.wrapping_add(random.pick(&[1, 65_535, 256])) as i16,
        ),
        2 => draft.set(
            3,
            leaf + 2,
            length.wrapping_add(random.pick(&[1, 65_535])) as i16,
        ),
        3 => draft.set(3, last + 2, draft.get(3, last + 2).wrapping_add(1) as i16),
        4 => draft.sections[4].push(0),
        5 => gap_in_front(draft),
        _ => draft.sections[4].truncate(draft.sections[4].len().saturating_sub(1).max(1)),
    }
}

/// Words that follow one another but start at 1.
fn gap_in_front(draft: &mut Draft) {
    for leaf in 0..draft.records(3) {
        let at = draft.record(3) * leaf;
        let offset = draft.get(3, at);
        draft.set(3, at, offset.wrapping_add(1) as i16);
    }
    draft.sections[4].insert(0, 0);
}

/// A word byte that is no input index.
pub fn foreign_index(draft: &mut Draft, random: &mut Random) {
    let first_foreign = draft.records(2).min(255);
    let value = random.between(first_foreign as i64, 255) as u8;
    let at = random.below(draft.records(4));
    let value = if random.one_in(2) {
        first_foreign as u8
    } else {
        value
    };
    if let Some(byte) = draft.sections[4].get_mut(at) {
        *byte = value;
    }
}

/// Two words swapped, a word repeated, a word that begins its neighbour, or another digit somewhere in a word.
pub fn order(draft: &mut Draft, random: &mut Random) {
    let mut leaves = draft.leaves();
    if leaves.len() < 2 {
        return;
    }
    let at = random.below(leaves.len() - 1);
    match random.below(5) {
        0 => leaves.swap(at, at + 1),
        1 => leaves[at + 1].0 = leaves[at].0.clone(),
        2 => {
            let mut longer = leaves[at].0.clone();
            longer.push(0);
            leaves[at + 1].0 = longer;
        }
        3 => {
            let below = random.below(leaves.len());
            leaves.swap(at, below);
        }
        _ => {
            let inputs = draft.records(2).min(256);
            if let Some(index) = leaves[at].0.last_mut() {
                *index = random.below(inputs) as u8;
            }
        }
    }
    draft.set_leaves(&leaves);
}

/// A leaf taken out, or some of the last ones, or a word made one digit longer so that its other extensions are missing.
pub fn missing_leaf(draft: &mut Draft, random: &mut Random) {
    let mut leaves = draft.leaves();
    if leaves.len() < 2 {
        return;
    }
    let at = random.below(leaves.len());
    match random.below(3) {
        0 => drop(leaves.remove(at)),
        1 => leaves.truncate(at.max(1)),
        _ if leaves[at].0.len() < 8 => leaves[at].0.push(0),
        _ => drop(leaves.remove(at)),
    }
    draft.set_leaves(&leaves);
}

/// A weight of leaf 0 that isn't zero.
pub fn leaf_0(draft: &mut Draft, random: &mut Random) {
    let at = part_of(0, draft, random);
    draft.set(3, at, random.pick(&[-1_024, -1, 1, 2, 1_024]));
}

/// Another weight, within the limits, at a leaf other than leaf 0: a table that only rule 14 may refuse. Often it is a leaf that
/// begins with zero, so that a sum may go wrong above the rows only.
pub fn weight(draft: &mut Draft, random: &mut Random) {
    let leaves = draft.leaves();
    let zero_first = leaves
        .iter()
        .take_while(|(word, _)| word.first() == Some(&0))
        .count();
    let below = if random.one_in(2) {
        zero_first
    } else {
        leaves.len()
    };
    if below > 1 {
        let at = part_of(1 + random.below(below - 1), draft, random);
        let value = random.pick(&[-1_024, -3, -2, -1, 0, 1, 2, 3, 1_024]);
        draft.set(3, at, value);
    }
}
