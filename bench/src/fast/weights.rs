//! Rule 14 by sets of weights. Leaves have few different weights; below each node of the tree of words the set of them is a bit mask,
//! and an upper leaf is judged against the whole run of its lower leaves at once.

use super::degree::{Degree, Key};
use super::pairs::offset;
use super::Table;

const MOST_WEIGHTS: usize = 64;
const SLOTS: usize = 256;
/// A child that is a node has this added to its number; the leaves are fewer.
const NODE: u16 = 4_096;
const ROOT: u16 = NODE;

/// The tree of words. Each node has a child for each input digit, the children of all nodes one after the other.
pub struct Sets<D: Degree> {
    inputs: usize,
    children: Vec<u16>,
    /// For each child the weights of the leaves below it.
    below: Vec<u64>,
    /// For each leaf the number of its weight.
    weight_of: Vec<u8>,
    weights: Weights<D>,
}

/// The different weights, numbered as they come up.
struct Weights<D: Degree> {
    keys: [D::Key; MOST_WEIGHTS],
    count: usize,
    /// A hash table of their numbers, each plus one.
    slots: [u8; SLOTS],
}

impl<D: Degree> Weights<D> {
    /// The number of a weight. Once there are too many, it says something and the count says so.
    fn number(&mut self, key: D::Key) -> u8 {
        let mut slot = (key.folded().wrapping_mul(0x9e37_79b9_7f4a_7c15) >> 56) as usize;
        loop {
            let number = usize::from(self.slots[slot]);
            if number == 0 {
                break;
            }
            if self.keys[(number - 1) % MOST_WEIGHTS] == key {
                return number as u8 - 1;
            }
            slot = (slot + 1) % SLOTS;
        }
        self.count += 1;
        if self.count <= MOST_WEIGHTS {
            self.keys[self.count - 1] = key;
            self.slots[slot] = self.count as u8;
        }
        (self.count - 1) as u8
    }
}

/// A node whose children are being put in: the place of the next one, how many are lacking, and the weights below it so far.
#[derive(Clone, Copy)]
struct Open {
    next: usize,
    lacking: usize,
    below: u64,
}

impl<D: Degree> Sets<D> {
    /// The sets, if no more than 64 weights are different.
    pub fn of(table: &Table<D>) -> Option<Self> {
        let inputs = table.sections.inputs.len();
        let children = (table.code.count() - 1) / (inputs - 1) * inputs;
        let mut weights = Weights::<D> {
            keys: [D::Key::ZERO; MOST_WEIGHTS],
            count: 0,
            slots: [0; SLOTS],
        };
        let number = |leaf| weights.number(D::key(table.code.weight(leaf)));
        let weight_of = (0..table.code.count()).map(number).collect();
        let mut sets = Sets {
            inputs,
            children: vec![0; children],
            below: vec![0; children],
            weight_of,
            weights,
        };
        if sets.weights.count > MOST_WEIGHTS {
            return None;
        }
        sets.grow(table);
        Some(sets)
    }

    /// Builds the tree. In an ordered complete code the words' lengths say where every leaf goes.
    fn grow(&mut self, table: &Table<D>) {
        let open = |node: usize| Open {
            next: node * self.inputs,
            lacking: self.inputs,
            below: 0,
        };
        let (mut node, mut parents) = (open(0), [open(0); 8]);
        let (mut level, mut nodes) = (0, 1);
        for (leaf, weight) in self.weight_of.iter().enumerate() {
            while level + 1 < table.code.length(leaf) {
                self.children[node.next] = NODE + nodes;
                parents[level % 8] = node;
                level += 1;
                node = open(nodes.into());
                nodes += 1;
            }
            self.children[node.next] = leaf as u16;
            let mut below = 1 << (weight % 64);
            loop {
                self.below[node.next] = below;
                node.next += 1;
                node.lacking -= 1;
                node.below |= below;
                if node.lacking > 0 || level == 0 {
                    break;
                }
                level -= 1;
                below = node.below;
                node = parents[level % 8];
            }
        }
    }

    /// The lowest upper leaf that fails.
    pub fn first_bad_upper(&self, table: &Table<D>) -> Option<usize> {
        let all = self.below[..self.inputs]
            .iter()
            .fold(0, |all, set| all | set);
        (0..self.inputs).find_map(|first| {
            // For each weight of an upper leaf: the weights that are known to be good with it and this first digit.
            let mut good = [0; MOST_WEIGHTS];
            match self.children[first] {
                upper @ NODE.. => self.descend(table, upper, ROOT, all, &mut good),
                upper => self.judge(table, upper, all, &mut good),
            }
        })
    }

    /// Goes down from an upper node and a lower child side by side; a lower leaf stays, with its own set, for all below it.
    fn descend(
        &self,
        table: &Table<D>,
        upper: u16,
        lower: u16,
        set: u64,
        good: &mut [u64; MOST_WEIGHTS],
    ) -> Option<usize> {
        let children_of = |node: u16| usize::from(node - NODE) * self.inputs;
        let uppers = children_of(upper);
        for digit in 0..self.inputs {
            let (mut lower, mut set) = (lower, set);
            if lower >= NODE {
                let child = children_of(lower) + digit;
                (lower, set) = (self.children[child], self.below[child]);
            }
            let bad = match self.children[uppers + digit] {
                upper @ NODE.. => self.descend(table, upper, lower, set, good),
                upper => self.judge(table, upper, set, good),
            };
            if bad.is_some() {
                return bad;
            }
        }
        None
    }

    /// The upper leaf itself, if some weight of the lower set is bad with it.
    #[inline(always)]
    fn judge(
        &self,
        table: &Table<D>,
        upper: u16,
        set: u64,
        good: &mut [u64; MOST_WEIGHTS],
    ) -> Option<usize> {
        let upper = usize::from(upper);
        let known = &mut good[usize::from(self.weight_of[upper]) % MOST_WEIGHTS];
        let open = set & !*known;
        if open == 0 {
            return None;
        }
        *known |= set;
        self.any_bad(table, upper, open).then_some(upper)
    }

    /// Whether some weight of a set is bad with an upper leaf.
    #[inline(never)]
    fn any_bad(&self, table: &Table<D>, upper: usize, mut open: u64) -> bool {
        let offset = offset(table, upper);
        while open != 0 {
            let weight = self.weights.keys[open.trailing_zeros() as usize];
            if table.alphabet.index(weight.plus(offset)).is_none() {
                return true;
            }
            open &= open - 1;
        }
        false
    }
}
