//! The alphabet with a perfect hash from keys to indexes (rule 7).

use super::degree::{Degree, Key};
use super::layout::Sections;

const SLOTS: usize = 256;
const MOST_DIGITS: usize = 16;

/// The digits by index, and the index by digit.
pub struct Alphabet<D: Degree> {
    pub count: usize,
    keys: [D::Key; MOST_DIGITS],
    multiplier: u64,
    /// The only index that a key of this slot may have. An empty slot says 0, whose key isn't there either.
    slots: [u8; SLOTS],
}

impl<D: Degree> Alphabet<D> {
    /// The alphabet, if its record 0 is zero and none repeats.
    pub fn of(sections: &Sections<D>) -> Option<Alphabet<D>> {
        let mut alphabet = Alphabet {
            count: sections.alphabet.len(),
            keys: [D::Key::ZERO; MOST_DIGITS],
            multiplier: 0x9e37_79b9_7f4a_7c15,
            slots: [0; SLOTS],
        };
        for (slot, record) in alphabet.keys.iter_mut().zip(sections.alphabet) {
            *slot = D::key(D::element(record.as_ref()));
        }
        if alphabet.keys[0] != D::Key::ZERO {
            return None;
        }
        while let Some((x, y)) = alphabet.collision() {
            if alphabet.keys[x] == alphabet.keys[y] {
                return None;
            }
            // Two digits of one slot: another multiplier, until each has its own. More than half of them do.
            alphabet.multiplier = alphabet.multiplier.wrapping_mul(0xd134_2543_de82_ef95) | 1;
            alphabet.slots = [0; SLOTS];
        }
        Some(alphabet)
    }

    /// Fills the slots; two digits of the same slot, if there are any. Zero's slot is 0.
    fn collision(&mut self) -> Option<(usize, usize)> {
        for index in 1..self.count {
            let slot = self.slot(self.keys[index]);
            let earlier = usize::from(self.slots[slot]);
            if earlier != 0 || slot == 0 {
                return Some((earlier, index));
            }
            self.slots[slot] = index as u8;
        }
        None
    }

    fn slot(&self, key: D::Key) -> usize {
        (key.folded().wrapping_mul(self.multiplier) >> 56) as usize
    }

    /// The index of a digit given by its key.
    pub fn index(&self, key: D::Key) -> Option<u8> {
        let index = self.slots[self.slot(key)];
        (self.keys[usize::from(index) % MOST_DIGITS] == key).then_some(index)
    }
}
