//! Mistakes in the midpoint: other rules for halves (job 6), and a sum that overflows.

use super::{Mistake, Wrong};
use crate::interface::{Lent, Passed, PARTS};

/// Where a half that isn't whole goes, other than to the even neighbour.
#[derive(Clone, Copy, Debug, PartialEq, Eq)]
pub enum Rounding {
    Down,
    Up,
    TowardZero,
    AwayFromZero,
    ToOdd,
}

/// The mistakes of this file.
pub fn mistakes() -> Vec<Mistake> {
    use Rounding::*;
    let mut all = [Down, Up, TowardZero, AwayFromZero, ToOdd]
        .map(Mistake::MidpointRounded)
        .to_vec();
    all.push(Mistake::MidpointWraps);
    all.extend((0..PARTS).map(Mistake::MidpointDrops));
    all.extend((0..PARTS).map(Mistake::MidpointTwice));
    all
}

impl Rounding {
    fn half(self, sum: i64) -> i64 {
        let below = sum.div_euclid(2);
        let above = sum - below;
        match self {
            Rounding::Down => below,
            Rounding::Up => above,
            Rounding::TowardZero => sum / 2,
            Rounding::AwayFromZero => sum - sum / 2,
            Rounding::ToOdd if below % 2 != 0 => below,
            Rounding::ToOdd => above,
        }
    }
}

impl Wrong {
    pub(super) fn spoil_midpoint(&self, x: &Passed, y: &Passed, lent: &mut Lent) {
        for (part, (p, q)) in x.iter().zip(y).enumerate() {
            let half = match self.mistake {
                Mistake::MidpointRounded(rounding) => rounding.half(i64::from(*p) + i64::from(*q)),
                Mistake::MidpointWraps => {
                    reference::midpoint(&[p.wrapping_add(*q)], &[0])[0].into()
                }
                Mistake::MidpointDrops(dropped) if dropped == part => 0,
                Mistake::MidpointTwice(taken) if taken == part => i64::from(*p),
                _ => continue,
            };
            lent.answer[1 + part] = half;
        }
    }
}
