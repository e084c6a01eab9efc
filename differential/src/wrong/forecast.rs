//! Mistakes in the forecast and in the number of pairs (job 13).

use reference::table::{self, Leaf, Table};

use super::Mistake;
use crate::interface::{Call, Calls, Lent, FACTS, FAULT};
use crate::model::Model;

/// How the pairs are counted in the check or in the forecast.
#[derive(Clone, Copy, Debug, PartialEq, Eq)]
pub enum Counted {
    /// Not at all: the word keeps its contents.
    Nothing,
    /// Without a leaf and itself, or with two leaves once, whichever is the upper one.
    Apart,
    Unordered,
    /// As if all fitted.
    Squared,
    /// The run of an upper leaf with a tail has one leaf too many, or one too few.
    RunTooLong,
    RunTooShort,
    /// The lowest leaf of all is never a lower one, or the highest.
    WithoutLowest,
    WithoutHighest,
    /// The upper word isn't cut, or the lower one is too.
    WithFirstDigit,
    BothCut,
    /// One digit of the tail is compared.
    OneDigit,
    /// Lower words that end before the tail does aren't counted, or those that go on behind it.
    WordsThatEndFirst,
    WordsThatGoOn,
    /// In 16 bits.
    Cut,
    /// The pairs and the fact beside them stand in each other's place.
    InOtherWord,
}

/// What else a forecast does wrong.
#[derive(Clone, Copy, Debug, PartialEq, Eq)]
pub enum Slip {
    /// The most digits are other than 256.
    Most(u64),
    /// The digits are cut to some bits.
    DigitsCut(u32),
    /// The bytes are so many more than n + h, n alone, or n and the longest word of all tables.
    BytesOff(i64),
    WithoutDepth,
    WithLongestWord,
    /// The fault 20 is told with another group or another place, or before those of the table.
    Blames(i64),
    Place,
    DigitsFirst,
    /// A table that rule 14 refuses is refused here too.
    JudgesPairs,
}

/// The mistakes of this file.
pub fn mistakes() -> Vec<Mistake> {
    let of_call = |counted| ["check", "forecast"].map(|name| Mistake::Pairs(name, counted));
    let mut all: Vec<Mistake> = counted().into_iter().flat_map(of_call).collect();
    all.extend(slips().map(Mistake::Forecast));
    all
}

fn counted() -> [Counted; 15] {
    use Counted::*;
    [
        Nothing,
        Apart,
        Unordered,
        Squared,
        RunTooLong,
        RunTooShort,
        WithoutLowest,
        WithoutHighest,
        WithFirstDigit,
        BothCut,
        OneDigit,
        WordsThatEndFirst,
        WordsThatGoOn,
        Cut,
        InOtherWord,
    ]
}

fn slips() -> [Slip; 14] {
    use Slip::*;
    [
        Most(255),
        Most(257),
        DigitsCut(8),
        DigitsCut(16),
        DigitsCut(32),
        BytesOff(-1),
        BytesOff(1),
        WithoutDepth,
        WithLongestWord,
        Blames(1),
        Blames(3),
        Place,
        DigitsFirst,
        JudgesPairs,
    ]
}

/// The check or the forecast gives facts; the word of the pairs gets another number.
pub fn count(counted: Counted, call: &Call, before: &Lent, lent: &mut Lent) {
    let (word, beside) = match call {
        Call::Check => (4, 3),
        _ => (1, 2),
    };
    match counted {
        Counted::Nothing => lent.answer[word] = before.answer[word],
        Counted::InOtherWord => lent.answer.swap(word, beside),
        Counted::Cut => lent.answer[word] &= 0xffff,
        _ => {
            if let Ok(table) = table::read(&lent.table) {
                lent.answer[word] = pairs(counted, &table, lent.answer[word]);
            }
        }
    }
}

/// Another number of pairs than the right one.
fn pairs(counted: Counted, table: &Table, right: i64) -> i64 {
    let with_tail = || table.leaves.iter().filter(|leaf| leaf.word.len() > 1);
    let agree = |x: &[u8], y: &[u8]| x.iter().zip(y).all(|(x, y)| x == y);
    let of_leaves = |fit: &dyn Fn(&[u8], &[u8]) -> bool| {
        let lowers = |upper: &Leaf| {
            let fits = |lower: &&Leaf| fit(&upper.word, &lower.word);
            table.leaves.iter().filter(fits).count() as i64
        };
        table.leaves.iter().map(lowers).sum()
    };
    let [lowest, highest] = [0, table.leaves.len() - 1].map(|leaf| &table.leaves[leaf].word[..]);
    match counted {
        Counted::Apart => right - of_leaves(&|u, l| u == l && agree(&u[1..], l)),
        Counted::Unordered => {
            let both = of_leaves(&|u, l| u < l && agree(&u[1..], l) && agree(&l[1..], u));
            right - both
        }
        Counted::Squared => (table.leaves.len() * table.leaves.len()) as i64,
        Counted::RunTooLong => right + with_tail().count() as i64,
        Counted::RunTooShort => right - with_tail().count() as i64,
        Counted::WithoutLowest => right - of_leaves(&|u, l| l == lowest && agree(&u[1..], l)),
        Counted::WithoutHighest => right - of_leaves(&|u, l| l == highest && agree(&u[1..], l)),
        Counted::WithFirstDigit => of_leaves(&agree),
        Counted::BothCut => of_leaves(&|u, l| agree(&u[1..], &l[1..])),
        Counted::OneDigit => of_leaves(&|u, l| agree(&u[1..u.len().min(2)], l)),
        Counted::WordsThatEndFirst => of_leaves(&|u, l| l.starts_with(&u[1..])),
        Counted::WordsThatGoOn => of_leaves(&|u, l| u[1..].starts_with(l)),
        _ => right,
    }
}

/// A call of an implementation with such a slip.
pub fn call(slip: Slip, call: &Call, lent: &mut Lent) -> u64 {
    let Call::Forecast { digits } = *call else {
        return Model.call(call, lent);
    };
    let before = lent.clone();
    let returned = match slip {
        Slip::DigitsCut(bits) => {
            let digits = digits & ((1 << bits) - 1);
            Model.call(&Call::Forecast { digits }, lent)
        }
        _ => Model.call(call, lent),
    };
    match returned {
        FACTS => told(slip, digits, &before, lent),
        FAULT => refused(slip, digits, lent),
        _ => returned,
    }
}

fn tell(lent: &mut Lent, returned: u64, words: [i64; 3]) -> u64 {
    lent.answer[..3].copy_from_slice(&words);
    returned
}

/// A forecast that gives facts.
fn told(slip: Slip, digits: u64, before: &Lent, lent: &mut Lent) -> u64 {
    match slip {
        Slip::Most(most) if digits > most => return tell(lent, FAULT, [2, 20, 0]),
        Slip::BytesOff(by) => lent.answer[2] += by,
        Slip::WithoutDepth => lent.answer[2] = digits as i64,
        Slip::WithLongestWord => lent.answer[2] = digits as i64 + table::LONGEST_WORD as i64,
        Slip::JudgesPairs => {
            let mut checked = before.clone();
            if Model.call(&Call::Check, &mut checked) == FAULT {
                *lent = checked;
                return FAULT;
            }
        }
        _ => (),
    }
    FACTS
}

/// A forecast that is refused.
fn refused(slip: Slip, digits: u64, lent: &mut Lent) -> u64 {
    let number = lent.answer[1];
    match (slip, number) {
        (Slip::Most(most), 20) if digits <= most => {
            Model.call(&Call::Forecast { digits: 0 }, lent);
            lent.answer[2] += digits as i64;
            FACTS
        }
        (Slip::Blames(group), 20) => tell(lent, FAULT, [group, 20, 0]),
        (Slip::Place, 20) => tell(lent, FAULT, [2, 20, digits as i64]),
        (Slip::DigitsFirst, _) if digits > 256 => tell(lent, FAULT, [2, 20, 0]),
        _ => FAULT,
    }
}
