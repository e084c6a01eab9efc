//! Mistakes in showing a bad row (job 5).

use reference::table::{self, Table};
use reference::{BadRow, Element};

use super::Mistake;
use crate::interface::{
    Call, Calls, Lent, ANSWER_WORDS, FACTS, FAULT, PARTS, STRING_BYTES, TOO_SHORT,
};
use crate::model::{self, Model};
use crate::pairs::{digit, fit};

/// Which pair is shown.
#[derive(Clone, Copy, Debug, PartialEq, Eq)]
pub enum Chosen {
    /// The highest upper leaf that fails, or the highest lower one that fails with it.
    HighestUpper,
    HighestLower,
    /// The lowest lower leaf that fits, failing or not, and the lowest that fails, fitting or not.
    LowestThatFits,
    LowestThatFails,
    /// The lowest lower leaf of all failing pairs, and the lowest upper one that fails with it.
    ByLowerFirst,
    /// The first pair of two different leaves, and nothing where only a leaf and itself fail.
    Apart,
    /// The right pair, each leaf told as the other.
    Exchanged,
    /// The leaf after the right one, the upper or the lower.
    NextUpper,
    NextLower,
}

/// What the string is, and what becomes of the lent bytes behind it.
#[derive(Clone, Copy, Debug, PartialEq, Eq)]
pub enum Written {
    /// The upper leaf's first digit and the shorter of its tail and the lower word.
    Shorter,
    /// The tail always, or the lower word always, the longer one or not.
    Tail,
    LowerWord,
    /// Without the upper leaf's first digit, or with the lower one's in its place.
    WithoutFirst,
    FirstOfLower,
    /// Both words one behind the other, as far as nine bytes hold them.
    BothWords,
    /// From the bottom.
    FromBottom,
    /// Without its last digit, and with a zero behind it.
    LastMissing,
    ZeroBehind,
    /// Digits as values and not as indexes.
    Values,
    /// Told and not written.
    Nowhere,
    /// Behind the string there are zeros, up to nine bytes, or from there on.
    ClearsNine,
    ClearsBeyond,
    /// Written at the end of the nine bytes.
    AtTheEnd,
    /// Its length is told as nine, as that without the first digit, or one too high.
    CountsNine,
    CountsWithoutFirst,
    CountsOneMore,
}

/// What the digit is, and how its parts are told.
#[derive(Clone, Copy, Debug, PartialEq, Eq)]
pub enum Told {
    /// The weights exchanged.
    Exchanged,
    /// Without the lower weight, without what goes up, or with the upper weight alone in place of what goes up.
    WithoutLower,
    WithoutUpper,
    WithoutBase,
    /// What goes up is added, or the lower weight is taken away.
    AddsUpper,
    TakesLower,
    /// The first digit is the lower leaf's.
    FirstOfLower,
    /// The opposite.
    Opposite,
    /// In 16 bits.
    Cut,
    /// Zeros for the parts above the degree, the last part not told, only two told, highest first.
    FourParts,
    LastKept,
    TwoParts,
    HighestFirst,
    /// In front of the leaves' numbers.
    InFront,
}

/// What is wrong with the call.
#[derive(Clone, Copy, Debug, PartialEq, Eq)]
pub enum Slip {
    Pair(Chosen),
    String(Written),
    Digit(Told),
    /// A row that is shown is told as the fault 14, or never shown.
    RowIsFault,
    NeverShows,
    /// Nothing to show is told as the fault 14, with zeros in the words that it keeps, or clears the string.
    NothingIsFault,
    NothingInAllWords,
    NothingClears,
    /// A fault of the table is told as nothing to show, or with another group, or clears the string.
    FaultIsNothing,
    Blames(i64),
    FaultClears,
    /// A string under nine bytes is cleared, or taken where the row fits in; nine bytes aren't enough.
    ShortCleared,
    ShortTaken,
    NineTooFew,
    /// An answer array under eight words is taken where the facts fit in.
    ShortAnswerTaken,
}

/// The mistakes of this file.
pub fn mistakes() -> Vec<Mistake> {
    let mut all: Vec<Slip> = chosen().map(Slip::Pair).to_vec();
    all.extend(written().map(Slip::String));
    all.extend(told().map(Slip::Digit));
    all.extend([
        Slip::RowIsFault,
        Slip::NeverShows,
        Slip::NothingIsFault,
        Slip::NothingInAllWords,
        Slip::NothingClears,
        Slip::FaultIsNothing,
        Slip::Blames(2),
        Slip::Blames(3),
        Slip::FaultClears,
        Slip::ShortCleared,
        Slip::ShortTaken,
        Slip::NineTooFew,
        Slip::ShortAnswerTaken,
    ]);
    all.into_iter().map(Mistake::BadRow).collect()
}

fn chosen() -> [Chosen; 9] {
    use Chosen::*;
    [
        HighestUpper,
        HighestLower,
        LowestThatFits,
        LowestThatFails,
        ByLowerFirst,
        Apart,
        Exchanged,
        NextUpper,
        NextLower,
    ]
}

fn written() -> [Written; 17] {
    use Written::*;
    [
        Shorter,
        Tail,
        LowerWord,
        WithoutFirst,
        FirstOfLower,
        BothWords,
        FromBottom,
        LastMissing,
        ZeroBehind,
        Values,
        Nowhere,
        ClearsNine,
        ClearsBeyond,
        AtTheEnd,
        CountsNine,
        CountsWithoutFirst,
        CountsOneMore,
    ]
}

fn told() -> [Told; 14] {
    use Told::*;
    [
        Exchanged,
        WithoutLower,
        WithoutUpper,
        WithoutBase,
        AddsUpper,
        TakesLower,
        FirstOfLower,
        Opposite,
        Cut,
        FourParts,
        LastKept,
        TwoParts,
        HighestFirst,
        InFront,
    ]
}

/// A call of an implementation with such a slip.
pub fn call(slip: Slip, call: &Call, lent: &mut Lent) -> u64 {
    let before = lent.clone();
    let returned = Model.call(call, lent);
    if *call != Call::BadRow {
        return returned;
    }
    match returned {
        FACTS if slip == Slip::NineTooFew && lent.sum.len() == STRING_BYTES => {
            *lent = before;
            TOO_SHORT
        }
        FACTS if lent.answer[1] == 0 => nothing(slip, lent),
        FACTS => shown(slip, &before, lent),
        FAULT => refused(slip, lent),
        _ => too_short(slip, returned, lent),
    }
}

/// There is nothing to show.
fn nothing(slip: Slip, lent: &mut Lent) -> u64 {
    match slip {
        Slip::NothingIsFault => {
            lent.answer[..3].copy_from_slice(&[1, 14, 0]);
            return FAULT;
        }
        Slip::NothingInAllWords => lent.answer[2..ANSWER_WORDS].fill(0),
        Slip::NothingClears => lent.sum[..STRING_BYTES].fill(0),
        _ => (),
    }
    FACTS
}

/// The table is refused.
fn refused(slip: Slip, lent: &mut Lent) -> u64 {
    match slip {
        Slip::FaultIsNothing => {
            lent.answer[..2].copy_from_slice(&[0, 0]);
            return FACTS;
        }
        Slip::Blames(group) => lent.answer[0] = group,
        Slip::FaultClears => lent.sum[..STRING_BYTES].fill(0),
        _ => (),
    }
    FAULT
}

/// The string or the answer array is too short.
fn too_short(slip: Slip, returned: u64, lent: &mut Lent) -> u64 {
    let mut longer = lent.clone();
    match slip {
        Slip::ShortCleared => lent.sum.fill(0),
        Slip::ShortTaken if lent.answer.len() >= ANSWER_WORDS => {
            longer.sum.resize(STRING_BYTES, 0);
            let told = Model.call(&Call::BadRow, &mut longer);
            let bytes = longer.answer[1].max(0) as usize;
            if told == FACTS && bytes <= lent.sum.len() {
                longer.sum.truncate(lent.sum.len());
                *lent = longer;
                return told;
            }
        }
        Slip::ShortAnswerTaken if lent.sum.len() >= STRING_BYTES => {
            longer.answer.resize(ANSWER_WORDS, -1);
            let told = Model.call(&Call::BadRow, &mut longer);
            let words = longer.answer.iter().rposition(|word| *word != -1);
            if told == FACTS && words.is_some_and(|last| last < lent.answer.len()) {
                longer.answer.truncate(lent.answer.len());
                *lent = longer;
                return told;
            }
        }
        _ => (),
    }
    returned
}

/// A row is shown.
fn shown(slip: Slip, before: &Lent, lent: &mut Lent) -> u64 {
    let Ok(table) = table::read(&before.table) else {
        return FACTS;
    };
    let pair = [2, 3].map(|word| lent.answer[word] as usize);
    match slip {
        Slip::Pair(chosen) => {
            let other = choose(chosen, &table, pair);
            say_nothing(before, lent);
            if let Some(other) = other {
                store(&row_of(&table, other), lent);
            }
        }
        Slip::String(how) => write(how, &table, pair, before, lent),
        Slip::Digit(how) => tell(how, &table, pair, before, lent),
        Slip::RowIsFault => {
            *lent = before.clone();
            lent.answer[..3].copy_from_slice(&[1, 14, pair[0] as i64]);
            return FAULT;
        }
        Slip::NeverShows => say_nothing(before, lent),
        _ => (),
    }
    FACTS
}

/// There is nothing to show, and the buffers are as lent.
fn say_nothing(before: &Lent, lent: &mut Lent) {
    *lent = before.clone();
    lent.answer[..2].copy_from_slice(&[0, 0]);
}

/// The facts of a row, in the string and behind the answer's word 0.
fn store(row: &BadRow, lent: &mut Lent) {
    let facts = model::show(row, &mut lent.sum);
    lent.answer[1..=facts.len()].copy_from_slice(&facts);
}

/// What a pair shows, fitting or not.
fn row_of(table: &Table, [upper, lower]: [usize; 2]) -> BadRow {
    let (high, low) = (&table.leaves[upper].word, &table.leaves[lower].word);
    let below = match high.len() - 1 > low.len() {
        true => &high[1..],
        false => &low[..],
    };
    BadRow {
        upper,
        lower,
        digit: digit(table, upper, lower),
        string: [&high[..1], below].concat(),
    }
}

/// The pair that is shown in place of the right one; none where none is found.
fn choose(chosen: Chosen, table: &Table, [upper, lower]: [usize; 2]) -> Option<[usize; 2]> {
    let count = table.leaves.len();
    let bad = |u: usize, l: usize| !table.alphabet.contains(&digit(table, u, l));
    let fails = |[u, l]: &[usize; 2]| fit(table, *u, *l) && bad(*u, *l);
    let with = |u: usize| (0..count).map(move |l| [u, l]);
    match chosen {
        Chosen::HighestUpper => {
            let highest = (0..count).rev().find(|u| with(*u).any(|pair| fails(&pair)));
            highest.and_then(|u| with(u).find(fails))
        }
        Chosen::HighestLower => with(upper).rev().find(fails),
        Chosen::LowestThatFits => with(upper).find(|[u, l]| fit(table, *u, *l)),
        Chosen::LowestThatFails => with(upper).find(|[u, l]| bad(*u, *l)),
        Chosen::ByLowerFirst => {
            let mut all = (0..count).flat_map(|l| (0..count).map(move |u| [u, l]));
            all.find(fails)
        }
        Chosen::Apart => {
            let mut all = (0..count).flat_map(with);
            all.find(|pair| pair[0] != pair[1] && fails(pair))
        }
        Chosen::Exchanged => Some([lower, upper]),
        Chosen::NextUpper => Some([(upper + 1) % count, lower]),
        Chosen::NextLower => Some([upper, (lower + 1) % count]),
    }
}

/// The string of the right pair, wrongly made, told or written.
fn write(how: Written, table: &Table, pair: [usize; 2], before: &Lent, lent: &mut Lent) {
    let bytes = lent.answer[1] as usize;
    match how {
        Written::Nowhere => lent.sum.clone_from(&before.sum),
        Written::ClearsNine => lent.sum[bytes..STRING_BYTES].fill(0),
        Written::ClearsBeyond => lent.sum[STRING_BYTES..].fill(0),
        Written::AtTheEnd => {
            let string = lent.sum[..bytes].to_vec();
            lent.sum.clone_from(&before.sum);
            lent.sum[STRING_BYTES - bytes..STRING_BYTES].copy_from_slice(&string);
        }
        Written::CountsNine => lent.answer[1] = STRING_BYTES as i64,
        Written::CountsWithoutFirst => lent.answer[1] -= 1,
        Written::CountsOneMore => lent.answer[1] += 1,
        _ => {
            let mut string = other_string(how, table, pair, &lent.sum[..bytes]);
            string.truncate(STRING_BYTES);
            lent.sum.clone_from(&before.sum);
            lent.sum[..string.len()].copy_from_slice(&string);
            lent.answer[1] = string.len() as i64;
        }
    }
}

fn other_string(how: Written, table: &Table, [upper, lower]: [usize; 2], right: &[u8]) -> Vec<u8> {
    let (high, low) = (&table.leaves[upper].word, &table.leaves[lower].word);
    let value = |index: &u8| table.inputs[usize::from(*index)].parts[0] as u8;
    match how {
        Written::Shorter if high.len() - 1 > low.len() => [&high[..1], low].concat(),
        Written::Shorter | Written::Tail => high.clone(),
        Written::LowerWord => [&high[..1], low].concat(),
        Written::WithoutFirst => right[1..].to_vec(),
        Written::FirstOfLower => [&low[..1], &right[1..]].concat(),
        Written::BothWords => [&high[..], low].concat(),
        Written::FromBottom => right.iter().rev().copied().collect(),
        Written::LastMissing => right[..right.len() - 1].to_vec(),
        Written::ZeroBehind => [right, &[0]].concat(),
        Written::Values => right.iter().map(value).collect(),
        _ => right.to_vec(),
    }
}

/// The digit of the right pair, wrongly made or told.
fn tell(how: Told, table: &Table, pair: [usize; 2], before: &Lent, lent: &mut Lent) {
    let degree = table.base.degree();
    let (low, high) = (4, 4 + degree);
    match how {
        Told::FourParts => lent.answer[high..low + PARTS].fill(0),
        Told::LastKept => lent.answer[high - 1] = before.answer[high - 1],
        Told::TwoParts => lent.answer[low + 2..high].copy_from_slice(&before.answer[low + 2..high]),
        Told::HighestFirst => lent.answer[low..high].reverse(),
        Told::InFront => lent.answer[low - 2..high].rotate_left(2),
        Told::Cut => {
            let cut = |part: &mut i64| *part = i64::from(*part as i16);
            lent.answer[low..high].iter_mut().for_each(cut);
        }
        _ => lent.answer[low..high].copy_from_slice(&other_digit(how, table, pair).parts),
    }
}

fn other_digit(how: Told, table: &Table, [upper, lower]: [usize; 2]) -> Element {
    let (high, low) = (&table.leaves[upper], &table.leaves[lower]);
    let first = &table.inputs[usize::from(high.word[0])];
    let goes_up = table.base.times(&high.weight);
    let right = digit(table, upper, lower);
    match how {
        Told::Exchanged => &(first + &high.weight) - &table.base.times(&low.weight),
        Told::WithoutLower => first - &goes_up,
        Told::WithoutUpper => first + &low.weight,
        Told::WithoutBase => &(first + &low.weight) - &high.weight,
        Told::AddsUpper => &(first + &low.weight) + &goes_up,
        Told::TakesLower => &(first - &low.weight) - &goes_up,
        Told::FirstOfLower => &(&right - first) + &table.inputs[usize::from(low.word[0])],
        Told::Opposite => &Element::zero(right.parts.len()) - &right,
        _ => right,
    }
}
