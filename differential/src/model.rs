//! The reference behind the C interface: what every call has to return and to leave in the lent buffers.

use reference::by_table;
use reference::table::{self, Reading};
use reference::{Answer, BadRow, Group, Operation};

use crate::interface::{Call, Calls, Lent, ANSWER_WORDS, FACTS, FAULT, STRING_BYTES, TOO_SHORT};

/// The reference as an implementation of the interface.
pub struct Model;

impl Calls for Model {
    fn call(&self, call: &Call, lent: &mut Lent) -> u64 {
        call_by(table::read, call, lent)
    }
}

/// The same with another reader of tables.
pub fn call_by(read: impl Fn(&[u8]) -> Reading, call: &Call, lent: &mut Lent) -> u64 {
    match *call {
        Call::Tern => write_carried(&reference::tern(), &mut lent.sum),
        Call::Bin => write_carried(&reference::bin(), &mut lent.sum),
        _ if lent.answer.len() < ANSWER_WORDS => TOO_SHORT,
        Call::BadRow if lent.sum.len() < STRING_BYTES => TOO_SHORT,
        Call::Midpoint { x, y } => {
            let half = reference::midpoint(&x, &y);
            let parts = half.into_iter().map(i64::from).collect();
            store(Answer::Facts(parts), &mut lent.answer)
        }
        _ => store(answer(&read(&lent.table), call, lent), &mut lent.answer),
    }
}

/// A carried table goes whole into the buffer's start, or nothing is written.
fn write_carried(table: &[u8], out: &mut [u8]) -> u64 {
    match out.get_mut(..table.len()) {
        Some(start) => {
            start.copy_from_slice(table);
            FACTS
        }
        None => TOO_SHORT,
    }
}

/// The reference's answer to a call that is lent a table, its facts in document 01's order, the reach of job 7 or the pairs of job 13 behind
/// them.
fn answer(reading: &Reading, call: &Call, lent: &mut Lent) -> Answer<Vec<i64>> {
    let asked = lent.asked();
    let Lent {
        first,
        second,
        sum,
        whose,
        numbers,
        values,
        ..
    } = lent;
    let mut combine = |operation| {
        let combined = by_table::combine(operation, reading, first, second, sum);
        facts(combined, |f| words([f.written, f.reach]))
    };
    match *call {
        Call::Check => facts(by_table::check(reading), |f| {
            words([f.depth, f.leaves, f.digits, f.pairs])
        }),
        Call::BadRow => facts(by_table::bad_row(reading), |shown| match shown {
            Some(row) => show(&row, sum),
            None => words([0]),
        }),
        Call::Forecast { digits } => facts(by_table::forecast(reading, digits), |f| {
            words([f.pairs, f.bytes])
        }),
        Call::Add => combine(Operation::Sum),
        Call::Subtract => combine(Operation::Difference),
        Call::Edit { row, place, digit } => {
            let edited = by_table::edit(reading, first, second, sum, (row, place, digit));
            facts(edited, |f| words([f.changed, f.reach]))
        }
        Call::Run => {
            let ran = by_table::run(reading, first, second, sum, &asked);
            facts(ran, |answers| {
                for (k, answer) in answers.iter().enumerate() {
                    [whose[k], numbers[k], values[k]] = told(answer);
                }
                words([answers.len()])
            })
        }
        Call::Value => facts(by_table::value(reading, first), |x| x.parts),
        Call::Midpoint { .. } | Call::Tern | Call::Bin => Answer::Facts(Vec::new()),
    }
}

/// The string of a bad row goes into the buffer's start; its length, the leaves' numbers and the digit's parts are the facts.
pub fn show(row: &BadRow, string: &mut [u8]) -> Vec<i64> {
    let bytes = row.string.len();
    string[..bytes].copy_from_slice(&row.string);
    let mut facts = words([bytes, row.upper, row.lower]);
    facts.extend(&row.digit.parts);
    facts
}

fn words<const N: usize>(facts: [usize; N]) -> Vec<i64> {
    facts.map(|fact| fact as i64).to_vec()
}

fn facts<F>(answer: Answer<F>, words: impl FnOnce(F) -> Vec<i64>) -> Answer<Vec<i64>> {
    match answer {
        Answer::Facts(known) => Answer::Facts(words(known)),
        Answer::Fault(fault) => Answer::Fault(fault),
    }
}

/// An edit's answer in three numbers.
fn told(answer: &Answer<usize>) -> [usize; 3] {
    match answer {
        Answer::Facts(changed) => [0, 0, *changed],
        Answer::Fault(fault) => [
            group_number(fault.group) as usize,
            fault.number.into(),
            fault.place,
        ],
    }
}

/// Whose fault it is, as a number.
fn group_number(group: Group) -> i64 {
    match group {
        Group::Author => 1,
        Group::Rows => 2,
        Group::Editor => 3,
    }
}

/// Word 0 says facts or whose fault; the words that a call has nothing for keep their contents.
fn store(answer: Answer<Vec<i64>>, words: &mut [i64]) -> u64 {
    match answer {
        Answer::Facts(known) => {
            words[0] = 0;
            words[1..=known.len()].copy_from_slice(&known);
            FACTS
        }
        Answer::Fault(fault) => {
            words[0] = group_number(fault.group);
            words[1] = fault.number.into();
            words[2] = fault.place as i64;
            FAULT
        }
    }
}
