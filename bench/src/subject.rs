//! The fast form behind the C interface's calls, so that it is compared and timed as the library is.

use reference::{Fault, Group};

use crate::fast::{self, Pairs};
use crate::interface::{Call, Calls, Lent, ANSWER_WORDS, FACTS, FAULT, STRING_BYTES, TOO_SHORT};

/// The fast form, with one of its ways through the pairs of rule 14.
pub struct Fast(pub Pairs);

impl Calls for Fast {
    fn call(&self, call: &Call, lent: &mut Lent) -> u64 {
        if lent.answer.len() < ANSWER_WORDS {
            return TOO_SHORT;
        }
        let Lent {
            table,
            first,
            second,
            sum,
            answer,
            ..
        } = lent;
        match *call {
            Call::Check => store(answer, fast::check(table, self.0), |facts| {
                words([facts.depth, facts.leaves, facts.digits, facts.pairs])
            }),
            Call::BadRow if sum.len() < STRING_BYTES => TOO_SHORT,
            Call::BadRow => store(answer, fast::bad_row(table, self.0, sum), |facts| facts),
            Call::Forecast { digits } => store(answer, fast::forecast(table, digits), words),
            Call::Add => store(answer, fast::add(table, first, second, sum), words),
            Call::Subtract => store(answer, fast::subtract(table, first, second, sum), words),
            Call::Edit { row, place, digit } => {
                let edited = fast::edit(table, [first, second], sum, [row, place, digit]);
                store(answer, edited, words)
            }
            Call::Value => store(answer, fast::value(table, first), |value| value),
            Call::Run | Call::Midpoint { .. } | Call::Tern | Call::Bin => {
                unreachable!("not a timed call")
            }
        }
    }
}

fn words<const N: usize>(facts: [usize; N]) -> [i64; N] {
    facts.map(|fact| fact as i64)
}

/// Writes an answer as the C interface does; what the call returns.
fn store<F, W: AsRef<[i64]>>(
    words: &mut [i64],
    answer: Result<F, Fault>,
    facts: impl FnOnce(F) -> W,
) -> u64 {
    match answer {
        Ok(known) => {
            let facts = facts(known);
            let facts = facts.as_ref();
            words[0] = 0;
            words[1..=facts.len()].copy_from_slice(facts);
            FACTS
        }
        Err(fault) => {
            let group = match fault.group {
                Group::Author => 1,
                Group::Rows => 2,
                Group::Editor => 3,
            };
            words[..3].copy_from_slice(&[group, fault.number.into(), fault.place as i64]);
            FAULT
        }
    }
}
