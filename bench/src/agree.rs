//! Library and fast form against the reference, before they are timed.

use std::collections::BTreeSet;

use reference::{Answer, Parts, DEGREES};

use crate::calls::Library;
use crate::codes;
use crate::damage;
use crate::draft::Draft;
use crate::fast::Pairs;
use crate::interface::{Call, Calls, Lent, ANSWER_WORDS, FAULT};
use crate::lend;
use crate::model::Model;
use crate::random::Random;
use crate::subject::Fast;
use crate::tables;

/// What was compared: the number of calls, and the refusals among their answers.
#[derive(Default)]
pub struct Tally {
    pub calls: usize,
    pub refusals: BTreeSet<i64>,
}

/// Compares on every table that is timed, on damaged ones and on random codes. What was tried, or the first difference.
pub fn compare_all() -> Result<Tally, String> {
    let mut random = Random::new(9);
    let mut tally = Tally::default();
    let samples = tables::samples();
    for sample in &samples {
        tally.timed_calls(sample)?;
    }
    for sample in &samples {
        // The reference tries all pairs of leaves, so the largest tables are damaged less often.
        let damaged = match sample.parts.leaves.len() {
            0..=1_000 => 2_000,
            _ => 60,
        };
        for _ in 0..damaged {
            let file = damaged_file(&sample.parts, &mut random);
            tally.compare_calls(&sample.parts, file, &mut random)?;
        }
    }
    for _ in 0..1_000 {
        let parts = random_code(&mut random);
        tally.compare_calls(&parts, parts.write(), &mut random)?;
    }
    Ok(tally)
}

/// A random code; often with more different weights than a bit mask holds, the first leaves' excepted, so that the check goes on.
fn random_code(random: &mut Random) -> Parts {
    let most_leaves = 1 + random.below(400);
    let degree = random.pick(&DEGREES);
    let mut parts = codes::random_code(degree, most_leaves, random);
    let kept = 1 + random.below(parts.leaves.len());
    if random.one_in(2) {
        for (leaf, (_, weight)) in parts.leaves.iter_mut().enumerate() {
            let part = |_| match leaf < kept {
                true => 0,
                false => random.between(-20, 20) as i16,
            };
            *weight = (0..degree).map(part).collect();
        }
    }
    parts
}

impl Tally {
    /// The calls that are timed, on the same buffers; they must give facts.
    fn timed_calls(&mut self, sample: &tables::Sample) -> Result<(), String> {
        let (parts, accepted) = (&sample.parts, sample.accepted);
        let mut lent = lend::rows(parts, accepted, 256);
        let is_accepted = matches!(reference::check(&lent.table), Answer::Facts(_));
        if is_accepted != accepted {
            return Err(format!("{}: accepted is {is_accepted}", sample.name));
        }
        self.compare(Call::Check, &mut lent)?;
        // The string is written over the sum.
        self.compare(Call::BadRow, &mut lent.clone())?;
        let mut calls = vec![Call::Forecast { digits: 256 }, Call::Add];
        if lend::subtracts(&lent) {
            calls.insert(0, Call::Subtract);
        }
        calls.extend(lend::edits(parts, accepted, 256));
        for call in &calls {
            if self.compare(*call, &mut lent)? != 0 {
                return Err(format!("{}: {call:?} is refused", sample.name));
            }
        }
        if self.compare(Call::Value, &mut lend::value_row(parts, 256))? != 0 {
            return Err(format!("{}: value is refused", sample.name));
        }
        Ok(())
    }

    /// All timed calls on a file that may be faulty, with rows and numbers that may be too.
    fn compare_calls(
        &mut self,
        parts: &Parts,
        table: Vec<u8>,
        random: &mut Random,
    ) -> Result<(), String> {
        let length = random.below(20);
        let digits = parts.alphabet.len() + random.below(20) / 19;
        let mut row = |extra: usize| -> Vec<u8> {
            (0..length + extra)
                .map(|_| random.below(digits) as u8)
                .collect()
        };
        let (first, second, sum) = (row(0), row(0), row(8));
        let mut lent = Lent {
            table,
            first,
            second,
            sum,
            answer: vec![-1; ANSWER_WORDS],
            ..Lent::default()
        };
        if random.one_in(20) {
            lent.sum.truncate(random.below(length + 9));
            lent.second.truncate(random.below(length + 1));
        }
        let edit = Call::Edit {
            row: random.below(33) as u64 / 16,
            place: random.below(length + 1) as u64,
            digit: random.below(digits + 1) as u64,
        };
        for call in [Call::Subtract, Call::BadRow, forecast(random)] {
            self.compare(call, &mut lent.clone())?;
        }
        for call in [Call::Check, Call::Add, edit, edit, Call::Value] {
            self.compare(call, &mut lent)?;
        }
        Ok(())
    }

    /// One call through all implementations; what it returns, or how they differ.
    fn compare(&mut self, call: Call, lent: &mut Lent) -> Result<u64, String> {
        let before = lent.clone();
        let returned = Model.call(&call, lent);
        let rivals: [(&str, &dyn Calls); 3] = [
            ("fast form", &Fast(Pairs::Best)),
            ("fast form by runs", &Fast(Pairs::Runs)),
            ("library", &Library),
        ];
        for (name, rival) in rivals {
            let mut copy = before.clone();
            let said = rival.call(&call, &mut copy);
            if (said, &copy) != (returned, &*lent) {
                let (answer, right) = (&copy.answer, &lent.answer);
                let bytes = before.table.len();
                return Err(format!(
                    "{call:?} on {bytes} bytes: {name} {answer:?}, reference {right:?}"
                ));
            }
        }
        self.calls += 1;
        if returned == FAULT {
            self.refusals.insert(lent.answer[1]);
        }
        Ok(returned)
    }
}

/// A forecast for rows that may be too long.
fn forecast(random: &mut Random) -> Call {
    let digits = match random.below(3) {
        0 => random.next() >> random.below(64),
        _ => random.below(258) as u64,
    };
    Call::Forecast { digits }
}

/// A table's file with one or two rules broken, sometimes with a byte changed.
fn damaged_file(parts: &Parts, random: &mut Random) -> Vec<u8> {
    let mut draft = Draft::new(parts);
    for _ in 0..1 + random.below(2) {
        let number = random.pick(&damage::NUMBERS);
        damage::damage(&mut draft, number, random);
    }
    let mut file = draft.write();
    if random.one_in(4) && !file.is_empty() {
        let at = random.below(file.len());
        file[at] = random.next() as u8;
    }
    file
}
