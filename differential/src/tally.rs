//! What was tried, counted by call, refusal number and kind, and the differences found.

use std::collections::BTreeMap;

use crate::interface::{Call, Calls, Lent, FACTS, FAULT};
use crate::kinds::{self, Kind};
use crate::model::Model;
use crate::orders::Law;

/// How a call ended, as counted.
#[derive(Clone, Copy, Debug, PartialEq, Eq, PartialOrd, Ord)]
pub enum Outcome {
    Facts,
    Fault(i64),
    TooShort,
}

/// What the implementation itself returned, and how it left the buffers.
pub struct Own {
    pub returned: u64,
    pub lent: Lent,
}

/// A comparison of an implementation with the reference.
pub struct Comparison<'a> {
    subject: &'a dyn Calls,
    pub counts: BTreeMap<(&'static str, Outcome), u64>,
    pub differences: Vec<String>,
    /// How often each kind of case was met.
    kinds: BTreeMap<Kind, u64>,
    /// How many laws were broken.
    pub broken_laws: u64,
    /// The law of orders, a wrong one where that is the mistake.
    pub orders: Law,
    /// The row lengths of additions, subtractions, edits and runs.
    lengths: BTreeMap<usize, u64>,
    /// Leaves and depth of the largest codes that the check accepted.
    largest: (i64, i64),
    /// The case that runs, named in a difference so that it can be repeated.
    pub case: u64,
}

impl<'a> Comparison<'a> {
    pub fn new(subject: &'a dyn Calls) -> Self {
        Comparison {
            subject,
            counts: BTreeMap::new(),
            differences: Vec::new(),
            kinds: BTreeMap::new(),
            broken_laws: 0,
            orders: Law::Right,
            lengths: BTreeMap::new(),
            largest: (0, 0),
            case: 0,
        }
    }

    /// Makes a call of both implementations with the same buffers and compares all that comes back. The buffers are left as the
    /// reference leaves them.
    pub fn call(&mut self, call: Call, lent: &mut Lent) -> Outcome {
        self.call_own(call, lent).0
    }

    /// The same, with what the implementation made of it.
    pub fn call_own(&mut self, call: Call, lent: &mut Lent) -> (Outcome, Own) {
        let before = lent.clone();
        let mut tried = lent.clone();
        let expected = Model.call(&call, lent);
        let returned = self.subject.call(&call, &mut tried);
        if returned != expected || tried != *lent {
            let report = report(&call, &before, (expected, lent), (returned, &tried));
            self.differences
                .push(format!("case {}: {report}", self.case));
        }
        let outcome = match expected {
            FACTS => Outcome::Facts,
            FAULT => Outcome::Fault(lent.answer[1]),
            _ => Outcome::TooShort,
        };
        self.count(&call, outcome, &before, lent);
        let own = Own {
            returned,
            lent: tried,
        };
        (outcome, own)
    }

    fn count(&mut self, call: &Call, outcome: Outcome, before: &Lent, lent: &Lent) {
        *self.counts.entry((call.name(), outcome)).or_default() += 1;
        for kind in kinds::met(call, outcome, before, lent) {
            self.count_kind(kind);
        }
        match call {
            Call::Add | Call::Subtract | Call::Edit { .. } | Call::Run => {
                *self.lengths.entry(lent.first.len()).or_default() += 1
            }
            Call::Check if outcome == Outcome::Facts => {
                let (leaves, depth) = self.largest;
                self.largest = (leaves.max(lent.answer[2]), depth.max(lent.answer[1]));
            }
            _ => (),
        }
    }

    /// One more case of a kind.
    pub fn count_kind(&mut self, kind: Kind) {
        *self.kinds.entry(kind).or_default() += 1;
    }

    /// One more case of each of some kinds that holds.
    pub fn count_holding(&mut self, kinds: Vec<(bool, Kind)>) {
        for kind in kinds::holding(kinds) {
            self.count_kind(kind);
        }
    }

    /// A law that the answers of several calls have to keep; a difference where they don't.
    pub fn law(&mut self, holds: bool, law: impl FnOnce() -> String) {
        if !holds {
            self.broken_laws += 1;
            self.differences
                .push(format!("case {}: {}", self.case, law()));
        }
    }

    /// The number of calls compared.
    pub fn calls(&self) -> u64 {
        self.counts.values().sum()
    }

    /// The counts, one line for each call, and then those of each refusal number over all calls.
    pub fn print(&self) {
        for name in [
            "check", "bad_row", "forecast", "add", "subtract", "edit", "run", "value", "midpoint",
            "tern", "bin",
        ] {
            let of_call = self.counts.iter().filter(|((call, _), _)| *call == name);
            let parts: Vec<String> = of_call
                .map(|((_, outcome), count)| counted(*outcome, *count))
                .collect();
            println!("{name}: {}", parts.join(", "));
        }
        let of_length = |length| self.lengths.get(&length).copied().unwrap_or(0);
        let [none, one, under, most, over] = [0, 1, 255, 256, 257].map(of_length);
        println!("row lengths: 0: {none}, 1: {one}, 255: {under}, 256: {most}, 257: {over}");
        let (leaves, depth) = self.largest;
        println!("accepted codes: up to {leaves} leaves, up to depth {depth}");
        let by_number: Vec<String> = crate::wrong::NUMBERS
            .iter()
            .map(|number| format!("{number}: {}", self.of_number(*number)))
            .collect();
        println!("by refusal number: {}", by_number.join(", "));
        let by_kind: Vec<String> = Kind::ALL
            .into_iter()
            .map(|kind| format!("{kind:?}: {}", self.of_kind(kind)))
            .collect();
        println!("by kind: {}", by_kind.join(", "));
        let missing = self.not_reached();
        if !missing.is_empty() {
            println!("not reached: {}", missing.join(", "));
        }
    }

    fn of_kind(&self, kind: Kind) -> u64 {
        self.kinds.get(&kind).copied().unwrap_or(0)
    }

    fn of_number(&self, number: i64) -> u64 {
        let of_number = self
            .counts
            .iter()
            .filter(|((_, outcome), _)| *outcome == Outcome::Fault(number));
        of_number.map(|(_, count)| count).sum()
    }

    /// The refusal numbers and kinds that no call has met.
    fn not_reached(&self) -> Vec<String> {
        let numbers = crate::wrong::NUMBERS.into_iter();
        let numbers = numbers.filter(|number| self.of_number(*number) == 0);
        let kinds = Kind::ALL.into_iter();
        let kinds = kinds.filter(|kind| self.of_kind(*kind) == 0);
        let numbers = numbers.map(|number| number.to_string());
        numbers
            .chain(kinds.map(|kind| format!("{kind:?}")))
            .collect()
    }
}

fn counted(outcome: Outcome, count: u64) -> String {
    match outcome {
        Outcome::Facts => format!("facts {count}"),
        Outcome::Fault(number) => format!("refused {number} {count}"),
        Outcome::TooShort => format!("too short {count}"),
    }
}

/// A difference, with the call and its buffers.
fn report(call: &Call, before: &Lent, expected: (u64, &Lent), got: (u64, &Lent)) -> String {
    let mut lines = vec![format!("{call:?} differs")];
    lines.push(format!("  expected {} {:?}", expected.0, expected.1.answer));
    lines.push(format!("  got      {} {:?}", got.0, got.1.answer));
    let buffers = |lent: &Lent| [&lent.table, &lent.first, &lent.second, &lent.sum].map(Vec::clone);
    let [lent, left, found] = [before, expected.1, got.1].map(buffers);
    for (index, name) in ["table", "first", "second", "sum"].into_iter().enumerate() {
        lines.push(format!(
            "  {name}, {} bytes: {}",
            lent[index].len(),
            hexadecimal(&lent[index])
        ));
        if let Some(place) =
            (0..left[index].len()).find(|at| found[index].get(*at) != left[index].get(*at))
        {
            let (right, wrong) = (left[index][place], found[index][place]);
            lines.push(format!(
                "  {name} byte {place}: expected {right}, got {wrong}"
            ));
        }
    }
    if *call == Call::Run {
        lines.push(format!("  edits {:?}", before.asked()));
        let answers = |lent: &Lent| [&lent.whose, &lent.numbers, &lent.values].map(Vec::clone);
        lines.push(format!("  answers expected {:?}", answers(expected.1)));
        lines.push(format!("  answers got      {:?}", answers(got.1)));
    }
    lines.join("\n")
}

fn hexadecimal(bytes: &[u8]) -> String {
    let shown: String = bytes
        .iter()
        .take(1_000)
        .map(|byte| format!("{byte:02x}"))
        .collect();
    shown + if bytes.len() > 1_000 { "..." } else { "" }
}
