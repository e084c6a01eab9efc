//! What a call says: facts, or one fault.

/// Whose fault it is ("Who sends a fault").
#[derive(Clone, Copy, Debug, PartialEq, Eq, PartialOrd, Ord, Hash)]
pub enum Group {
    Author,
    Rows,
    Editor,
}

/// The first broken rule: whose, which, and where its first offender is (0 where the paper names no place).
#[derive(Clone, Copy, Debug, PartialEq, Eq)]
pub struct Fault {
    pub group: Group,
    pub number: u8,
    pub place: usize,
}

/// The answer of a call.
#[derive(Clone, Copy, Debug, PartialEq, Eq)]
pub enum Answer<F> {
    Facts(F),
    Fault(Fault),
}

/// Inside the crate a fault travels as an error, so that the first one ends the run of checks.
impl<F> From<Result<F, Fault>> for Answer<F> {
    fn from(outcome: Result<F, Fault>) -> Self {
        match outcome {
            Ok(facts) => Answer::Facts(facts),
            Err(fault) => Answer::Fault(fault),
        }
    }
}

impl Group {
    /// The word that the outside vectors use.
    pub fn name(self) -> &'static str {
        match self {
            Group::Author => "author",
            Group::Rows => "rows",
            Group::Editor => "editor",
        }
    }
}

/// Refuses with the table author's number unless the rule holds.
pub(crate) fn author(holds: bool, number: u8, place: usize) -> Result<(), Fault> {
    demand(holds, Group::Author, number, place)
}

/// Refuses with a number of whoever lends the rows unless the rule holds.
pub(crate) fn rows(holds: bool, number: u8, place: usize) -> Result<(), Fault> {
    demand(holds, Group::Rows, number, place)
}

/// Refuses with the editor's number unless the rule holds; none of the three names a place.
pub(crate) fn editor(holds: bool, number: u8) -> Result<(), Fault> {
    demand(holds, Group::Editor, number, 0)
}

fn demand(holds: bool, group: Group, number: u8, place: usize) -> Result<(), Fault> {
    if holds {
        Ok(())
    } else {
        Err(Fault {
            group,
            number,
            place,
        })
    }
}
