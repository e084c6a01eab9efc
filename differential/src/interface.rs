//! The C interface as data: a call, and the buffers lent to it.

use reference::Asked;

/// The words that the answer array has at least; a call with fewer does nothing and returns `TOO_SHORT`.
pub const ANSWER_WORDS: usize = 8;

/// The parts of an element that is passed by value, whatever the degree of the ring that it is meant in.
pub const PARTS: usize = 4;

pub type Passed = [i32; PARTS];

/// The bytes that the lent string of a bad row has at least.
pub const STRING_BYTES: usize = 9;

/// What a call returns for facts.
pub const FACTS: u64 = 0;
/// What a call returns for a fault.
pub const FAULT: u64 = 1;
/// What a call returns for an answer array or an out buffer that is too short.
pub const TOO_SHORT: u64 = 2;

/// A call with the numbers that are passed by value.
#[derive(Clone, Copy, Debug, PartialEq, Eq)]
pub enum Call {
    Check,
    BadRow,
    Forecast { digits: u64 },
    Add,
    Subtract,
    Edit { row: u64, place: u64, digit: u64 },
    Run,
    Value,
    Midpoint { x: Passed, y: Passed },
    Tern,
    Bin,
}

impl Call {
    /// An edit by its numbers.
    pub fn edit((row, place, digit): Asked) -> Self {
        Call::Edit { row, place, digit }
    }

    pub fn name(&self) -> &'static str {
        match self {
            Call::Check => "check",
            Call::BadRow => "bad_row",
            Call::Forecast { .. } => "forecast",
            Call::Add => "add",
            Call::Subtract => "subtract",
            Call::Edit { .. } => "edit",
            Call::Run => "run",
            Call::Value => "value",
            Call::Midpoint { .. } => "midpoint",
            Call::Tern => "tern",
            Call::Bin => "bin",
        }
    }

    /// The call is lent a table.
    pub fn takes_table(&self) -> bool {
        !matches!(self, Call::Midpoint { .. } | Call::Tern | Call::Bin)
    }
}

/// Everything lent to a call. A call uses the buffers that it has parameters for: the value call takes `first` as its row, and a
/// difference, the string of a bad row or a carried table is written to `sum`. The runner takes the numbers of its edits from `rows`, `places` and `digits` and
/// tells their answers in `whose`, `numbers` and `values`. All are compared after every call, the ones that may only be read included.
#[derive(Clone, Debug, Default, PartialEq, Eq)]
pub struct Lent {
    pub table: Vec<u8>,
    pub first: Vec<u8>,
    pub second: Vec<u8>,
    pub sum: Vec<u8>,
    pub rows: Vec<usize>,
    pub places: Vec<usize>,
    pub digits: Vec<usize>,
    pub whose: Vec<usize>,
    pub numbers: Vec<usize>,
    pub values: Vec<usize>,
    pub answer: Vec<i64>,
}

impl Lent {
    /// The degree of a table past rule 3, as its directory tells it.
    pub fn degree(&self) -> usize {
        usize::from(u16::from_le_bytes([self.table[2], self.table[3]])) / 4
    }

    /// The numbers of the edits that are listed whole and have room for their answers.
    pub fn asked(&self) -> Vec<Asked> {
        let told = self.whose.iter().zip(&self.numbers).zip(&self.values);
        let listed = self.rows.iter().zip(&self.places).zip(&self.digits);
        listed
            .zip(told)
            .map(|(((row, place), digit), _)| (*row as u64, *place as u64, *digit as u64))
            .collect()
    }
}

/// An implementation of the C interface.
pub trait Calls {
    /// Makes the call with the lent buffers and gives back what it returns.
    fn call(&self, call: &Call, lent: &mut Lent) -> u64;
}
