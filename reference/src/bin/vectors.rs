//! Runs the calls of an outside-vector file from standard input and writes one line for each to standard output.
#![forbid(unsafe_code)]

use std::io::{self, Read, Write};

use reference::{Answer, BadRow, EditFacts, ForecastFacts, LeafFacts, RowFacts};

fn main() -> io::Result<()> {
    let mut bytes = Vec::new();
    io::stdin().read_to_end(&mut bytes)?;
    let mut run = Reader { rest: &bytes };
    let mut output = io::stdout().lock();
    while !run.rest.is_empty() {
        let line = next_line(&mut run);
        let line = line.ok_or_else(|| io::Error::from(io::ErrorKind::InvalidData))?;
        writeln!(output, "{line}")?;
    }
    Ok(())
}

/// What is left of the run of calls.
struct Reader<'a> {
    rest: &'a [u8],
}

impl Reader<'_> {
    fn take<const N: usize>(&mut self) -> Option<[u8; N]> {
        let (head, rest) = self.rest.split_first_chunk::<N>()?;
        self.rest = rest;
        Some(*head)
    }

    /// A buffer: its length in 4 bytes, then its bytes.
    fn buffer(&mut self) -> Option<Vec<u8>> {
        let length = u32::from_le_bytes(self.take()?) as usize;
        let (head, rest) = self.rest.split_at_checked(length)?;
        self.rest = rest;
        Some(head.to_vec())
    }

    /// A number of the edit, or the digits of a forecast.
    fn number(&mut self) -> Option<u64> {
        self.take().map(u64::from_le_bytes)
    }

    /// The degree of a midpoint, in one byte.
    fn degree(&mut self) -> Option<usize> {
        let [degree] = self.take()?;
        let degree = usize::from(degree);
        reference::DEGREES.contains(&degree).then_some(degree)
    }

    /// The parts of an element for the midpoint.
    fn element(&mut self, degree: usize) -> Option<Vec<i32>> {
        let part = |_| self.take().map(i32::from_le_bytes);
        (0..degree).map(part).collect()
    }
}

/// The line of the next call, or none where the run breaks off or names no call.
fn next_line(run: &mut Reader) -> Option<String> {
    let [call] = run.take()?;
    match call {
        1 => Some(check_line(&run.buffer()?)),
        2 => row_line(run, "sum", reference::add),
        3 => edit_line(run),
        4 => {
            let (table, row) = (run.buffer()?, run.buffer()?);
            let answer = reference::value(&table, &row);
            Some(or_fault(answer, |x| format!("value {}", list(&x.parts))))
        }
        5 => {
            let degree = run.degree()?;
            let (x, y) = (run.element(degree)?, run.element(degree)?);
            Some(format!("midpoint {}", list(&reference::midpoint(&x, &y))))
        }
        6 => Some(format!("table {}", hexadecimal(&reference::tern()))),
        7 => Some(format!("table {}", hexadecimal(&reference::bin()))),
        8 => row_line(run, "difference", reference::subtract),
        9 => Some(bad_row_line(&run.buffer()?)),
        17 => forecast_line(run),
        19 => look_up_line(run),
        _ => None,
    }
}

fn check_line(file: &[u8]) -> String {
    or_fault(reference::check(file), |facts| {
        format!(
            "accepted depth {} leaves {} digits {} pairs {}",
            facts.depth, facts.leaves, facts.digits, facts.pairs
        )
    })
}

fn bad_row_line(table: &[u8]) -> String {
    or_fault(reference::bad_row(table), |shown| match shown {
        Some(row) => shown_row(&row),
        None => "nothing".to_string(),
    })
}

fn shown_row(row: &BadRow) -> String {
    let (parts, string) = (list(&row.digit.parts), hexadecimal(&row.string));
    format!(
        "pair {} {} digit {parts} string {string}",
        row.upper, row.lower
    )
}

fn forecast_line(run: &mut Reader) -> Option<String> {
    let (table, digits) = (run.buffer()?, run.number()?);
    let answer = reference::forecast(&table, digits);
    Some(or_fault(answer, |ForecastFacts { pairs, bytes }| {
        format!("pairs {pairs} bytes {bytes}")
    }))
}

/// Addition or subtraction: both are lent a table, two rows and a buffer.
type RowCall = fn(&[u8], &[u8], &[u8], &mut [u8]) -> Answer<RowFacts>;

fn row_line(run: &mut Reader, name: &str, call: RowCall) -> Option<String> {
    let (table, first, second) = (run.buffer()?, run.buffer()?, run.buffer()?);
    let mut out = run.buffer()?;
    let answer = call(&table, &first, &second, &mut out);
    let head = or_fault(answer, |RowFacts { written, reach }| {
        format!("{name} {written} reach {reach}")
    });
    Some(format!("{head} {}", hexadecimal(&out)))
}

fn edit_line(run: &mut Reader) -> Option<String> {
    let (table, mut first, mut second) = (run.buffer()?, run.buffer()?, run.buffer()?);
    let mut sum = run.buffer()?;
    let (row, place, digit) = (run.number()?, run.number()?, run.number()?);
    let asked = (row, place, digit);
    let answer = reference::edit(&table, &mut first, &mut second, &mut sum, asked);
    let head = or_fault(answer, |EditFacts { changed, reach }| {
        format!("changed {changed} reach {reach}")
    });
    let buffers = [first, second, sum].map(|buffer| hexadecimal(&buffer));
    Some(format!("{head} {}", buffers.join(" ")))
}

/// The look-up has no line for other tables and windows than those that it is for; the run breaks off there.
fn look_up_line(run: &mut Reader) -> Option<String> {
    let (table, window) = (run.buffer()?, run.take()?);
    let LeafFacts { leaf, length } = reference::look_up(&table, &window)?;
    Some(format!("leaf {leaf} length {length}"))
}

fn or_fault<F>(answer: Answer<F>, facts: impl FnOnce(F) -> String) -> String {
    match answer {
        Answer::Facts(known) => facts(known),
        Answer::Fault(fault) => {
            format!(
                "refused {} {} place {}",
                fault.group.name(),
                fault.number,
                fault.place
            )
        }
    }
}

/// Numbers with a space between them.
fn list<N: ToString>(numbers: &[N]) -> String {
    let words: Vec<String> = numbers.iter().map(N::to_string).collect();
    words.join(" ")
}

/// Two small hexadecimal digits for each byte, `-` for none.
fn hexadecimal(bytes: &[u8]) -> String {
    if bytes.is_empty() {
        return "-".to_string();
    }
    bytes.iter().map(|byte| format!("{byte:02x}")).collect()
}
