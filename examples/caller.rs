//! Loads a table (the file named, else the carried TERN), forecasts what a sum will need, adds two rows, tells their values and the
//! midpoint of these, edits a digit, runs a list of edits, subtracts and prints the rows. Of a table that refusal 14 is against it shows the
//! bad row.
//!
//!     rustc --edition 2021 -L target/staticlib -l static=adder_c examples/caller.rs -o caller && ./caller tables/bin.table

use std::{env, fs, process::ExitCode};

#[rustfmt::skip]
extern "C" {
    fn yoyomyrtle_check(file: *const u8, file_len: usize, answer: *mut i64, answer_len: usize) -> u64;
    fn yoyomyrtle_bad_row(table: *const u8, table_len: usize, string: *mut u8, string_len: usize, answer: *mut i64, answer_len: usize) -> u64;
    fn yoyomyrtle_forecast(table: *const u8, table_len: usize, digits: u64, answer: *mut i64, answer_len: usize) -> u64;
    fn yoyomyrtle_add(
        table: *const u8, table_len: usize, first: *const u8, first_len: usize, second: *const u8, second_len: usize,
        sum: *mut u8, sum_len: usize, answer: *mut i64, answer_len: usize,
    ) -> u64;
    fn yoyomyrtle_subtract(
        table: *const u8, table_len: usize, first: *const u8, first_len: usize, second: *const u8, second_len: usize,
        difference: *mut u8, difference_len: usize, answer: *mut i64, answer_len: usize,
    ) -> u64;
    fn yoyomyrtle_edit(
        table: *const u8, table_len: usize, first: *mut u8, first_len: usize, second: *mut u8, second_len: usize,
        sum: *mut u8, sum_len: usize, row: u64, place: u64, digit: u64, answer: *mut i64, answer_len: usize,
    ) -> u64;
    fn yoyomyrtle_run(
        table: *const u8, table_len: usize, first: *mut u8, first_len: usize, second: *mut u8, second_len: usize,
        sum: *mut u8, sum_len: usize, rows: *const usize, rows_len: usize, places: *const usize, places_len: usize,
        digits: *const usize, digits_len: usize, whose: *mut usize, whose_len: usize, numbers: *mut usize, numbers_len: usize,
        values: *mut usize, values_len: usize, answer: *mut i64, answer_len: usize,
    ) -> u64;
    fn yoyomyrtle_value(table: *const u8, table_len: usize, row: *const u8, row_len: usize, answer: *mut i64, answer_len: usize) -> u64;
    fn yoyomyrtle_midpoint(
        a1: i32, b1: i32, c1: i32, d1: i32, a2: i32, b2: i32, c2: i32, d2: i32, answer: *mut i64, answer_len: usize,
    ) -> u64;
    fn yoyomyrtle_tern(out: *mut u8, out_len: usize) -> u64;
}

type Answer = [i64; 8];

// SAFETY, here and below: pointer and length belong to one buffer, and Rust's borrows keep the buffers apart.
fn check(table: &[u8]) -> Result<Answer, Answer> {
    let mut words = [0; 8];
    let returned = unsafe { yoyomyrtle_check(table.as_ptr(), table.len(), words.as_mut_ptr(), 8) };
    facts(returned, words)
}

/// The leaves' numbers, the digit and the string of the row that refusal 14 is about; none where there is nothing to show.
#[rustfmt::skip]
fn bad_row(table: &[u8]) -> Result<Option<(i64, i64, Element, Vec<u8>)>, Answer> {
    let (mut words, mut string) = ([0; 8], [0; 9]);
    let returned = unsafe {
        yoyomyrtle_bad_row(table.as_ptr(), table.len(), string.as_mut_ptr(), string.len(), words.as_mut_ptr(), 8)
    };
    let [_, bytes, upper, lower, a, b, c, d] = facts(returned, words)?;
    let digit = [a, b, c, d].map(|part| part as i32);
    Ok((bytes > 0).then(|| (upper, lower, digit, string[..bytes as usize].to_vec())))
}

fn forecast(table: &[u8], digits: u64) -> Result<Answer, Answer> {
    let mut words = [0; 8];
    let returned = unsafe {
        yoyomyrtle_forecast(table.as_ptr(), table.len(), digits, words.as_mut_ptr(), 8)
    };
    facts(returned, words)
}

#[rustfmt::skip]
fn add(table: &[u8], first: &[u8], second: &[u8], sum: &mut [u8]) -> Result<Answer, Answer> {
    let mut words = [0; 8];
    let returned = unsafe {
        yoyomyrtle_add(table.as_ptr(), table.len(), first.as_ptr(), first.len(), second.as_ptr(), second.len(),
            sum.as_mut_ptr(), sum.len(), words.as_mut_ptr(), 8)
    };
    facts(returned, words)
}

#[rustfmt::skip]
fn subtract(table: &[u8], first: &[u8], second: &[u8], difference: &mut [u8]) -> Result<Answer, Answer> {
    let mut words = [0; 8];
    let returned = unsafe {
        yoyomyrtle_subtract(table.as_ptr(), table.len(), first.as_ptr(), first.len(), second.as_ptr(), second.len(),
            difference.as_mut_ptr(), difference.len(), words.as_mut_ptr(), 8)
    };
    facts(returned, words)
}

#[rustfmt::skip]
fn edit(table: &[u8], rows: [&mut [u8]; 2], sum: &mut [u8], row: u64, place: u64, digit: u64) -> Result<Answer, Answer> {
    let mut words = [0; 8];
    let [first, second] = rows;
    let returned = unsafe {
        yoyomyrtle_edit(table.as_ptr(), table.len(), first.as_mut_ptr(), first.len(), second.as_mut_ptr(), second.len(),
            sum.as_mut_ptr(), sum.len(), row, place, digit, words.as_mut_ptr(), 8)
    };
    facts(returned, words)
}

/// An edit's answer: whose (0 for facts), the refusal number, the count or the place.
type Told = [usize; 3];

/// Runs edits, each a row number, a place and a digit, after the check and the addition; their answers.
#[rustfmt::skip]
fn run_list(table: &[u8], rows: [&mut [u8]; 2], sum: &mut [u8], edits: &[[usize; 3]]) -> Result<Vec<Told>, Answer> {
    let mut words = [0; 8];
    let [first, second] = rows;
    let [rows, places, digits] = [0, 1, 2].map(|kind| edits.iter().map(|edit| edit[kind]).collect::<Vec<_>>());
    let [mut whose, mut numbers, mut values] = [0, 1, 2].map(|_| vec![0; edits.len()]);
    let returned = unsafe {
        yoyomyrtle_run(table.as_ptr(), table.len(), first.as_mut_ptr(), first.len(), second.as_mut_ptr(), second.len(),
            sum.as_mut_ptr(), sum.len(), rows.as_ptr(), rows.len(), places.as_ptr(), places.len(),
            digits.as_ptr(), digits.len(), whose.as_mut_ptr(), whose.len(), numbers.as_mut_ptr(), numbers.len(),
            values.as_mut_ptr(), values.len(), words.as_mut_ptr(), 8)
    };
    let edits = facts(returned, words)?[1] as usize;
    Ok((0..edits).map(|k| [whose[k], numbers[k], values[k]]).collect())
}

/// An element: its parts, those above the degree zero.
type Element = [i32; 4];

/// The value of a row: as many words of the answer as the degree of the table's ring.
#[rustfmt::skip]
fn value(table: &[u8], row: &[u8]) -> Result<Element, Answer> {
    let mut words = [0; 8];
    let returned = unsafe {
        yoyomyrtle_value(table.as_ptr(), table.len(), row.as_ptr(), row.len(), words.as_mut_ptr(), 8)
    };
    let [_, a, b, c, d, ..] = facts(returned, words)?;
    Ok([a, b, c, d].map(|part| part as i32))
}

/// The midpoint has four parts of each element, whatever the degree.
fn midpoint(x: Element, y: Element) -> Element {
    let mut words = [0; 8];
    let ([a, b, c, d], [e, f, g, h]) = (x, y);
    unsafe { yoyomyrtle_midpoint(a, b, c, d, e, f, g, h, words.as_mut_ptr(), 8) };
    let [_, a, b, c, d, ..] = words;
    [a, b, c, d].map(|part| part as i32)
}

fn tern() -> Vec<u8> {
    let mut table = vec![0; 165];
    unsafe { yoyomyrtle_tern(table.as_mut_ptr(), table.len()) };
    table
}

/// The file named, else TERN; as an error the name of a file that can't be read.
fn load(name: Option<String>) -> Result<Vec<u8>, String> {
    let Some(name) = name else {
        return Ok(tern());
    };
    fs::read(&name).map_err(|_| name)
}

/// The answer's words, as an error where they name a fault.
fn facts(returned: u64, words: Answer) -> Result<Answer, Answer> {
    if returned == 0 {
        Ok(words)
    } else {
        Err(words)
    }
}

const GROUPS: [&str; 4] = ["nobody", "author", "rows", "editor"];

fn print_row(name: &str, row: &[u8]) {
    let digits: String = row.iter().map(|digit| format!(" {digit}")).collect();
    println!("{name}:{digits}");
}

fn print_fault([group, number, place, ..]: Answer) {
    let whose = GROUPS[group as usize];
    println!("refused {whose} {number} place {place}");
}

/// Prints as many parts of an element as the degree of the table's ring; the base section's length is four times that.
fn print_parts(name: &str, table: &[u8], parts: Element) {
    let degree = usize::from(u16::from_le_bytes([table[2], table[3]])) / 4;
    let parts: String = parts[..degree]
        .iter()
        .map(|part| format!(" {part}"))
        .collect();
    println!("{name}:{parts}");
}

/// The string holds input digits by their indexes, and the one whose place gets the digit comes first.
fn print_bad_row(table: &[u8]) {
    if let Ok(Some((upper, lower, digit, string))) = bad_row(table) {
        println!("bad row: leaves {upper} and {lower}");
        print_parts("digit", table, digit);
        print_row("string", &string);
    }
}

/// Prints the values of the rows and of the sum and the midpoint of the first two, or the fault of the first that is too large.
fn print_values(table: &[u8], rows: [(&str, &[u8]); 3]) -> Result<(), Answer> {
    let print = |name: &str, parts: Element| print_parts(name, table, parts);
    let mut values = Vec::new();
    for (name, row) in rows {
        values.push(value(table, row)?);
        print(&format!("value of the {name}"), values[values.len() - 1]);
    }
    print("midpoint of the rows", midpoint(values[0], values[1]));
    Ok(())
}

fn run(table: &[u8]) -> Result<(), Answer> {
    let [_, depth, leaves, digits, pairs, ..] = check(table)?;
    println!("depth {depth}, leaves {leaves}, digits {digits}, pairs {pairs}");
    // The forecast tells how many bytes to lend for the sum or the difference of rows of so many digits.
    let [_, pairs, bytes, ..] = forecast(table, 6)?;
    println!("forecast for 6 digits: pairs {pairs}, bytes {bytes}");
    let first_digit = |place: u8| (place + 1) % digits as u8;
    let second_digit = |place: u8| (2 * place + 1) % digits as u8;
    let mut first: Vec<u8> = (0..6).map(first_digit).collect();
    let mut second: Vec<u8> = (0..6).map(second_digit).collect();
    let mut sum = vec![0; bytes as usize];
    let [_, places, reach, ..] = add(table, &first, &second, &mut sum)?;
    // The reach: digits further below a place than this had no part in the sum digit there.
    println!("added: {places} sum digits, reach {reach}");
    print_row("first", &first);
    print_row("second", &second);
    print_row("sum", &sum);
    if let Err(fault) = print_values(
        table,
        [("first", &first), ("second", &second), ("sum", &sum)],
    ) {
        print_fault(fault);
    }
    // Place 2 of the second row (row number 1) gets the next digit of the alphabet.
    let digit = (u64::from(second[2]) + 1) % digits as u64;
    let [_, changed, reach, ..] = edit(table, [&mut first, &mut second], &mut sum, 1, 2, digit)?;
    println!("edited: {changed} sum digits changed, reach {reach}");
    print_row("second", &second);
    print_row("sum", &sum);
    // Both rows get a zero at place 0; between the two stands an edit of a place that there isn't.
    let edits = [[0, 0, 0], [0, 6, 0], [1, 0, 0]];
    let answers = run_list(table, [&mut first, &mut second], &mut sum, &edits)?;
    for (edit, [whose, number, value]) in answers.into_iter().enumerate() {
        match whose {
            0 => println!("edit {edit}: {value} sum digits changed"),
            _ => println!(
                "edit {edit}: refused {} {number} place {value}",
                GROUPS[whose]
            ),
        }
    }
    print_row("sum", &sum);
    // The rows as the edits left them; a table may add and yet not subtract.
    let mut difference = vec![0; bytes as usize];
    let [_, places, reach, ..] = subtract(table, &first, &second, &mut difference)?;
    println!("subtracted: {places} digits, reach {reach}");
    print_row("difference", &difference);
    Ok(())
}

fn main() -> ExitCode {
    let table = match load(env::args().nth(1)) {
        Ok(table) => table,
        Err(name) => {
            eprintln!("can't read {name}");
            return ExitCode::from(2);
        }
    };
    let Err(fault) = run(&table) else {
        return ExitCode::SUCCESS;
    };
    print_fault(fault);
    print_bad_row(&table);
    ExitCode::FAILURE
}
