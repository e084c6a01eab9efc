//! The cases: which tables, rows, buffers and numbers are tried.

mod bad_rows;
mod forecasts;
mod lending;
mod lists;
mod mirrored;
mod orders;
mod reorderings;
mod values;

use reference::Parts;

use crate::codes::{self, MOST_LEAVES};
use crate::damage;
use crate::draft::Draft;
use crate::interface::Call;
use crate::pool::{self, Pool};
use crate::random::Random;
use crate::tally::Comparison;

use lending::{lend, spoil_rows};
use lists::{ask, edits, random_edit, subtraction};

/// Runs one case.
pub fn run(pool: &Pool, comparison: &mut Comparison, random: &mut Random) {
    match random.below(123) {
        0..=16 => lists::list_of_edits(pool, comparison, random),
        17..=24 => lists::runs(pool, comparison, random),
        25..=28 => lists::needle(pool, comparison, random),
        29..=44 => damaged(pool, comparison, 1, random),
        45..=54 => damaged(pool, comparison, 2, random),
        55..=62 => flipped(pool, comparison, random),
        63..=65 => cut(pool, comparison, random),
        66..=69 => prefix_code(comparison, random),
        70..=71 => refused_pair(pool, comparison, random),
        72..=73 => widened(pool, comparison, random),
        74..=83 => rows_and_editor(pool, comparison, random),
        84..=91 => values::values(pool, comparison, random),
        92..=96 => values::midpoints(comparison, random),
        97..=99 => short_buffers(pool, comparison, random),
        100..=102 => forecasts::forecasts(pool, comparison, random),
        103..=110 => bad_rows::bad_rows(pool, comparison, random),
        111..=116 => mirrored::mirrored(pool, comparison, random),
        117..=120 => orders::orders(pool, comparison, random),
        _ => reorderings::reorderings(pool, comparison, random),
    }
}

/// Directed damage to an accepted table.
fn damaged(pool: &Pool, comparison: &mut Comparison, times: usize, random: &mut Random) {
    let parts = pool.accepted(random);
    let mut draft = Draft::new(&parts);
    for _ in 0..times {
        let number = random.pick(&damage::NUMBERS);
        damage::damage(&mut draft, number, random);
    }
    try_table(&parts, draft.write(), comparison, random);
}

/// The check of a file, and another call with it.
fn try_table(parts: &Parts, file: Vec<u8>, comparison: &mut Comparison, random: &mut Random) {
    let mut lent = lend(parts, file, random);
    comparison.call(Call::Check, &mut lent);
    match random.below(9) {
        0 => edits(parts, comparison, &mut lent, random),
        1 => {
            let call = random_edit(parts, lent.first.len(), random);
            comparison.call(call, &mut lent);
        }
        2 => {
            comparison.call(Call::Value, &mut lent);
        }
        3 => {
            spoil_rows(parts, &mut lent, random);
            comparison.call(random.pick(&[Call::Add, Call::Subtract]), &mut lent);
        }
        4 => {
            ask(parts, &mut lent, random);
            comparison.call(Call::Run, &mut lent);
        }
        5 => subtraction(comparison, &lent),
        6 => forecasts::forecast(comparison, &lent, random),
        7 => {
            comparison.call(Call::BadRow, &mut bad_rows::lend_string(&lent, random));
        }
        _ => (),
    }
}

/// Some bytes of an accepted table changed.
fn flipped(pool: &Pool, comparison: &mut Comparison, random: &mut Random) {
    let parts = pool.accepted(random);
    let mut file = parts.write();
    for _ in 0..1 + random.below(3) {
        let at = random.below(file.len());
        file[at] = match random.below(3) {
            0 => file[at] ^ (1 << random.below(8)),
            1 => file[at].wrapping_add(random.pick(&[1, 255])),
            _ => random.next() as u8,
        };
    }
    try_table(&parts, file, comparison, random);
}

/// A file cut anywhere, or with bytes behind it, or no table at all.
fn cut(pool: &Pool, comparison: &mut Comparison, random: &mut Random) {
    let parts = pool.accepted(random);
    let mut file = parts.write();
    match random.below(4) {
        0 => {
            let more = random.pick(&[1, 2, 8, 65_535 - file.len().min(65_535), 65_536]);
            file.extend(random.bytes(more));
        }
        1 => {
            let length = random.pick(&[0, 1, 19, 20, 21, 100, 500]);
            file = random.bytes(length);
        }
        _ => file.truncate(random.below(file.len())),
    }
    try_table(&parts, file, comparison, random);
}

/// A random complete prefix code, mostly small, with rows that it converts or not.
fn prefix_code(comparison: &mut Comparison, random: &mut Random) {
    let most_leaves = match random.below(50) {
        0 => MOST_LEAVES,
        1 => random.below(MOST_LEAVES),
        _ => random.below(200),
    };
    let degree = pool::random_degree(random);
    let parts = codes::random_code(degree, most_leaves, random);
    let mut lent = lend(&parts, parts.write(), random);
    if random.one_in(2) {
        comparison.call(Call::Check, &mut lent);
    }
    forecasts::forecast(comparison, &lent, random);
    comparison.call(Call::BadRow, &mut bad_rows::lend_string(&lent, random));
    edits(&parts, comparison, &mut lent, random);
    comparison.call(Call::Value, &mut lent);
}

/// A table with a single pair that rule 14 refuses; addition and edits take it, and say 27 only where that pair comes up.
fn refused_pair(pool: &Pool, comparison: &mut Comparison, random: &mut Random) {
    let from = match random.one_in(2) {
        true => &pool.single_pairs,
        false => &pool.self_pairs,
    };
    let parts = from.pick(random);
    let mut lent = lend(parts, parts.write(), random);
    forecasts::checked(comparison, &lent, random);
    // An edit outside a list too: bad places that it doesn't renew aren't its business.
    for _ in 0..random.below(4) {
        let call = random_edit(parts, lent.first.len(), random);
        comparison.call(call, &mut lent);
    }
    subtraction(comparison, &lent);
    comparison.call(Call::BadRow, &mut bad_rows::lend_string(&lent, random));
    ask(parts, &mut lent, random);
    comparison.call(Call::Run, &mut lent);
    edits(parts, comparison, &mut lent, random);
}

/// An accepted table with further input digits put among the others, which mostly rule 14 refuses and addition doesn't notice.
fn widened(pool: &Pool, comparison: &mut Comparison, random: &mut Random) {
    let mut parts = pool.tables.pick(random).clone();
    for _ in 0..1 + random.below(3) {
        let reach = random.pick(&[4, 12, 128]);
        let mut part = |reach: i64| random.between(-reach, reach) as i16;
        let mut digit = vec![part(reach)];
        digit.extend((1..parts.degree()).map(|_| part(reach.min(4))));
        if parts.inputs.len() < 136 && parts.leaves.len() < 1_000 && !parts.inputs.contains(&digit)
        {
            codes::widen(&mut parts, digit, random);
        }
    }
    let mut draft = Draft::new(&parts);
    if random.one_in(4) {
        damage::damage(&mut draft, 8, random);
    }
    let mut lent = lend(&parts, draft.write(), random);
    forecasts::checked(comparison, &lent, random);
    edits(&parts, comparison, &mut lent, random);
}

/// Rows and editor numbers with one or two faults in them, outside a list: the sum may hold anything.
fn rows_and_editor(pool: &Pool, comparison: &mut Comparison, random: &mut Random) {
    let parts = pool.accepted(random);
    let mut lent = lend(&parts, parts.write(), random);
    for _ in 0..random.below(3) {
        spoil_rows(&parts, &mut lent, random);
    }
    match random.below(4) {
        0 => comparison.call(Call::Add, &mut lent),
        1 => comparison.call(Call::Subtract, &mut lent),
        2 => comparison.call(Call::Value, &mut lent),
        _ => comparison.call(random_edit(&parts, lent.first.len(), random), &mut lent),
    };
}

/// Answer arrays under eight words, and out buffers of every length about that of a carried table.
fn short_buffers(pool: &Pool, comparison: &mut Comparison, random: &mut Random) {
    let parts = pool.accepted(random);
    let mut lent = lend(&parts, parts.write(), random);
    if random.one_in(2) {
        lent.answer.truncate(random.below(8));
    }
    let out = random.pick(&[0, 1, 164, 165, 166, 186, 187, 188, 300]);
    let call = match random.below(11) {
        0 => Call::Check,
        10 => Call::BadRow,
        8 => Call::Subtract,
        9 => forecasts::any(random),
        1 => Call::Add,
        2 => random_edit(&parts, lent.first.len(), random),
        3 => Call::Value,
        4 => Call::Midpoint {
            x: [1, 2, 3, 4],
            y: [3, 4, 5, 5],
        },
        5 => Call::Run,
        6 => Call::Tern,
        _ => Call::Bin,
    };
    if call == Call::Run {
        ask(&parts, &mut lent, random);
    }
    if matches!(call, Call::Tern | Call::Bin) {
        lent.sum = random.bytes(out);
    }
    if call == Call::BadRow {
        lent = bad_rows::lend_string(&lent, random);
    }
    comparison.call(call, &mut lent);
}
