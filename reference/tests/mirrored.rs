//! Mirrored tables (job 3): which they are, negated rows, and the law that the sum and the difference of negated rows are the negated ones, told
//! with the same number of places and the same reach.

// The program `vectors` has no part in this.
#[allow(dead_code)]
mod common;
mod larger;
mod short;

use common::{longer_parts, longer_words};
use larger::{bin_of, three_carries};
use reference::mirrored::{is_mirrored, negated_row};
use reference::table::{read, Table};
use reference::{bin, by_table, carried, check, tern, Answer, Operation, Parts, RowFacts};
use short::{pairs, rows};

const OPERATIONS: [Operation; 2] = [Operation::Sum, Operation::Difference];

/// A table past 1 to 13.
fn table_of(file: &[u8]) -> Table {
    read(file).unwrap()
}

fn is_accepted(file: &[u8]) -> bool {
    matches!(check(file), Answer::Facts(_))
}

/// What a call tells and the digits that it writes, or the number and the place of its fault.
type Said = Result<(RowFacts, Vec<u8>), (u8, usize)>;

fn said(operation: Operation, file: &[u8], [first, second]: [&[u8]; 2]) -> Said {
    let mut out = vec![99; first.len() + 8];
    match by_table::combine(operation, &read(file), first, second, &mut out) {
        Answer::Facts(facts) => Ok((facts, out[..facts.written].to_vec())),
        Answer::Fault(fault) => Err((fault.number, fault.place)),
    }
}

/// The same of the negated rows.
fn said_of_negated(operation: Operation, file: &[u8], rows: [&[u8]; 2]) -> Said {
    let table = table_of(file);
    let [first, second] = rows.map(|row| negated_row(&table, row).expect("negated digits"));
    said(operation, file, [&first, &second])
}

/// The law, of rows that have negated ones.
fn holds(operation: Operation, file: &[u8], rows: [&[u8]; 2]) -> bool {
    let (facts, digits) = said(operation, file, rows).unwrap();
    let (of_negated, others) = said_of_negated(operation, file, rows).unwrap();
    of_negated == facts && negated_row(&table_of(file), &digits) == Some(others)
}

/// The law for every two rows of up to so many of the digits that have a negated one. The table is accepted and mirrored.
fn holds_for_short_rows(file: &[u8], longest: usize) {
    assert!(is_accepted(file));
    let table = table_of(file);
    assert!(is_mirrored(&table));
    let digits = 0..table.alphabet.len() as u8;
    let negatable = digits.filter(|digit| negated_row(&table, &[*digit]).is_some());
    let negatable: Vec<u8> = negatable.collect();
    for length in 0..=longest {
        let all = rows(&negatable, length);
        for (first, second) in pairs(&all) {
            for operation in OPERATIONS {
                let pair = [&first[..], second];
                assert!(holds(operation, file, pair), "{operation:?} {pair:?}");
            }
        }
    }
}

#[test]
fn negated_rows_of_the_carried_tables() {
    let tern = table_of(&tern());
    assert_eq!(
        negated_row(&tern, &[0, 1, 2, 3, 4]),
        Some(vec![0, 3, 4, 1, 2])
    );
    let bin = table_of(&bin());
    assert_eq!(negated_row(&bin, &[2, 2, 0, 1]), Some(vec![1, 1, 0, 2]));
    assert_eq!(negated_row(&bin, &[]), Some(Vec::new()));
    // No alphabet index.
    assert_eq!(negated_row(&bin, &[1, 3]), None);
}

#[test]
fn the_law_with_tern() {
    holds_for_short_rows(&tern(), 2);
}

#[test]
fn the_law_with_bin() {
    holds_for_short_rows(&bin(), 4);
}

/// 2 2 plus 1 2 and 1 1 plus 1 0 (M7 and M9) with every digit negated.
#[test]
fn negated_exercises() {
    let facts = |written, reach| RowFacts { written, reach };
    let negated = said_of_negated(Operation::Sum, &tern(), [&[2, 2], &[1, 2]]);
    assert_eq!(negated, Ok((facts(3, 1), vec![0, 4, 3])));
    let negated = said_of_negated(Operation::Sum, &bin(), [&[1, 1], &[1, 0]]);
    assert_eq!(negated, Ok((facts(4, 2), vec![0, 0, 2, 0])));
}

#[test]
fn the_law_beyond_degree_two() {
    for degree in 3..=4 {
        holds_for_short_rows(&bin_of(degree).write(), 3);
    }
    holds_for_short_rows(&three_carries().write(), 1);
    // Longer rows, with weights that have no part zero.
    let file = three_carries().write();
    let pair: [&[u8]; 2] = [&[2, 4, 2, 1, 2], &[2, 3, 1, 1, 2]];
    assert_eq!(
        OPERATIONS.map(|operation| holds(operation, &file, pair)),
        [true; 2]
    );
}

#[test]
fn the_law_with_longer_words() {
    // 1 and −1 have words of two digits, 1 −1 and −1 1 of three.
    holds_for_short_rows(&longer_words(&[&[1], &[5], &[1, 5], &[5, 1]]), 2);
}

/// Base 7 with the digits −4 to 5, one-digit words and weight 1 from 4 up and −1 from −4 down; −10 to 10 are listed as input digits.
fn unsymmetric() -> Parts {
    let inputs: Vec<i16> = (0..=10).chain(-10..0).collect();
    let weight = |input: i16| if input.abs() >= 4 { input.signum() } else { 0 };
    let whole = |numbers: &[i16]| numbers.iter().map(|&a| vec![a, 0]).collect();
    let leaf = |index: usize| (vec![index as u8], vec![weight(inputs[index]), 0]);
    Parts {
        base: vec![0, -1, 7, 0],
        alphabet: whole(&[0, 1, 2, 3, 4, 5, -1, -2, -3, -4]),
        inputs: whole(&inputs),
        leaves: (0..inputs.len()).map(leaf).collect(),
    }
}

/// A mirrored table needn't have an alphabet of negated digits; the rows and sums that have them keep the law.
#[test]
fn the_alphabet_has_no_part_in_it() {
    let file = unsymmetric().write();
    assert_eq!(negated_row(&table_of(&file), &[1, 5]), None);
    holds_for_short_rows(&file, 2);
}

/// What a table says of every two rows of one digit, by both operations.
fn held_by_one_digit(file: &[u8], digits: u8) -> Vec<bool> {
    let pairs = (0..digits).flat_map(|x| (0..digits).map(move |y| [[x], [y]]));
    pairs
        .flat_map(|[x, y]| OPERATIONS.map(|operation| holds(operation, file, [&x, &y])))
        .collect()
}

/// BIN where 1 above 0 has the weight 1, and −1 above 0 still the weight 0: 1 + 0 is −1 1 then, and −1 + 0 is −1.
#[test]
fn the_weights_have_to_be_negated() {
    let mut parts = carried::bin_parts();
    assert_eq!(parts.leaves[1], (vec![1, 0], vec![0, 0]));
    parts.leaves[1].1[0] = 1;
    let file = parts.write();
    assert!(is_accepted(&file) && !is_mirrored(&table_of(&file)));
    let facts = RowFacts {
        written: 3,
        reach: 2,
    };
    let pair: [&[u8]; 2] = [&[1], &[0]];
    assert_eq!(
        said(Operation::Sum, &file, pair),
        Ok((facts, vec![2, 1, 0]))
    );
    assert_eq!(
        said_of_negated(Operation::Sum, &file, pair),
        Ok((facts, vec![2, 0, 0]))
    );
    assert!(!holds(Operation::Difference, &file, pair));
    // With the weight −1 at −1 above 0 it is mirrored again.
    assert_eq!(parts.leaves[7], (vec![3, 0], vec![0, 0]));
    parts.leaves[7].1[0] = -1;
    holds_for_short_rows(&parts.write(), 3);
}

/// TERN with words of two digits for 1 and of one for −1 adds as TERN does, but the reach tells the words apart.
#[test]
fn the_words_have_to_be_negated() {
    let file = longer_words(&[&[1]]);
    assert!(!is_mirrored(&table_of(&file)));
    let pair: [&[u8]; 2] = [&[1], &[0]];
    let (facts, digits) = said(Operation::Sum, &file, pair).unwrap();
    let (of_negated, others) = said_of_negated(Operation::Sum, &file, pair).unwrap();
    assert_eq!((facts.reach, of_negated.reach), (2, 1));
    assert_eq!((digits, others), (vec![1, 0, 0], vec![3, 0, 0]));
    assert!(held_by_one_digit(&tern(), 5).into_iter().all(|held| held));
    assert!(held_by_one_digit(&file, 5).contains(&false));
}

/// TERN without the digit −2 in the alphabet is mirrored and refused. 2 sends the weight 1 up to 1, which gives 2; the negated rows give −2.
#[test]
fn the_table_has_to_be_accepted() {
    let mut parts = carried::tern_parts();
    parts.alphabet.pop();
    let file = parts.write();
    assert!(is_mirrored(&table_of(&file)) && !is_accepted(&file));
    let pair: [&[u8]; 2] = [&[1, 1], &[1, 0]];
    let (_, digits) = said(Operation::Sum, &file, pair).unwrap();
    assert_eq!(digits, vec![3, 2, 0]);
    assert_eq!(said_of_negated(Operation::Sum, &file, pair), Err((27, 1)));
}

/// A part of any weight but leaf 0's changed, and words or digits without their negated ones.
#[test]
fn every_leaf_counts() {
    for parts in [carried::tern_parts(), carried::bin_parts(), bin_of(4)] {
        for (leaf, part) in
            (1..parts.leaves.len()).flat_map(|leaf| (0..2).map(move |part| (leaf, part)))
        {
            for change in [-2, -1, 1, 2] {
                let mut other = parts.clone();
                other.leaves[leaf].1[part] += change;
                assert!(!is_mirrored(&table_of(&other.write())), "{leaf} {part}");
            }
        }
    }
    // A further digit without its negated one.
    let mut parts = carried::tern_parts();
    parts.inputs.push(vec![5, 0]);
    parts.leaves.push((vec![9], vec![2, 0]));
    assert!(!is_mirrored(&table_of(&parts.write())));
    parts.inputs.push(vec![-5, 0]);
    parts.leaves.push((vec![10], vec![-2, 0]));
    assert!(is_mirrored(&table_of(&parts.write())));
    // Words of two digits for 1, 2 and −1.
    let parts = longer_parts(&[&[1], &[2], &[5]]);
    assert!(!is_mirrored(&table_of(&parts.write())));
}
