//! The reach (job 7): the longest word among the leaves that a call looks up, and the look-up that says its word's length.

mod common;
mod short;

use common::{buffer, lines, longer_words};
use reference::{
    add, bin, edit, look_up, subtract, tern, Answer, EditFacts, Fault, Group, LeafFacts, RowFacts,
};
use short::{pairs, rows};

const BIN_DIGITS: [i64; 3] = [0, 1, -1];

/// The reach of an addition that must be taken.
fn reach_of_sum(table: &[u8], first: &[u8], second: &[u8]) -> usize {
    match add(table, first, second, &mut vec![0; first.len() + 8]) {
        Answer::Facts(RowFacts { reach, .. }) => reach,
        Answer::Fault(fault) => panic!("{fault:?}"),
    }
}

/// The reach of a subtraction that must be taken.
fn reach_of_difference(table: &[u8], first: &[u8], second: &[u8]) -> usize {
    match subtract(table, first, second, &mut vec![0; first.len() + 8]) {
        Answer::Facts(RowFacts { reach, .. }) => reach,
        Answer::Fault(fault) => panic!("{fault:?}"),
    }
}

/// The reach of an edit of the first row that must be taken; the sum may hold anything.
fn reach_of_edit(table: &[u8], first: &[u8], second: &[u8], place: u64, digit: u64) -> usize {
    let (mut first, mut second) = (first.to_vec(), second.to_vec());
    let mut sum = vec![77; first.len() + 8];
    match edit(table, &mut first, &mut second, &mut sum, (0, place, digit)) {
        Answer::Facts(EditFacts { reach, .. }) => reach,
        Answer::Fault(fault) => panic!("{fault:?}"),
    }
}

/// In BIN a word is two long exactly where its first digit is odd, and outside the rows no input is.
fn reach_in_bin(inputs: &[i64], places: std::ops::RangeInclusive<usize>) -> usize {
    let odd = inputs
        .iter()
        .enumerate()
        .any(|(place, input)| places.contains(&place) && input % 2 != 0);
    1 + usize::from(odd)
}

#[test]
fn every_short_row_of_bin() {
    let digit = |index: &u8| BIN_DIGITS[usize::from(*index)];
    for length in 0..=3 {
        let all = rows(&[0, 1, 2], length);
        for (first, second) in pairs(&all) {
            let digits = || first.iter().zip(second);
            let sums: Vec<i64> = digits().map(|(x, y)| digit(x) + digit(y)).collect();
            let differences: Vec<i64> = digits().map(|(x, y)| digit(x) - digit(y)).collect();
            let places = 0..=length + 1;
            assert_eq!(
                reach_of_sum(&bin(), first, second),
                reach_in_bin(&sums, places.clone())
            );
            assert_eq!(
                reach_of_difference(&bin(), first, second),
                reach_in_bin(&differences, places)
            );
        }
    }
}

#[test]
fn every_edit_of_rows_of_bin() {
    // Five places, so that some lie below p − 1 and above p + 2; the second row's digit 1 makes odd sums of 0 and even ones of 1, −1.
    let second = [0, 1, 0, 1, 0];
    for first in rows(&[0, 1, 2], 5) {
        for (place, new) in (0..5).flat_map(|place| (0..3).map(move |new| (place, new))) {
            let mut edited = first.clone();
            edited[place] = new as u8;
            let digit = |index: &u8| BIN_DIGITS[usize::from(*index)];
            let sums: Vec<i64> = edited
                .iter()
                .zip(&second)
                .map(|(x, y)| digit(x) + digit(y))
                .collect();
            let places = place.saturating_sub(1)..=place + 2;
            let reach = reach_of_edit(&bin(), &first, &second, place as u64, new);
            assert_eq!(
                reach,
                reach_in_bin(&sums, places),
                "{first:?} {place} {new}"
            );
        }
    }
}

#[test]
fn tern_never_looks_below() {
    for length in 0..=2 {
        let all = rows(&[0, 1, 2, 3, 4], length);
        for (first, second) in pairs(&all) {
            assert_eq!(reach_of_sum(&tern(), first, second), 1);
            assert_eq!(reach_of_difference(&tern(), first, second), 1);
            for (place, new) in (0..length).flat_map(|place| (0..5).map(move |new| (place, new))) {
                let place = place as u64;
                assert_eq!(reach_of_edit(&tern(), first, second, place, new), 1);
            }
        }
    }
}

#[test]
fn the_reach_may_stay_below_the_depth() {
    // 2 and −2 have words of one digit, and so has zero; 1 has two.
    assert_eq!(reach_of_sum(&bin(), &[1, 2, 0], &[1, 2, 0]), 1);
    assert_eq!(reach_of_sum(&bin(), &[1, 2, 1], &[1, 2, 0]), 2);
    // 1 − 0 has two digits, 1 − 1 has one.
    assert_eq!(reach_of_difference(&bin(), &[1, 2, 1], &[1, 2, 0]), 2);
    assert_eq!(reach_of_difference(&bin(), &[1, 2, 1], &[1, 2, 1]), 1);
    // The same rows reach differently by sums and by differences: 1 + 1 has a word of two digits here, 1 − 1 one of one.
    let table = longer_words(&[&[2]]);
    assert_eq!(reach_of_sum(&table, &[1], &[1]), 2);
    assert_eq!(reach_of_difference(&table, &[1], &[1]), 1);
}

#[test]
fn zeros_have_the_length_of_leaf_0() {
    let zeros = [0; 5];
    let three = longer_words(&[&[0], &[0, 0]]);
    let elsewhere = longer_words(&[&[2], &[2, 2]]);
    for (table, length) in [(bin(), 1), (tern(), 1), (three, 3), (elsewhere, 1)] {
        for n in 0..=5 {
            assert_eq!(reach_of_sum(&table, &zeros[..n], &zeros[..n]), length);
            assert_eq!(
                reach_of_difference(&table, &zeros[..n], &zeros[..n]),
                length
            );
        }
        assert_eq!(reach_of_edit(&table, &zeros, &zeros, 0, 0), length);
        assert_eq!(reach_of_edit(&table, &zeros, &zeros, 4, 0), length);
    }
}

#[test]
fn places_above_the_rows_count() {
    // Zero, then 1 below it: the only long word, and it stands just above a row that ends in 1.
    let table = longer_words(&[&[0], &[0, 1], &[0, 1, 2]]);
    assert_eq!(reach_of_sum(&table, &[0, 2, 1], &[0, 0, 0]), 4);
    assert_eq!(reach_of_sum(&table, &[2, 1, 1], &[0, 0, 0]), 3);
    assert_eq!(reach_of_sum(&table, &[0, 1, 2], &[0, 0, 0]), 2);
    // The edit too looks up to p + h, here place 4.
    assert_eq!(reach_of_edit(&table, &[0, 2, 4], &[0, 0, 0], 2, 1), 4);
    assert_eq!(reach_of_edit(&table, &[4, 2, 1], &[0, 0, 0], 0, 3), 4);
}

#[test]
fn the_place_below_the_edit_counts() {
    // w is 1 2 2 2 2: only place 0 has a word of two digits.
    let (first, second) = ([1, 1, 1, 1, 1], [0, 1, 1, 1, 1]);
    assert_eq!(reach_of_edit(&bin(), &first, &second, 1, 1), 2);
    assert_eq!(reach_of_edit(&bin(), &first, &second, 1, 2), 2);
    assert_eq!(reach_of_edit(&bin(), &first, &second, 2, 1), 1);
    assert_eq!(reach_of_edit(&bin(), &first, &second, 2, 2), 1);
}

#[test]
fn the_place_h_above_the_edit_counts_and_the_next_does_not() {
    // w is 2 2 2 1 2, so that place 3 alone has a word of two digits.
    let (first, second) = ([1, 1, 1, 1, 1], [1, 1, 1, 0, 1]);
    assert_eq!(reach_of_edit(&bin(), &first, &second, 0, 1), 1);
    assert_eq!(reach_of_edit(&bin(), &first, &second, 1, 1), 2);
    assert_eq!(reach_of_edit(&bin(), &first, &second, 4, 1), 2);
}

#[test]
fn at_place_0_nothing_below_is_looked_up() {
    // Below place 0 there are zeros, whose word has two digits here; 1 has one.
    let table = longer_words(&[&[0]]);
    let (ones, zeros) = ([1; 4], [0; 4]);
    assert_eq!(reach_of_edit(&table, &ones, &zeros, 0, 2), 1);
    assert_eq!(reach_of_edit(&table, &ones, &zeros, 0, 0), 2);
    assert_eq!(reach_of_edit(&table, &ones, &zeros, 1, 2), 1);
    // Place 2 + h is above the rows.
    assert_eq!(reach_of_edit(&table, &ones, &zeros, 2, 2), 2);
    assert_eq!(reach_of_sum(&table, &ones, &zeros), 2);
}

#[test]
fn the_rows_count_as_edited() {
    // From 2 to 1, a longer word; from 1 to 2, a shorter one.
    assert_eq!(reach_of_edit(&bin(), &[1, 1, 1], &[1, 1, 1], 1, 0), 2);
    assert_eq!(reach_of_edit(&bin(), &[1, 0, 1], &[1, 1, 1], 1, 1), 1);
    // The digit below decides how long the word above is: 2 after 1 has two digits, 2 after 2 has three.
    let table = longer_words(&[&[2], &[2, 2]]);
    assert_eq!(reach_of_edit(&table, &[2, 2], &[0, 0], 0, 1), 2);
    assert_eq!(reach_of_edit(&table, &[1, 2], &[0, 0], 0, 2), 3);
}

#[test]
fn the_other_facts_are_unaltered() {
    let mut sum = vec![99; 5];
    let (mut first, mut second) = (vec![1, 1], vec![1, 0]);
    let added = RowFacts {
        written: 4,
        reach: 2,
    };
    let answer = add(&bin(), &first, &second, &mut sum);
    assert_eq!(
        (answer, &sum[..]),
        (Answer::Facts(added), &[0, 0, 1, 0, 99][..])
    );
    // 1 1 plus 1 1 is 0 1 1 0: place 1 alone changes.
    let edited = EditFacts {
        changed: 1,
        reach: 1,
    };
    let answer = edit(&bin(), &mut first, &mut second, &mut sum, (1, 1, 1));
    assert_eq!(
        (answer, &sum[..]),
        (Answer::Facts(edited), &[0, 1, 1, 0, 99][..])
    );
}

#[test]
fn faults_come_first() {
    let fault = |group, number, place| Fault {
        group,
        number,
        place,
    };
    let answer = add(&bin(), &[1], &[0], &mut [0; 2]);
    assert_eq!(answer, Answer::Fault(fault(Group::Rows, 23, 0)));
    let answer = subtract(&bin(), &[1], &[3], &mut [0; 3]);
    assert_eq!(answer, Answer::Fault(fault(Group::Rows, 22, 0)));
    let answer = edit(&bin(), &mut [1], &mut [0], &mut [0; 3], (0, 1, 0));
    assert_eq!(answer, Answer::Fault(fault(Group::Editor, 25, 0)));
}

#[test]
fn the_look_up_says_its_words_length() {
    let found = |leaf, length| Some(LeafFacts { leaf, length });
    assert_eq!(look_up(&bin(), &[0; 8]), found(0, 1));
    assert_eq!(look_up(&bin(), &[1, 0, 4, 4, 4, 4, 4, 4]), found(1, 2));
    assert_eq!(look_up(&bin(), &[1, 4, 0, 0, 0, 0, 0, 0]), found(5, 2));
    assert_eq!(look_up(&bin(), &[2, 1, 0, 0, 0, 0, 0, 0]), found(6, 1));
    assert_eq!(look_up(&bin(), &[4; 8]), found(12, 1));
    for input in 0..9 {
        let leaf = usize::from(input);
        assert_eq!(look_up(&tern(), &[input; 8]), found(leaf, 1));
    }
    let table = longer_words(&[&[0], &[0, 1]]);
    assert_eq!(look_up(&table, &[0, 1, 8, 0, 0, 0, 0, 0]), found(9, 3));
    assert_eq!(look_up(&table, &[0, 2, 8, 0, 0, 0, 0, 0]), found(10, 2));
    // Neither a table nor a window of input indexes.
    assert_eq!(look_up(&bin()[1..], &[0; 8]), None);
    assert_eq!(look_up(&bin(), &[5; 8]), None);
}

#[test]
fn lines_of_the_vectors() {
    let rows = |call: u8, first: &[u8], second: &[u8], room: &[u8]| {
        let buffers = [&bin()[..], first, second, room].map(buffer);
        [vec![call], buffers.concat()].concat()
    };
    let numbers = |row: u64, place: u64, digit: u64| [row, place, digit].map(u64::to_le_bytes);
    let edit = |place| {
        let buffers = rows(3, &[1, 1], &[1, 0], &[0, 0, 1, 0]);
        [buffers, numbers(1, place, 1).concat()].concat()
    };
    let look_up = [vec![19], buffer(&bin()), vec![1, 4, 0, 0, 0, 0, 0, 0]].concat();
    let calls = [
        rows(2, &[1, 1], &[1, 0], &[9; 5]),
        rows(2, &[1, 1], &[1, 0], &[9; 3]),
        rows(8, &[1, 1], &[1, 1], &[9; 4]),
        rows(8, &[1, 3], &[1, 1], &[9; 4]),
        edit(1),
        edit(2),
        look_up.clone(),
    ];
    let expected = [
        "sum 4 reach 2 0000010009",
        "refused rows 23 place 0 090909",
        "difference 4 reach 1 00000000",
        "refused rows 21 place 1 09090909",
        "changed 1 reach 1 0101 0101 00010100",
        "refused editor 25 place 0 0101 0100 00000100",
        "leaf 5 length 2",
    ];
    assert_eq!(lines(&calls), (expected.join("\n") + "\n", true));
    // A window that breaks off.
    let (printed, whole) = lines(&[look_up.clone(), look_up[..look_up.len() - 1].to_vec()]);
    assert_eq!((&printed[..], whole), ("leaf 5 length 2\n", false));
}
