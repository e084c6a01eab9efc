//! Subtraction and input digits beyond the sums (job 2).

use reference::{
    add, bin, check, subtract, tern, Answer, Fault, Group, Parts, RowFacts, TableFacts,
};

const TERN_DIGITS: [i8; 5] = [0, 1, 2, -1, -2];
const BIN_DIGITS: [i8; 3] = [0, 1, -1];

/// Alphabet indexes of digits given as values.
fn row(alphabet: &[i8], digits: &[i8]) -> Vec<u8> {
    let index = |digit| alphabet.iter().position(|x| x == digit).unwrap() as u8;
    digits.iter().map(index).collect()
}

fn refused<F>(group: Group, number: u8, place: usize) -> Answer<F> {
    Answer::Fault(Fault {
        group,
        number,
        place,
    })
}

/// What addition and subtraction say but for the reach, which tests/reach.rs looks at.
fn written(answer: Answer<RowFacts>) -> Answer<usize> {
    match answer {
        Answer::Facts(facts) => Answer::Facts(facts.written),
        Answer::Fault(fault) => Answer::Fault(fault),
    }
}

/// A difference that must come out, in a buffer with a byte more, which is kept.
fn takes(table: &[u8], alphabet: &[i8], first: &[i8], second: &[i8], expected: &[i8]) {
    let mut difference = vec![99; expected.len() + 1];
    let (first, second) = (row(alphabet, first), row(alphabet, second));
    let answer = subtract(table, &first, &second, &mut difference);
    assert_eq!(written(answer), Answer::Facts(expected.len()));
    assert_eq!(difference[..expected.len()], row(alphabet, expected));
    assert_eq!(difference[expected.len()], 99);
}

#[test]
fn differences_of_the_carried_tables() {
    // 8 − 7 = 1, 7 − 8 = −1, 8 − (−8) = 16 = 1 + 2·3 + 1·9.
    takes(&tern(), &TERN_DIGITS, &[2, 2], &[1, 2], &[1, 0, 0]);
    takes(&tern(), &TERN_DIGITS, &[1, 2], &[2, 2], &[-1, 0, 0]);
    takes(&tern(), &TERN_DIGITS, &[2, 2], &[-2, -2], &[1, 2, 1]);
    // 0 − 3 = −3: −1 with −1 above it has the weight −1, and sends it up.
    takes(&bin(), &BIN_DIGITS, &[0, 0], &[1, 1], &[-1, 1, -1, 0]);
    takes(&tern(), &TERN_DIGITS, &[], &[], &[0]);
    takes(&bin(), &BIN_DIGITS, &[], &[], &[0, 0]);
}

/// Base 3 with one-digit words. Weights are 0, so that a digit passes where it is in the alphabet.
fn plain(alphabet: &[i16], inputs: &[i16]) -> Parts {
    let whole = |numbers: &[i16]| numbers.iter().map(|&a| vec![a, 0]).collect();
    Parts {
        base: vec![0, -1, 3, 0],
        alphabet: whole(alphabet),
        inputs: whole(inputs),
        leaves: (0..inputs.len())
            .map(|index| (vec![index as u8], vec![0, 0]))
            .collect(),
    }
}

fn check_of(alphabet: &[i16], inputs: &[i16]) -> Answer<TableFacts> {
    check(&plain(alphabet, inputs).write())
}

#[test]
fn rule_8_wants_every_sum_and_lets_others_pass() {
    let fourteen = |leaf| refused(Group::Author, 14, leaf);
    let eight = |record| refused(Group::Author, 8, record);
    // Rule 14 is what is left to refuse: weight 0 leaves 2 as it is.
    assert_eq!(check_of(&[0, 1], &[0, 1, 2]), fourteen(2));
    assert_eq!(check_of(&[0, 1], &[0, 1, 2, 5]), fourteen(2));
    assert_eq!(check_of(&[0, 1], &[0, 5, 1, 2]), fourteen(1));
    assert_eq!(check_of(&[0, 1], &[0, 5, 1]), eight(3));
    assert_eq!(check_of(&[0, 1], &[0, 5, 1, 2, 5]), eight(4));
    assert_eq!(check_of(&[0, 1], &[5, 0, 1, 2]), eight(0));
    // A repeated record is named before a missing sum is.
    assert_eq!(check_of(&[0, 1], &[0, 5, 5, 1]), eight(2));
}

/// TERN with the digit 5, which no two digits of TERN make, of weight 2.
#[test]
fn a_further_digit_may_break_rule_14_only() {
    let mut parts = reference::carried::tern_parts();
    parts.inputs.push(vec![5, 0]);
    parts.leaves.push((vec![9], vec![2, 0]));
    let file = parts.write();
    // 1 has the weight 0, and with 2 from below it leaves 3.
    assert_eq!(check(&file), refused(Group::Author, 14, 1));
    let mut sums = [vec![99; 3], vec![99; 3]];
    let (first, second) = (row(&TERN_DIGITS, &[2, 2]), row(&TERN_DIGITS, &[1, 2]));
    for (sum, table) in sums.iter_mut().zip([file, tern()]) {
        let answer = add(&table, &first, &second, sum);
        assert_eq!(written(answer), Answer::Facts(3));
    }
    assert_eq!(sums[0], sums[1]);
}

/// The answer to a subtraction of rows of zeros.
fn subtracted(parts: &Parts, first: usize, second: usize, room: usize) -> Answer<usize> {
    let (first, second) = (vec![0; first], vec![0; second]);
    written(subtract(
        &parts.write(),
        &first,
        &second,
        &mut vec![0; room],
    ))
}

#[test]
fn rule_42_judges_the_whole_alphabet() {
    // 0 − 1 isn't an input digit.
    let positive = plain(&[0, 1], &[0, 1, 2]);
    // 0 − 1 and 0 − 2 are; 1 − 2 is too; 2 − (−1) = 3 is; −1 − 2 = −3 isn't, which is found from −1, index 3.
    let later = plain(&[0, 1, 2, -1], &[0, 1, 2, 3, 4, -1, -2]);
    for length in [0, 1, 5] {
        let room = length + 1;
        assert_eq!(
            subtracted(&positive, length, length, room),
            refused(Group::Author, 42, 0)
        );
        assert_eq!(
            subtracted(&later, length, length, room),
            refused(Group::Author, 42, 3)
        );
    }
    // With −3 listed too nothing is missing, and zeros are converted.
    let whole = plain(&[0, 1, 2, -1], &[0, -3, 1, 2, 3, 4, -1, -2]);
    assert_eq!(subtracted(&whole, 5, 5, 6), Answer::Facts(6));
}

#[test]
fn rule_42_comes_after_the_rows_and_before_27() {
    let positive = plain(&[0, 1], &[0, 1, 2]);
    assert_eq!(subtracted(&positive, 2, 3, 9), refused(Group::Rows, 20, 0));
    assert_eq!(
        subtracted(&positive, 257, 257, 300),
        refused(Group::Rows, 20, 0)
    );
    assert_eq!(subtracted(&positive, 2, 2, 2), refused(Group::Rows, 23, 0));
    let file = positive.write();
    let mut room = [7; 4];
    let answer = subtract(&file, &[0, 2], &[3, 0], &mut room);
    assert_eq!(answer, refused(Group::Rows, 21, 1));
    let answer = subtract(&file, &[0, 1], &[3, 0], &mut room);
    assert_eq!(answer, refused(Group::Rows, 22, 0));
    // −1 − 1 = −2 is listed and stays as it is, which is no digit.
    let listed = plain(&[0, 1, -1], &[0, 1, 2, -1, -2]).write();
    let answer = subtract(&listed, &[0, 2], &[0, 1], &mut room);
    assert_eq!(answer, refused(Group::Author, 27, 1));
    // 2 − (−1) = 3 would be no digit either, but −1 − 2 isn't listed.
    let missing = plain(&[0, 1, 2, -1], &[0, 1, 2, 3, 4, -1, -2]).write();
    let answer = subtract(&missing, &[0, 2], &[0, 3], &mut room);
    assert_eq!(answer, refused(Group::Author, 42, 3));
    assert_eq!(room, [7; 4]);
}

#[test]
fn addition_never_says_42() {
    let positive = plain(&[0, 1], &[0, 1, 2]).write();
    let mut sum = [7; 3];
    let answer = add(&positive, &[0, 1], &[1, 0], &mut sum);
    assert_eq!(written(answer), Answer::Facts(3));
    assert_eq!(sum, [1, 1, 0]);
}
