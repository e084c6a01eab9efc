//! The marked exercises M7 to M12 and the limits that the paper names beside them.

use reference::{
    add, bin, check, edit, run, tern, Answer, EditFacts, Fault, Group, RowFacts, TableFacts,
};

/// Alphabet indexes of digits given as values.
fn row(alphabet: &[i8], digits: &[i8]) -> Vec<u8> {
    let index = |digit| alphabet.iter().position(|x| x == digit).unwrap() as u8;
    digits.iter().map(index).collect()
}

const TERN_DIGITS: [i8; 5] = [0, 1, 2, -1, -2];
const BIN_DIGITS: [i8; 3] = [0, 1, -1];

/// A sum that must come out with its reach, in a buffer of just its length.
fn adds(
    table: &[u8],
    alphabet: &[i8],
    first: &[i8],
    second: &[i8],
    (expected, reach): (&[i8], usize),
) {
    let mut sum = vec![99; expected.len()];
    let answer = add(
        table,
        &row(alphabet, first),
        &row(alphabet, second),
        &mut sum,
    );
    let written = expected.len();
    assert_eq!(answer, Answer::Facts(RowFacts { written, reach }));
    assert_eq!(sum, row(alphabet, expected));
}

#[test]
fn sums_of_the_marked_table() {
    adds(&tern(), &TERN_DIGITS, &[2, 2], &[1, 2], (&[0, 2, 1], 1));
    adds(&bin(), &BIN_DIGITS, &[1, 1], &[1, 0], (&[0, 0, 1, 0], 2));
    adds(&bin(), &BIN_DIGITS, &[0, 1], &[0, 0], (&[0, 1, 0, 0], 2));
    adds(&tern(), &TERN_DIGITS, &[], &[], (&[0], 1));
    adds(&bin(), &BIN_DIGITS, &[], &[], (&[0, 0], 1));
}

#[test]
fn edit_of_the_marked_table() {
    let mut first = row(&TERN_DIGITS, &[2, 2]);
    let mut second = row(&TERN_DIGITS, &[1, 2]);
    let mut sum = row(&TERN_DIGITS, &[0, 2, 1]);
    let answer = edit(&tern(), &mut first, &mut second, &mut sum, (0, 0, 4));
    let facts = EditFacts {
        changed: 2,
        reach: 1,
    };
    assert_eq!(answer, Answer::Facts(facts));
    assert_eq!(first, row(&TERN_DIGITS, &[-2, 2]));
    assert_eq!(sum, row(&TERN_DIGITS, &[-1, 1, 1]));
}

#[test]
fn list_of_the_marked_table() {
    let mut first = row(&TERN_DIGITS, &[2, 2]);
    let mut second = row(&TERN_DIGITS, &[1, 2]);
    let mut sum = vec![99; 4];
    let edits = [(2, 0, 0), (0, 0, 4), (1, 5, 1)];
    let answer = run(&tern(), &mut first, &mut second, &mut sum, &edits);
    let refused = |number| {
        Answer::Fault(Fault {
            group: Group::Editor,
            number,
            place: 0,
        })
    };
    let answers = vec![refused(24), Answer::Facts(2), refused(25)];
    assert_eq!(answer, Answer::Facts(answers));
    assert_eq!(first, row(&TERN_DIGITS, &[-2, 2]));
    assert_eq!(second, row(&TERN_DIGITS, &[1, 2]));
    assert_eq!(sum[..3], row(&TERN_DIGITS, &[-1, 1, 1]));
    assert_eq!(sum[3], 99);
}

#[test]
fn carried_tables_are_accepted() {
    let facts = |depth, leaves, digits, pairs| {
        Answer::Facts(TableFacts {
            depth,
            leaves,
            digits,
            pairs,
        })
    };
    assert_eq!((tern().len(), bin().len()), (165, 187));
    assert_eq!(check(&tern()), facts(1, 9, 5, 81));
    assert_eq!(check(&bin()), facts(2, 13, 3, 65));
}

#[test]
fn weight_zero_at_input_two_is_refused() {
    let mut table = tern();
    let leaves = 20 + 8 + 5 * 4 + 9 * 4;
    table[leaves + 2 * 8 + 4] = 0;
    let fault = Fault {
        group: Group::Author,
        number: 14,
        place: 2,
    };
    assert_eq!(check(&table), Answer::Fault(fault));
}

#[test]
fn limits_of_rows_and_sum() {
    let number = |length: usize, sum: usize| match add(
        &tern(),
        &vec![0; length],
        &vec![0; length],
        &mut vec![0; sum],
    ) {
        Answer::Facts(_) => 0,
        Answer::Fault(fault) => fault.number,
    };
    assert_eq!(number(256, 257), 0);
    assert_eq!(number(257, 258), 20);
    assert_eq!(number(256, 256), 23);
}
