//! The row that refusal 14 is about (job 5).

mod common;

use common::{buffer, lines, longer_parts, longer_words};
use reference::table::{read, Table};
use reference::{add, bad_row, bin, carried, check, reach, tern};
use reference::{Answer, Element, LeafFacts, Parts, Window};

/// Upper and lower leaf, the digit's parts and the string.
type Row = (usize, usize, Vec<i64>, Vec<u8>);

/// What is shown, none for nothing, or the fault's group, number and place.
fn said(table: &[u8]) -> Result<Option<Row>, (&'static str, u8, usize)> {
    match bad_row(table) {
        Answer::Facts(shown) => {
            Ok(shown.map(|row| (row.upper, row.lower, row.digit.parts, row.string)))
        }
        Answer::Fault(fault) => Err((fault.group.name(), fault.number, fault.place)),
    }
}

/// The number of the rule by which the check refuses, 0 where it accepts, and the place.
fn refused(table: &[u8]) -> (u8, usize) {
    match check(table) {
        Answer::Facts(_) => (0, 0),
        Answer::Fault(fault) => (fault.number, fault.place),
    }
}

/// A table with another weight for the leaf of a word.
fn with_weight(mut parts: Parts, word: &[u8], weight: &[i16]) -> Parts {
    let found = parts.leaves.iter_mut().find(|leaf| leaf.0 == word);
    found.expect("a leaf's word").1 = weight.to_vec();
    parts
}

/// What is shown of such a table.
fn shown(parts: Parts, word: &[u8], weight: &[i16]) -> Option<Row> {
    said(&with_weight(parts, word, weight).write()).unwrap()
}

/// BIN in the ring with ω^d = 0, all parts of each digit and weight alike.
fn bin_of(degree: usize) -> Parts {
    let alike = |element: &Vec<i16>| vec![element[0]; degree];
    let of = carried::bin_parts();
    let leaf = |(word, weight): &(Vec<u8>, Vec<i16>)| (word.clone(), alike(weight));
    let mut base = vec![0; 2 * degree];
    base[degree] = 2;
    Parts {
        base,
        alphabet: of.alphabet.iter().map(alike).collect(),
        inputs: of.inputs.iter().map(alike).collect(),
        leaves: of.leaves.iter().map(leaf).collect(),
    }
}

#[test]
fn marked_exercise_twelve() {
    // TERN with weight 0 at input 2, whose digit is 2 and what comes up; 1 first comes up from input 3.
    let row = (2, 3, vec![3, 0], vec![2, 3]);
    assert_eq!(shown(carried::tern_parts(), &[2], &[0, 0]), Some(row));
}

#[test]
fn nothing_to_show() {
    for table in [tern(), bin(), longer_words(&[&[1], &[1, 8]])] {
        assert_eq!(said(&table), Ok(None));
    }
    for degree in [3, 4] {
        assert_eq!(said(&bin_of(degree).write()), Ok(None));
    }
}

#[test]
fn the_lower_word_is_longer() {
    // Words of BIN that begin with 1 fit 1 1; those with 0, 1 and 2 behind it have the weights 0, 0 and 1.
    let row = (2, 3, vec![2, 0], vec![1, 1, 2]);
    assert_eq!(shown(carried::bin_parts(), &[1, 1], &[0, 0]), Some(row));
    // The longest string there is.
    let ones = [1; 8];
    let split: Vec<&[u8]> = (1..8).map(|length| &ones[..length]).collect();
    let mut word = ones;
    word[7] = 8;
    let string = [&[0], &word[..]].concat();
    // Before it come 0, seven words that end in 0 and seven with the other digits in its last place.
    let row = (0, 15, vec![3, 0], string);
    assert_eq!(shown(longer_parts(&split), &word, &[3, 0]), Some(row));
}

#[test]
fn the_upper_tail_is_longer() {
    // The leaves are 0 0, then 0 1 0 to 0 1 8, then 0 2 to 0 8, then 1, which is all of 1 4 that is a word.
    let parts = longer_parts(&[&[0], &[0, 1]]);
    let row = (5, 17, vec![-3, 0], vec![0, 1, 4]);
    assert_eq!(shown(parts.clone(), &[0, 1, 4], &[1, 0]), Some(row));
    // The same leaf as the lower one, at its lowest: 0 0 is above it, whose tail is shorter.
    let row = (0, 5, vec![5, -1], vec![0, 0, 1, 4]);
    assert_eq!(shown(parts, &[0, 1, 4], &[5, -1]), Some(row));
}

#[test]
fn both_are_equally_long() {
    // 2 0 to 2 8 have the numbers 2 to 10, and the tail of 2 1 is the word 1.
    let parts = longer_parts(&[&[2]]);
    let row = (3, 1, vec![5, 0], vec![2, 1]);
    assert_eq!(shown(parts, &[2, 1], &[-1, 0]), Some(row));
}

#[test]
fn parts_of_every_degree() {
    // Below a zero, 1 1 carries one part less than it should.
    let row = (0, 2, vec![1, 1, 0], vec![0, 1, 1]);
    assert_eq!(shown(bin_of(3), &[1, 1], &[1, 1, 0]), Some(row));
    // The last digit, -2 in each part, of which nothing goes up.
    let row = (12, 0, vec![-2; 4], vec![4, 0]);
    assert_eq!(shown(bin_of(4), &[4], &[0; 4]), Some(row));
}

#[test]
fn a_leaf_with_itself() {
    // Base 3 and the digits -4 to 2. A third, rounded up, goes up from each sum, which leaves -2 to 0; from 7 goes up 2, which leaves 1. So 7
    // fails with what 2 comes up from, which is 7, the leaf behind 0, and then 4.
    let inputs: Vec<i16> = [0, 7]
        .into_iter()
        .chain(1..=4)
        .chain((1..=8).map(|x| -x))
        .collect();
    let element = |number: i16| vec![number, 0];
    let goes_up = |input: &i16| {
        if *input == 7 {
            2
        } else {
            (input + 9 + 2) / 3 - 3
        }
    };
    let leaf = |(index, input): (usize, &i16)| (vec![index as u8], element(goes_up(input)));
    let parts = Parts {
        base: vec![0, -1, 3, 0],
        alphabet: [0, 1, 2, -1, -2, -3, -4].map(element).to_vec(),
        leaves: inputs.iter().enumerate().map(leaf).collect(),
        inputs: inputs.into_iter().map(element).collect(),
    };
    let row = (1, 1, vec![3, 0], vec![1, 1]);
    assert_eq!(said(&parts.write()), Ok(Some(row)));
    assert_eq!(by_strings(&parts.write()), said(&parts.write()).unwrap());
}

/// Tables like BIN and TERN and ones with longer words, each with one weight moved by each of some elements.
fn spoiled() -> Vec<Vec<u8>> {
    let tables = [
        carried::bin_parts(),
        carried::tern_parts(),
        longer_parts(&[&[2]]),
        longer_parts(&[&[0], &[0, 1]]),
        bin_of(3),
        bin_of(4),
    ];
    let mut all = Vec::new();
    for parts in tables {
        for leaf in 0..parts.leaves.len() {
            for (step, highest) in [(-2, 0), (-1, 0), (-1, 1), (1, 0), (1, -1), (2, 0), (0, 1)] {
                let mut other = parts.clone();
                let weight = &mut other.leaves[leaf].1;
                weight[0] += step;
                *weight.last_mut().unwrap() += highest;
                all.push(other.write());
            }
        }
    }
    all
}

/// The input digit at a string's top plus the weight of what stands below it, minus the base times that of the whole.
fn converted(table: &Table, string: &[u8]) -> Element {
    let input = |at: usize| &table.inputs[usize::from(string.get(at).copied().unwrap_or(0))];
    let window =
        |from: usize| -> Vec<Element> { (from..from + 8).map(|at| input(at).clone()).collect() };
    let goes_up = table.base.times(table.weight(&window(0)));
    &(input(0) + table.weight(&window(1))) - &goes_up
}

/// The eight input indexes of a string from a place on, zeros behind it.
fn window(string: &[u8], from: usize) -> Window {
    std::array::from_fn(|at| string.get(from + at).copied().unwrap_or(0))
}

/// All strings of some length.
fn strings(inputs: usize, length: usize) -> Vec<Vec<u8>> {
    let mut all = vec![Vec::new()];
    for _ in 0..length {
        let longer = |string: &Vec<u8>| -> Vec<Vec<u8>> {
            let with = |index: usize| [&string[..], &[index as u8]].concat();
            (0..inputs).map(with).collect()
        };
        all = all.iter().flat_map(longer).collect();
    }
    all
}

/// The same by conversion of every string that is one digit longer than the depth: of those whose top digit isn't in the alphabet, the least by
/// the leaves at its top place and below, cut off where the longer of the two words ends.
fn by_strings(file: &[u8]) -> Option<Row> {
    let table = read(file).expect("a table past 1 to 13");
    let of_string = |string: Vec<u8>| {
        let digit = converted(&table, &string);
        if table.digit_index(&digit).is_some() {
            return None;
        }
        let upper = reach::look_up(&table, &window(&string, 0)).unwrap();
        let lower = reach::look_up(&table, &window(&string, 1)).unwrap();
        let end = upper.length.max(1 + lower.length);
        Some((upper.leaf, lower.leaf, digit.parts, string[..end].to_vec()))
    };
    let all = strings(table.inputs.len(), table.depth + 1).into_iter();
    all.filter_map(of_string).min()
}

#[test]
fn by_conversion_of_all_strings() {
    let (mut kinds, mut nothing) = ([0; 3], 0);
    for file in spoiled() {
        let (number, place) = refused(&file);
        if number == 13 {
            assert_eq!(said(&file), Err(("author", 13, 0)));
            continue;
        }
        let row = said(&file).unwrap();
        assert_eq!(row, by_strings(&file));
        let Some((upper, lower, digit, string)) = row else {
            assert_eq!(number, 0);
            nothing += 1;
            continue;
        };
        assert_eq!((number, place), (14, upper));
        let table = read(&file).unwrap();
        let (tail, word) = (
            table.leaves[upper].word.len() - 1,
            table.leaves[lower].word.len(),
        );
        assert_eq!(string.len(), 1 + tail.max(word));
        assert_eq!(digit.len(), table.base.degree());
        kinds[0] += u32::from(tail > word);
        kinds[1] += u32::from(tail == word);
        kinds[2] += u32::from(tail < word);
    }
    assert!(
        nothing > 10 && kinds.iter().all(|count| *count > 2),
        "{nothing} {kinds:?}"
    );
}

/// Indexes below some number, one after the other, from a small generator of its own.
fn noise(state: &mut u64, below: usize) -> usize {
    *state = state
        .wrapping_mul(6_364_136_223_846_793_005)
        .wrapping_add(1_442_695_040_888_963_407);
    (*state >> 33) as usize % below
}

#[test]
fn every_row_with_the_string() {
    let mut state = 5;
    for file in spoiled() {
        let Ok(Some((upper, lower, digit, string))) = said(&file) else {
            continue;
        };
        let table = read(&file).unwrap();
        for _ in 0..20 {
            let below: Vec<u8> = (0..8)
                .map(|_| noise(&mut state, table.inputs.len()) as u8)
                .collect();
            let row = [&string[..], &below].concat();
            assert_eq!(converted(&table, &row).parts, digit);
            let leaf = |from| {
                reach::look_up(&table, &window(&row, from)).map(|LeafFacts { leaf, .. }| leaf)
            };
            assert_eq!((leaf(0), leaf(1)), (Some(upper), Some(lower)));
            sum_is_refused(&file, &table, &row, &mut state);
        }
    }
}

/// Addition of two rows whose digits add up to those of a row, given from the top, and to others above it: 27 at its top place or below.
fn sum_is_refused(file: &[u8], table: &Table, row: &[u8], state: &mut u64) {
    let digits = 0..table.alphabet.len();
    let summands = |index: &u8| {
        let pairs = digits
            .clone()
            .flat_map(|x| digits.clone().map(move |y| (x as u8, y as u8)));
        let sum =
            |(x, y): &(u8, u8)| &table.alphabet[usize::from(*x)] + &table.alphabet[usize::from(*y)];
        let found = pairs
            .into_iter()
            .find(|pair| sum(pair) == table.inputs[usize::from(*index)]);
        found.expect("no further digits")
    };
    let (mut first, mut second): (Vec<u8>, Vec<u8>) = row.iter().rev().map(summands).unzip();
    for above in [&mut first, &mut second] {
        above.extend((0..3).map(|_| noise(state, table.alphabet.len()) as u8));
    }
    let Answer::Fault(fault) = add(file, &first, &second, &mut [0; 60]) else {
        panic!("added");
    };
    assert!(fault.number == 27 && fault.place < row.len(), "{fault:?}");
}

#[test]
fn faults_are_passed_on() {
    let file = tern();
    let leaf_0 = with_weight(carried::tern_parts(), &[0], &[1, 0]);
    let over = with_weight(carried::tern_parts(), &[5], &[1_025, 0]);
    // 14 would refuse the second leaf too, but the table is one that 13 refuses.
    let both = with_weight(leaf_0.clone(), &[2], &[0, 0]);
    let cases = [
        (file[..19].to_vec(), ("author", 1, 0)),
        (file[..164].to_vec(), ("author", 2, 4)),
        (over.write(), ("author", 4, 84 + 5 * 8 + 4)),
        (leaf_0.write(), ("author", 13, 0)),
        (both.write(), ("author", 13, 0)),
    ];
    for (table, fault) in cases {
        assert_eq!(said(&table), Err(fault));
    }
}

#[test]
fn lines_of_the_vectors() {
    let call = |table: &[u8]| [vec![9], buffer(table)].concat();
    let twelve = with_weight(carried::tern_parts(), &[2], &[0, 0]);
    let of_four = with_weight(bin_of(4), &[1, 1], &[1, 1, 1, 0]);
    let calls = [
        call(&twelve.write()),
        call(&bin()),
        call(&of_four.write()),
        call(&tern()[1..]),
    ];
    let expected = [
        "pair 2 3 digit 3 0 string 0203",
        "nothing",
        "pair 0 2 digit 1 1 1 0 string 000101",
        "refused author 2 place 0",
    ];
    assert_eq!(lines(&calls), (expected.join("\n") + "\n", true));
    // A table that breaks off.
    let cut = call(&bin()).len() - 1;
    let (printed, whole) = lines(&[call(&bin())[..cut].to_vec()]);
    assert_eq!((&printed[..], whole), ("", false));
}
