//! The forecast (job 13): how many pairs of leaves fit, and how many bytes the sum of two rows will need.

mod common;

use std::collections::HashMap;

use common::{buffer, lines, longer_words};
use reference::{add, bin, carried, check, forecast, tern};
use reference::{Answer, ForecastFacts, Parts, RowFacts, TableFacts};

/// Pairs and bytes, or the fault's group, number and place.
fn said(table: &[u8], digits: u64) -> Result<(usize, usize), (&'static str, u8, usize)> {
    match forecast(table, digits) {
        Answer::Facts(ForecastFacts { pairs, bytes }) => Ok((pairs, bytes)),
        Answer::Fault(fault) => Err((fault.group.name(), fault.number, fault.place)),
    }
}

/// The fitting pairs counted by beginnings: the lower words that begin with an upper word's tail, and those that the tail goes beyond.
fn pairs_by_beginnings(table: &[u8]) -> usize {
    let table = reference::table::read(table).expect("a table past 1 to 13");
    let words: Vec<&[u8]> = table.leaves.iter().map(|leaf| &leaf.word[..]).collect();
    let mut beginning: HashMap<&[u8], usize> = HashMap::new();
    for word in &words {
        for length in 0..=word.len() {
            *beginning.entry(&word[..length]).or_default() += 1;
        }
    }
    let of_upper = |upper: &&[u8]| {
        let tail = &upper[1..];
        let shorter = (0..tail.len()).filter(|length| words.contains(&&tail[..*length]));
        shorter.count() + beginning.get(tail).copied().unwrap_or(0)
    };
    words.iter().map(of_upper).sum()
}

/// TERN and BIN, and TERN with longer words here and there: where tails are longer than the words that fit, and where they are shorter.
fn tables() -> Vec<Vec<u8>> {
    let split: [&[&[u8]]; 6] = [
        &[&[0]],
        &[&[1]],
        &[&[2], &[2, 2], &[2, 2, 2]],
        &[&[0], &[0, 1], &[0, 1, 2], &[0, 1, 2, 3]],
        &[&[3], &[4], &[3, 4], &[4, 3], &[4, 3, 4]],
        &[&[8], &[8, 8], &[1], &[1, 8], &[1, 8, 8], &[1, 8, 8, 8]],
    ];
    let mut all = vec![tern(), bin()];
    all.extend(split.map(longer_words));
    all
}

#[test]
fn carried_tables() {
    // Every two leaves of TERN fit, as no word has a tail.
    assert_eq!(said(&tern(), 0), Ok((81, 1)));
    // In BIN 0, 2 and -2 fit all 13 leaves. The words of two digits have each digit once as tail: 1 and -1 begin five words, the others one.
    assert_eq!(said(&bin(), 0), Ok((3 * 13 + 2 * 13, 2)));
}

#[test]
fn by_another_way_of_counting() {
    let mut pairs = Vec::new();
    for table in tables() {
        let (counted, _) = said(&table, 7).unwrap();
        assert_eq!(counted, pairs_by_beginnings(&table));
        pairs.push(counted);
    }
    // 17 leaves: eight words of one digit fit all, and of nine words of two digits one has the tail that begins nine words.
    assert_eq!(pairs[2], 8 * 17 + 8 + 9);
    pairs.sort();
    pairs.dedup();
    assert!(pairs.len() > 5, "{pairs:?}");
}

#[test]
fn the_check_tells_the_same_pairs() {
    for table in tables() {
        let Answer::Facts(TableFacts { pairs, depth, .. }) = check(&table) else {
            panic!("refused");
        };
        assert_eq!(said(&table, 100), Ok((pairs, 100 + depth)));
    }
}

#[test]
fn the_bytes_are_those_of_a_sum() {
    for table in tables() {
        for digits in [0, 1, 2, 16, 255, 256] {
            let (_, bytes) = said(&table, digits).unwrap();
            let row = vec![1; digits as usize];
            let Answer::Facts(RowFacts { written, .. }) = add(&table, &row, &row, &mut [0; 300])
            else {
                panic!("refused");
            };
            assert_eq!(bytes, written);
            // One byte less doesn't do.
            let short = add(&table, &row, &row, &mut vec![0; bytes - 1]);
            assert!(matches!(short, Answer::Fault(fault) if fault.number == 23));
        }
    }
}

#[test]
fn limits_of_the_digits() {
    assert_eq!(said(&tern(), 255), Ok((81, 256)));
    assert_eq!(said(&bin(), 256), Ok((65, 258)));
    for digits in [257, 258, 1 << 16, 1 << 32, (1 << 32) + 1, 1 << 63, u64::MAX] {
        assert_eq!(said(&tern(), digits), Err(("rows", 20, 0)));
        assert_eq!(said(&bin(), digits), Err(("rows", 20, 0)));
    }
}

/// TERN with one weight changed, which says nothing about words.
fn with_weight(leaf: usize, weight: i16) -> Vec<u8> {
    let mut parts: Parts = carried::tern_parts();
    parts.leaves[leaf].1[0] = weight;
    parts.write()
}

#[test]
fn no_pair_is_judged() {
    let table = with_weight(2, 0);
    assert!(matches!(check(&table), Answer::Fault(fault) if fault.number == 14));
    assert_eq!(said(&table, 256), Ok((81, 257)));
    assert_eq!(said(&table, 257), Err(("rows", 20, 0)));
}

#[test]
fn faults_of_the_table_come_first() {
    let file = tern();
    let cases = [
        (file[..19].to_vec(), ("author", 1, 0)),
        (file[..164].to_vec(), ("author", 2, 4)),
        (with_weight(0, 1), ("author", 13, 0)),
        (with_weight(5, 1_025), ("author", 4, 84 + 5 * 8 + 4)),
    ];
    for (table, fault) in cases {
        for digits in [0, 256, 257, u64::MAX] {
            assert_eq!(said(&table, digits), Err(fault));
        }
    }
}

#[test]
fn lines_of_the_vectors() {
    let call = |table: &[u8], digits: u64| {
        let digits = digits.to_le_bytes().to_vec();
        [vec![17], buffer(table), digits].concat()
    };
    let check = [vec![1], buffer(&bin())].concat();
    let calls = [
        call(&bin(), 256),
        call(&tern(), 0),
        call(&tern(), 257),
        call(&tern()[1..], 257),
        check,
    ];
    let expected = [
        "pairs 65 bytes 258",
        "pairs 81 bytes 1",
        "refused rows 20 place 0",
        "refused author 2 place 0",
        "accepted depth 2 leaves 13 digits 3 pairs 65",
    ];
    assert_eq!(lines(&calls), (expected.join("\n") + "\n", true));
    // Digits that break off.
    let cut = call(&bin(), 5).len() - 1;
    let (printed, whole) = lines(&[call(&bin(), 5)[..cut].to_vec()]);
    assert_eq!((&printed[..], whole), ("", false));
}
