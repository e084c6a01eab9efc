//! Orders of edits (job 10): which lists keep the edits of each target, what two edits leave and tell in either order, and where that ends.

mod larger;
mod short;

use larger::{bin_of, three_carries};
use reference::by_table;
use reference::reorderings::{keeps_targets, target};
use reference::table::{read, Reading};
use reference::{bin, tern, Answer, Asked, EditFacts, Operation};
use short::{pairs, rows};

/// Two rows and a sum, as edits leave them.
#[derive(Clone, Debug, PartialEq)]
struct Rows {
    first: Vec<u8>,
    second: Vec<u8>,
    sum: Vec<u8>,
}

/// What edits leave and what each tells, none for a refused one.
type Made = (Rows, Vec<Option<EditFacts>>);

/// The rows with a right sum: what addition writes, with a byte behind it.
fn added(reading: &Reading, first: &[u8], second: &[u8]) -> Rows {
    let mut sum = vec![99; first.len() + depth(reading) + 1];
    let answer = by_table::combine(Operation::Sum, reading, first, second, &mut sum);
    assert!(matches!(answer, Answer::Facts(_)));
    let (first, second) = (first.to_vec(), second.to_vec());
    Rows { first, second, sum }
}

fn depth(reading: &Reading) -> usize {
    reading.as_ref().unwrap().depth
}

/// Edits one after the other.
fn in_turn(reading: &Reading, start: &Rows, edits: &[Asked]) -> Made {
    let mut rows = start.clone();
    let mut made = |edit: &Asked| {
        let Rows { first, second, sum } = &mut rows;
        match by_table::edit(reading, first, second, sum, *edit) {
            Answer::Facts(facts) => Some(facts),
            Answer::Fault(_) => None,
        }
    };
    let told = edits.iter().map(&mut made).collect();
    (rows, told)
}

/// Two edits in either order: whether both leave the same, and the facts of each edit in the one order and in the other.
fn both_orders(reading: &Reading, start: &Rows, edits: [Asked; 2]) -> (bool, [[EditFacts; 2]; 2]) {
    let [e, f] = edits;
    let (left, told) = in_turn(reading, start, &[e, f]);
    let (other, turned) = in_turn(reading, start, &[f, e]);
    let facts = [[told[0], turned[1]], [told[1], turned[0]]];
    (left == other, facts.map(|facts| facts.map(Option::unwrap)))
}

fn same_counts(facts: &[[EditFacts; 2]; 2]) -> bool {
    facts.iter().all(|[x, y]| x.changed == y.changed)
}

fn same_reach(facts: &[[EditFacts; 2]; 2]) -> bool {
    facts.iter().all(|[x, y]| x.reach == y.reach)
}

/// Every two edits of different targets that rows of some length have, the lower one first; of one place, that of the first row.
fn edits_of_two_targets(length: u64, digits: u64) -> Vec<[Asked; 2]> {
    let targets = || (0..length).flat_map(|place| (0..2).map(move |row| (place, row)));
    let edits = || targets().flat_map(|(place, row)| (0..digits).map(move |x| (row, place, x)));
    let is_below = |e: Asked, f: Asked| (e.1, e.0) < (f.1, f.0);
    let two = edits().flat_map(|e| edits().map(move |f| [e, f]));
    two.filter(|[e, f]| is_below(*e, *f)).collect()
}

/// The law for two edits of these rows, from a right sum.
fn keeps_the_law(reading: &Reading, start: &Rows, [e, f]: [Asked; 2]) {
    let (left, facts) = both_orders(reading, start, [e, f]);
    let (distance, depth) = ((f.1 - e.1) as usize, depth(reading));
    assert!(left, "{start:?} {e:?} {f:?}");
    assert!(
        distance < depth || same_counts(&facts),
        "{start:?} {e:?} {f:?}"
    );
    assert!(
        distance <= depth || same_reach(&facts),
        "{start:?} {e:?} {f:?}"
    );
    // More than is promised: whether a word is a longest one, its first h − 1 digits tell, so that the higher edit doesn't see h places below.
    let [_, [one, other]] = facts;
    assert!(
        distance < depth || one.reach == other.reach,
        "{start:?} {e:?} {f:?}"
    );
}

/// The law for all rows of some length and every two edits of them.
fn law_of_short_rows(file: &[u8], length: usize) {
    let reading = read(file);
    let digits = reading.as_ref().unwrap().alphabet.len() as u8;
    let all = rows(&(0..digits).collect::<Vec<u8>>(), length);
    let edits = edits_of_two_targets(length as u64, digits.into());
    for (first, second) in pairs(&all) {
        let start = added(&reading, first, second);
        for pair in &edits {
            keeps_the_law(&reading, &start, *pair);
        }
    }
}

#[test]
fn lists_that_keep_targets() {
    let (a, b, c) = ((0, 3, 1), (1, 3, 1), (0, 4, 1));
    let again = (0, 3, 2);
    assert_eq!((target(a), target(again)), ((0, 3), (0, 3)));
    assert!(keeps_targets(&[], &[]));
    assert!(keeps_targets(&[a, b, c, again], &[c, a, again, b]));
    assert!(!keeps_targets(&[a, b, c, again], &[again, b, c, a]));
    // The same edit twice is no other order.
    assert!(keeps_targets(&[a, b, a], &[a, a, b]));
    // An edit more or fewer, and another digit, row or place.
    assert!(!keeps_targets(&[a, b], &[b]) && !keeps_targets(&[b], &[a, b]));
    assert!(!keeps_targets(&[a, b, b], &[a, a, b]));
    assert!(
        !keeps_targets(&[a], &[again]) && !keeps_targets(&[a], &[b]) && !keeps_targets(&[a], &[c])
    );
    // Numbers that are refused name a target like any others.
    let (high, higher) = ((0, u64::MAX, 0), (0, u64::MAX, 9));
    assert!(keeps_targets(&[high, a, higher], &[high, higher, a]));
    assert!(!keeps_targets(&[high, a, higher], &[higher, a, high]));
}

#[test]
fn the_law_with_tern() {
    law_of_short_rows(&tern(), 2);
}

#[test]
fn the_law_with_bin() {
    for length in 1..=3 {
        law_of_short_rows(&bin(), length);
    }
}

#[test]
fn the_law_beyond_degree_two() {
    law_of_short_rows(&bin_of(3).write(), 2);
    law_of_short_rows(&bin_of(4).write(), 2);
    // Words of three digits, and places up to four apart.
    let reading = read(&three_carries().write());
    let start = added(&reading, &[2, 4, 2, 1, 2], &[2, 3, 1, 1, 0]);
    for pair in edits_of_two_targets(5, 5) {
        keeps_the_law(&reading, &start, pair);
    }
}

/// From bytes that are no sum of these rows, and partly no digits: the same three rows; beyond h the same counts and reach too.
#[test]
fn the_law_from_any_sum() {
    for (file, digits) in [(tern(), 5), (bin(), 3)] {
        let reading = read(&file);
        let mut start = added(&reading, &[1, 2, 0, 1], &[1, 0, 2, 0]);
        start.sum = vec![1, 200, 0, 2, 1, 0, 7];
        for [e, f] in edits_of_two_targets(4, digits) {
            let (left, facts) = both_orders(&reading, &start, [e, f]);
            assert!(left, "{e:?} {f:?}");
            let beyond = (f.1 - e.1) as usize > depth(&reading);
            assert!(
                !beyond || same_counts(&facts) && same_reach(&facts),
                "{e:?} {f:?}"
            );
        }
    }
}

/// The count and the reach of each edit, first in the one order and then in the other.
fn told(file: &[u8], start: &Rows, edits: [Asked; 2]) -> [[(usize, usize); 2]; 2] {
    let (_, facts) = both_orders(&read(file), start, edits);
    facts.map(|facts| facts.map(|EditFacts { changed, reach }| (changed, reach)))
}

/// BIN, 1 stored at places 0 and 1 of zeros: 1 0 or 0 1 comes first, then 1 −1 1.
#[test]
fn counts_differ_within_the_depth() {
    let start = added(&read(&bin()), &[0, 0], &[0, 0]);
    let facts = told(&bin(), &start, [(0, 0, 1), (0, 1, 1)]);
    assert_eq!(facts, [[(1, 2), (3, 2)], [(2, 2), (1, 2)]]);
    // One place of both rows by TERN: 1, and then −1 1.
    let start = added(&read(&tern()), &[0], &[0]);
    let facts = told(&tern(), &start, [(0, 0, 1), (1, 0, 1)]);
    assert_eq!(facts, [[(1, 1), (2, 1)], [(2, 1), (1, 1)]]);
}

/// BIN, zero stored at place 0 and 1 at place 2 of zeros: the edit of place 0 looks up place 2.
#[test]
fn the_reach_differs_at_the_depth() {
    let start = added(&read(&bin()), &[0; 3], &[0; 3]);
    let facts = told(&bin(), &start, [(0, 0, 0), (0, 2, 1)]);
    assert_eq!(facts, [[(0, 1), (0, 2)], [(1, 2), (1, 2)]]);
}

/// TERN, zeros stored in zeros whose sum has a 1 at place 1: the first edit that renews the place counts it.
#[test]
fn counts_differ_at_the_depth_from_another_sum() {
    let mut start = added(&read(&tern()), &[0; 2], &[0; 2]);
    start.sum[1] = 1;
    let facts = told(&tern(), &start, [(0, 0, 0), (0, 1, 0)]);
    assert_eq!(facts, [[(1, 1), (0, 1)], [(0, 1), (1, 1)]]);
}

/// Every order of a list.
fn orders(edits: &[Asked]) -> Vec<Vec<Asked>> {
    if edits.is_empty() {
        return vec![Vec::new()];
    }
    let beginning_with = |at: usize| {
        let rest = [&edits[..at], &edits[at + 1..]].concat();
        let all = orders(&rest).into_iter();
        all.map(move |order| [&edits[at..=at], &order[..]].concat())
    };
    (0..edits.len()).flat_map(beginning_with).collect()
}

/// A list with two edits of one target, and with refused ones: of 720 orders the 360 that keep these two leave the same, and no other does.
#[test]
fn orders_of_a_list() {
    let edits = [
        (0, 1, 1),
        (1, 1, 1),
        (0, 1, 2),
        (1, 0, 2),
        (2, 1, 0),
        (0, 1 << 32, 1),
    ];
    for (file, sum) in [(tern(), [4, 0, 9]), (bin(), [1, 1, 2])] {
        let reading = read(&file);
        let mut start = added(&reading, &[1, 2], &[0, 1]);
        start.sum[..3].copy_from_slice(&sum);
        let (left, told) = in_turn(&reading, &start, &edits);
        assert_eq!(told.iter().filter(|facts| facts.is_none()).count(), 2);
        let all = orders(&edits);
        for order in &all {
            let same = in_turn(&reading, &start, order).0 == left;
            assert_eq!(same, keeps_targets(&edits, order), "{order:?}");
        }
        let kept = all.iter().filter(|order| keeps_targets(&edits, order));
        assert_eq!((all.len(), kept.count()), (720, 360));
    }
}
