//! Degrees three and four (job 8).

mod larger;

use larger::{bin_of, three_carries, times};
use reference::table::read;
use reference::{assemble, by_table, carried, check, Answer, Element, Group, Operation};
use reference::{Parts, RowFacts, TableFacts, DEGREES};

/// What the check says of a file: facts, or number and place.
fn said(file: &[u8]) -> Result<TableFacts, (u8, usize)> {
    match check(file) {
        Answer::Facts(facts) => Ok(facts),
        Answer::Fault(fault) => Err((fault.number, fault.place)),
    }
}

fn facts(depth: usize, leaves: usize, digits: usize, pairs: usize) -> TableFacts {
    TableFacts {
        depth,
        leaves,
        digits,
        pairs,
    }
}

#[test]
fn tables_of_each_degree() {
    assert_eq!(said(&bin_of(3).write()), Ok(facts(2, 13, 3, 65)));
    assert_eq!(said(&bin_of(4).write()), Ok(facts(2, 13, 3, 65)));
    assert_eq!(bin_of(3).write().len(), 20 + 12 + 18 + 30 + 130 + 23);
    assert_eq!(bin_of(4).write().len(), 20 + 16 + 24 + 40 + 156 + 23);
    // ω³ = ω and β = 1 + 2ω², so that β·ω² = 3ω². Its other conjugate is 1.
    let tern = times(&[0, 0, 1], &[0, 1, 0, 1, 0, 2], carried::tern_parts());
    assert_eq!(said(&tern.write()), Ok(facts(1, 9, 5, 81)));
    // (ω − 2)(ω² − 4ω + 5) = 0, so that β = −3 + 4ω − ω² times a multiple of 2 − ω is twice it.
    let bin = times(&[2, -1, 0], &[6, -13, 10, -3, 4, -1], carried::bin_parts());
    assert_eq!(said(&bin.write()), Ok(facts(2, 13, 3, 65)));
    // The parts of ω³ the other way round are another ring.
    let bin = times(&[2, -1, 0], &[10, -13, 6, -3, 4, -1], carried::bin_parts());
    assert_eq!(said(&bin.write()), Err((14, 2)));
}

#[test]
fn section_0_tells_the_degree() {
    for degree in DEGREES {
        let sections = match degree {
            2 => carried::bin_parts().sections(),
            _ => bin_of(degree).sections(),
        };
        for length in (0..=24).filter(|length| *length != 4 * degree) {
            let mut other = sections.clone();
            other[0].resize(length, 0);
            let (number, place) = said(&assemble(&other)).unwrap_err();
            let known = [8, 12, 16].contains(&length);
            assert_eq!((number, place == 0), (3, !known), "{degree} {length}");
            // What else is wrong isn't judged.
            other[1].push(0);
            other[3].truncate(5);
            let nearer = if known { 1 } else { 0 };
            assert_eq!(said(&assemble(&other)), Err((3, nearer)));
        }
    }
}

#[test]
fn records_have_the_degrees_parts() {
    for degree in 3..=4 {
        let sections = bin_of(degree).sections();
        let record = [0, 2 * degree, 2 * degree, 4 + 2 * degree, 1];
        let most = [1, 16, 136, 4_000, 32_000];
        for section in 1..=3 {
            let of_length = |length: usize| {
                let mut other = sections.clone();
                other[section].resize(length, 0);
                said(&assemble(&other)).unwrap_err().0
            };
            let whole = sections[section].len();
            assert_eq!(of_length(whole + 2), 3);
            assert_eq!(of_length(whole - 4), 3);
            assert_ne!(of_length(whole - record[section]), 3);
            assert_ne!(of_length(most[section] * record[section]), 3);
            assert_eq!(of_length((most[section] + 1) * record[section]), 3);
            assert_eq!(of_length(0), 3);
        }
    }
}

#[test]
fn sizes_of_numbers() {
    for degree in DEGREES {
        let parts = match degree {
            2 => carried::bin_parts(),
            _ => bin_of(degree),
        };
        let base = if degree == 4 { 32 } else { 64 };
        let (element, leaf) = (2 * degree, 4 + 2 * degree);
        let starts = [0, 4 * degree, 4 * degree + 3 * element];
        let leaves = starts[2] + 5 * element;
        for part in 0..degree {
            let places = [
                (2 * part, base),
                (2 * (degree + part), base),
                (starts[1] + element + 2 * part, 64),
                (starts[2] + 4 * element + 2 * part, 128),
                (leaves + 12 * leaf + 4 + 2 * part, 1_024),
            ];
            for (place, limit) in places.map(|(place, limit)| (20 + place, limit)) {
                let with = |number: i16| {
                    let mut file = parts.write();
                    file[place..place + 2].copy_from_slice(&number.to_le_bytes());
                    said(&file).err()
                };
                for over in [limit + 1, -limit - 1, i16::MIN] {
                    assert_eq!(with(over), Some((4, place)), "degree {degree}");
                }
                for within in [limit, -limit] {
                    assert_ne!(with(within).map(|(number, _)| number), Some(4));
                }
            }
        }
        // A leaf's offset and length have no limit here.
        let mut file = parts.write();
        file[20 + leaves + leaf + 3] = 0x7f;
        assert_eq!(said(&file), Err((9, 1)));
    }
}

#[test]
fn rules_5_and_6() {
    let numbers = |base: &[i16]| {
        let unit = vec![1; base.len() / 2];
        said(&times(&unit, base, carried::bin_parts()).write())
    };
    // At degree two 0, 4 and 9 are squares; the same numbers pass beyond it.
    for (s, t) in [(0, 0), (0, 1), (1, 2)] {
        assert_eq!(numbers(&[s, t, 2, 0]), Err((5, 0)));
        assert!(numbers(&[s, t, 0, 2, 0, 0]).is_ok());
        assert!(numbers(&[s, t, 0, 0, 2, 0, 0, 0]).is_ok());
    }
    for (u, broken) in [(-2, false), (-1, true), (0, true), (1, true), (2, false)] {
        assert_eq!(numbers(&[0, 0, 0, u, 0, 0]) == Err((6, 0)), broken);
        assert_eq!(numbers(&[0, 0, 0, 0, u, 0, 0, 0]) == Err((6, 0)), broken);
    }
    // The determinant alone counts: −1 is a conjugate of β = ω here, and −2 the determinant.
    assert_eq!(numbers(&[0, 3, -2, 0, 1, 0]), Err((14, 2)));
}

#[test]
fn every_part_of_a_record_counts() {
    for degree in 3..=4 {
        let at = |change: fn(&mut Parts, usize)| {
            let mut parts = bin_of(degree);
            change(&mut parts, degree - 1);
            said(&parts.write()).err()
        };
        assert_eq!(at(|parts, last| parts.alphabet[0][last] = 1), Some((7, 0)));
        assert_eq!(at(|parts, last| parts.inputs[0][last] = 1), Some((8, 0)));
        assert_eq!(at(|parts, last| parts.leaves[0].1[last] = 1), Some((13, 0)));
        assert_eq!(
            at(|parts, last| parts.leaves[12].1[last] = 0),
            Some((14, 0))
        );
        // −1 with another last part is no repeat, and its sums are missing.
        assert_eq!(at(|parts, last| parts.alphabet[2][last] = 1), Some((8, 5)));
    }
}

#[test]
fn weights_of_three_parts_are_converted() {
    let reading = read(&three_carries().write());
    // With words of three digits the two below a leaf's first name nine leaves.
    let facts = facts(3, 729, 5, 9 * 729);
    assert_eq!(by_table::check(&reading), Answer::Facts(facts));
    let value = |row: &[u8]| match by_table::value(&reading, row) {
        Answer::Facts(value) => value,
        Answer::Fault(fault) => panic!("{fault:?}"),
    };
    // 1 + 2ω − ω² + ω³, which is 3 more than without the last.
    assert_eq!(value(&[1, 2, 3, 1]), Element::new([4, 2, -1]));
    let (first, second) = ([2, 4, 2, 1, 2], [2, 3, 1, 1, 2]);
    for (operation, sign) in [(Operation::Sum, 1), (Operation::Difference, -1)] {
        let mut out = [99; 9];
        let answer = by_table::combine(operation, &reading, &first, &second, &mut out);
        let written = RowFacts {
            written: 8,
            reach: 3,
        };
        assert_eq!(answer, Answer::Facts(written));
        assert_eq!(out[8], 99);
        let parts = value(&first).parts;
        let with: Vec<i64> = parts
            .iter()
            .zip(&value(&second).parts)
            .map(|(x, y)| x + sign * y)
            .collect();
        assert_eq!(value(&out[..8]), Element::new(with));
    }
}

#[test]
fn rule_28_looks_at_every_part() {
    let number = |unit: &[i16], length| {
        let mut base = vec![0; 2 * unit.len()];
        base[unit.len()] = 2;
        let parts = times(unit, &base, carried::bin_parts());
        match by_table::value(&read(&parts.write()), &vec![1; length]) {
            Answer::Facts(value) => Ok(value),
            Answer::Fault(fault) => Err((fault.group, fault.number, fault.place)),
        }
    };
    let most = i64::from(i32::MAX);
    for unit in [&[0, 0, 1][..], &[0, 0, 0, 1], &[1, 1, -1, 1]] {
        let whole: Vec<i64> = unit.iter().map(|part| i64::from(*part) * most).collect();
        assert_eq!(number(unit, 31), Ok(Element::new(whole)));
        assert_eq!(number(unit, 32), Err((Group::Rows, 28, 0)));
        assert_eq!(number(unit, 40), Err((Group::Rows, 28, 8)));
    }
}
