//! Directed damage: for each refusal number of the table's author, ways to break that rule. Here are those of the file, its sections
//! and its base.

use reference::ring::determinant;
use reference::{assemble, Base};

use crate::digit_damage;
use crate::draft::Draft;
use crate::leaf_damage;
use crate::random::Random;

/// The author's refusal numbers that damage can be directed at.
pub const NUMBERS: [u8; 14] = [1, 2, 3, 4, 5, 6, 7, 8, 9, 10, 11, 12, 13, 14];

/// Breaks a rule of the table's author, or tries to.
pub fn damage(draft: &mut Draft, number: u8, random: &mut Random) {
    match number {
        1 => draft.length = Some(random.pick(&[0, 1, 4, 18, 19, 65_536, 65_537, 70_000])),
        2 => directory(draft, random),
        3 => section_length(draft, random),
        4 => size(draft, random),
        5 | 6 if draft.degree == 2 => base(draft, number == 6, random),
        5 => square(draft, random),
        6 => small_determinant(draft, random),
        7 => digit_damage::record(draft, 1, random),
        8 => digit_damage::inputs(draft, random),
        9 => leaf_damage::places_of_words(draft, random),
        10 => leaf_damage::foreign_index(draft, random),
        11 => leaf_damage::order(draft, random),
        12 => leaf_damage::missing_leaf(draft, random),
        13 => leaf_damage::leaf_0(draft, random),
        _ => leaf_damage::weight(draft, random),
    }
}

/// A directory number changed, or bytes missing or left over at the end.
fn directory(draft: &mut Draft, random: &mut Random) {
    if random.one_in(4) {
        let length = assemble(&draft.sections).len();
        let by = random.pick(&[1, 2, 4, 8, 100]);
        let cut = length.saturating_sub(by).max(20);
        draft.length = Some(if random.one_in(2) { length + by } else { cut });
        return;
    }
    let number = random.below(10);
    let file = assemble(&draft.sections);
    let old = u16::from_le_bytes([file[2 * number], file[2 * number + 1]]);
    let new = match random.below(5) {
        0 => old.wrapping_add(1),
        1 => old.wrapping_sub(1),
        2 => old.wrapping_add(4),
        3 => random.pick(&[0, 19, 20, 21, 28, 32_768, 65_535]),
        _ => random.next() as u16,
    };
    draft.directory.push((number, new));
}

/// A section of another length, the directory telling the truth about it.
fn section_length(draft: &mut Draft, random: &mut Random) {
    if random.one_in(5) {
        return other_degree(draft, random);
    }
    let section = random.pick(&[0, 0, 1, 2, 3, 4]);
    let old = draft.sections[section].len();
    let record = draft.record(section);
    let new = match random.below(3) {
        0 => old + random.pick(&[1, 2, 3, 4, 6, 8]),
        1 => old.saturating_sub(random.pick(&[1, 2, 3, 4, 6, 8])),
        _ => match section {
            0 => random.pick(&[0, 4, 7, 8, 9, 10, 11, 12, 13, 14, 15, 16, 17, 20, 24]),
            1 => record * random.pick(&[0, 1, 2, 16, 17]),
            2 => record * random.pick(&[0, 1, 136, 137]),
            3 => record * random.pick(&[0, 1, 4_000, 4_001]),
            _ => random.pick(&[0, 1, 32_000, 32_001]),
        },
    };
    let filler = draft.sections[section].first().copied().unwrap_or(0);
    draft.sections[section].resize(new, filler);
}

/// A base section that tells another degree than the records have; often the others are cut to whole records of that degree.
fn other_degree(draft: &mut Draft, random: &mut Random) {
    let degree = random.pick(&[2, 3, 4]);
    draft.sections[0].resize(4 * degree, 0);
    if random.one_in(2) {
        draft.degree = degree;
        for section in 1..=3 {
            let whole = draft.records(section) * draft.record(section);
            draft.sections[section].resize(whole, 0);
        }
    }
}

/// A signed number just outside its limits, or far outside, or just inside; in the base section also by another degree's limits.
fn size(draft: &mut Draft, random: &mut Random) {
    let section = random.pick(&[0, 0, 1, 2, 3]);
    let own = if draft.degree == 4 { 32 } else { 64 };
    let limit = match section {
        0 => random.pick(&[own, own, 32, 64]),
        _ => [64, 64, 128, 1_024][section],
    };
    let at = match section {
        3 => leaf_damage::part_of(random.below(draft.records(3)), draft, random),
        _ => 2 * random.below((draft.sections[section].len() / 2).max(1)),
    };
    let value = random.pick(&[
        limit + 1,
        -limit - 1,
        limit + 1,
        limit,
        -limit,
        i16::MAX,
        i16::MIN,
    ]);
    draft.set(section, at, value);
}

fn set_base(draft: &mut Draft, numbers: &[i16]) {
    for (index, value) in numbers.iter().enumerate() {
        draft.set(0, 2 * index, *value);
    }
}

/// The numbers of the base section as they are now.
fn base_numbers(draft: &Draft) -> Vec<i16> {
    let numbers = 0..2 * draft.degree;
    numbers.map(|at| draft.get(0, 2 * at) as i16).collect()
}

/// Another base of degree two: in a ring that isn't one of ours, or one that isn't expanding.
fn base(draft: &mut Draft, keep_ring: bool, random: &mut Random) {
    let mut numbers = base_numbers(draft);
    loop {
        let reach = random.pick(&[2, 8, 64]);
        numbers[0] = random.between(-reach, reach) as i16;
        numbers[1] = random.between(-reach, reach) as i16;
        if keep_ring {
            numbers[2] = random.between(-reach, reach) as i16;
            numbers[3] = random.between(-2, 2) as i16;
        }
        let base = Base::of(&numbers);
        let wanted = match keep_ring {
            true => !base.splits() && !base.passes(),
            false => base.splits(),
        };
        if wanted {
            return set_base(draft, &numbers);
        }
    }
}

/// Beyond degree two: first numbers that rule 5 would refuse there.
fn square(draft: &mut Draft, random: &mut Random) {
    let mut numbers = base_numbers(draft);
    loop {
        numbers[0] = random.between(-6, 6) as i16;
        numbers[1] = random.between(-9, 16) as i16;
        let at_degree_two = Base::of(&[numbers[0], numbers[1], 2, 0]);
        if at_degree_two.splits() {
            return set_base(draft, &numbers);
        }
    }
}

/// Beyond degree two: a base of a small determinant, mostly one that rule 6 refuses, in the same ring if that is soon found.
fn small_determinant(draft: &mut Draft, random: &mut Random) {
    let wanted = random.pick(&[-2, -1, -1, 0, 1, 1, 2]);
    let mut numbers = base_numbers(draft);
    for tried in 0.. {
        let changed = if tried < 100 { draft.degree } else { 0 };
        for number in &mut numbers[changed..] {
            *number = random.between(-2, 2) as i16;
        }
        if determinant(Base::of(&numbers).matrix()) == wanted {
            return set_base(draft, &numbers);
        }
    }
}
