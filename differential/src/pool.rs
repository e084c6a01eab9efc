//! The tables of a run.

use reference::{carried, Parts, DEGREES};

use crate::codes::{self, depth, MOST_LEAVES};
use crate::lifts;
use crate::mirrors;
use crate::pairs;
use crate::random::Random;
use crate::search;

/// Tables by their degree.
pub struct Shelf {
    pub degrees: [Vec<Parts>; 3],
}

impl Shelf {
    fn of(tables: Vec<Parts>) -> Self {
        let mut degrees: [Vec<Parts>; 3] = Default::default();
        for parts in tables {
            degrees[parts.degree() - 2].push(parts);
        }
        Shelf { degrees }
    }

    /// One of the tables.
    pub fn pick(&self, random: &mut Random) -> &Parts {
        let degree = random_degree(random);
        let of_degree = match &self.degrees[degree - 2][..] {
            [] => &self.degrees[0][..],
            tables => tables,
        };
        &of_degree[random.below(of_degree.len())]
    }

    pub fn all(&self) -> impl Iterator<Item = &Parts> {
        self.degrees.iter().flatten()
    }

    pub fn count(&self) -> usize {
        self.all().count()
    }
}

/// A degree, two in half of the cases.
pub fn random_degree(random: &mut Random) -> usize {
    match random.one_in(4) {
        true => 2,
        false => random.pick(&DEGREES),
    }
}

/// The tables of a run.
pub struct Pool {
    /// Ones that are accepted: found by the search, with input digits beyond the sums too, the two carried ones, and what becomes of them
    /// in larger rings.
    pub tables: Shelf,
    /// Those of them that are at most two deep.
    pub shallow: Shelf,
    /// Ones with a single pair of leaves that rule 14 refuses.
    pub single_pairs: Shelf,
    /// Ones where that pair is a leaf with itself.
    pub self_pairs: Shelf,
    /// Accepted ones that are mirrored.
    pub mirrored: Shelf,
}

/// How many tables the search looks for: ones whose input digits are the sums, and ones with further digits.
const TABLES: usize = 60;
const FURTHER_TABLES: usize = 40;
/// How many of each larger degree are made of them.
const LIFTS: usize = 40;
/// How many of degree three, which aren't made of smaller ones.
const CUBIC: usize = 4;
/// How many mirrored ones of each degree.
const MIRRORED: usize = 30;

impl Pool {
    pub fn new(seed: u64) -> Self {
        let mut random = Random::new(seed);
        let mut tables = search::tables(TABLES, false, &mut random);
        tables.extend(search::tables(FURTHER_TABLES, true, &mut random));
        tables.extend([carried::tern_parts(), carried::bin_parts()]);
        let lifts = [3, 4].map(|degree| lifts::tables(degree, LIFTS, &tables, &mut random));
        tables.extend(lifts.concat());
        for parts in search::cubic_tables(CUBIC, &mut random) {
            tables.extend(lifts::moved(&parts, &mut random));
            tables.push(parts);
        }
        let few_inputs = tables.iter().filter(|parts| parts.inputs.len() <= 20);
        let spread: Vec<Parts> = few_inputs
            .map(|parts| pairs::above_zeros(parts, &mut random))
            .collect();
        tables.extend(spread);
        let mut refused = |itself| -> Vec<Parts> {
            let small = tables.iter().filter(|parts| parts.leaves.len() <= 300);
            small
                .filter_map(|parts| pairs::single(parts, itself, &mut random))
                .collect()
        };
        let (single_pairs, self_pairs) = (refused(false), refused(true));
        let shallow = tables.iter().filter(|parts| depth(parts) <= 2).cloned();
        let mirrored = mirrors::tables(MIRRORED, &mut random);
        Pool {
            mirrored: Shelf::of(mirrored),
            single_pairs: Shelf::of(single_pairs),
            self_pairs: Shelf::of(self_pairs),
            shallow: Shelf::of(shallow.collect()),
            tables: Shelf::of(tables),
        }
    }

    /// The number of different bases.
    pub fn bases(&self) -> usize {
        let mut bases: Vec<&[i16]> = self.tables.all().map(|parts| &parts.base[..]).collect();
        bases.sort();
        bases.dedup();
        bases.len()
    }

    /// How many tables there are of each depth from 1 to 8.
    pub fn depths(&self) -> [usize; 8] {
        let of_depth = |wanted| {
            let tables = self.tables.all();
            tables.filter(|parts| depth(parts) == wanted).count()
        };
        [1, 2, 3, 4, 5, 6, 7, 8].map(of_depth)
    }

    /// A table of the pool, often with a finer code, seldom with a very fine one.
    pub fn accepted(&self, random: &mut Random) -> Parts {
        let mut parts = self.tables.pick(random).clone();
        let most_leaves = match random.below(200) {
            0 => random.between(1_000, MOST_LEAVES as i64) as usize,
            1 if parts.degree() > 2 => MOST_LEAVES,
            1..=40 => parts.leaves.len() + random.below(150),
            _ => return parts,
        };
        codes::refine(&mut parts, most_leaves, random);
        parts
    }
}
