//! Numeration systems of every degree: bases and digit sets of random shapes.

use std::collections::BTreeSet;

use reference::ring::determinant;
use reference::{Base, Element, Operation};

use crate::random::Random;

/// The most input records (rule 3), and the largest part of one (rule 4).
const MOST_INPUTS: usize = 136;
const LARGEST_INPUT: i64 = 128;

/// A numeration system: a base and a digit set, zero first in both lists.
pub struct System {
    pub base: Base,
    pub alphabet: Vec<Element>,
    pub inputs: Vec<Element>,
}

/// A base that passes 5 and 6 with a digit set of a random shape.
pub fn random_system(degree: usize, random: &mut Random) -> System {
    let base = random_base(degree, random);
    let alphabet = random_alphabet(degree, random);
    let inputs = sums(&alphabet, random);
    System {
        base,
        alphabet,
        inputs,
    }
}

/// A base with so small a determinant that some digit set may have all classes modulo it.
fn random_base(degree: usize, random: &mut Random) -> Base {
    let reach = random.pick(&[2, 3, 3, 4, 6]);
    loop {
        let base = Base::of(&base_numbers(degree, reach, random));
        let small = (-12..=12).contains(&determinant(base.matrix()));
        if small && !base.splits() && base.passes() {
            return base;
        }
    }
}

/// Numbers of section 0. Beyond degree two β is often ω itself or a whole number and ω.
fn base_numbers(degree: usize, reach: i64, random: &mut Random) -> Vec<i16> {
    let mut number = |reach: i64| random.between(-reach, reach) as i16;
    if degree == 2 {
        return vec![number(3), number(reach), number(reach), number(2)];
    }
    let mut numbers: Vec<i16> = (1..degree).map(|_| number(2)).collect();
    numbers.push(number(reach));
    let mut beta: Vec<i16> = (0..degree).map(|_| number(1)).collect();
    match random.below(4) {
        0 => (),
        1 => {
            beta.fill(0);
            beta[0] = random.between(-2, 2) as i16;
            beta[1] = random.pick(&[-1, 1]);
        }
        _ => {
            beta.fill(0);
            beta[1] = 1;
        }
    }
    numbers.extend(beta);
    numbers
}

/// Zero, then a run of whole numbers, a box or the smallest elements; 2 to 16 of them in random order.
fn random_alphabet(degree: usize, random: &mut Random) -> Vec<Element> {
    let mut rest: Vec<Element> = match random.below(4) {
        0 => {
            let reach = random.between(1, 7);
            whole_numbers(-reach, reach, degree)
        }
        1 => {
            let (low, high) = (random.between(-7, 0), random.between(1, 8));
            whole_numbers(low, high, degree)
        }
        2 => {
            let (wide, high) = random.pick(&[(1, 1), (2, 1), (1, 2)]);
            grid(wide, high, degree)
        }
        _ => smallest(degree, random),
    };
    rest.retain(|digit| !digit.is_zero());
    random.shuffle(&mut rest);
    rest.truncate(15);
    rest.insert(0, Element::zero(degree));
    rest
}

/// A whole number as an element.
fn whole(number: i64, degree: usize) -> Element {
    let mut element = Element::zero(degree);
    element.parts[0] = number;
    element
}

/// A run of whole numbers, zero first.
pub fn whole_numbers(low: i64, high: i64, degree: usize) -> Vec<Element> {
    let mut run: Vec<Element> = (low..=high).map(|number| whole(number, degree)).collect();
    run.sort_by_key(|element| !element.is_zero());
    run
}

/// The elements with small parts of 1 and ω, and with no others.
pub fn grid(wide: i64, high: i64, degree: usize) -> Vec<Element> {
    let cell = |a, b| {
        let mut element = whole(a, degree);
        element.parts[1] = b;
        element
    };
    let column = |a| (-high..=high).map(move |b| cell(a, b));
    (-wide..=wide).flat_map(column).collect()
}

/// Some elements of least size, by one of several measures.
fn smallest(degree: usize, random: &mut Random) -> Vec<Element> {
    let (p, q) = (random.between(1, 3), random.between(-1, 1));
    let mut all = grid(4, 4, degree);
    for part in 2..degree {
        let with = |element: &Element, number| {
            let mut other = element.clone();
            other.parts[part] = number;
            other
        };
        let copies = |element: &Element| [-1, 0, 1].map(|number| with(element, number));
        all = all.iter().flat_map(copies).collect();
    }
    all.sort_by_key(|element| {
        let (a, b) = (element.parts[0], element.parts[1]);
        let others: i64 = element.parts[2..].iter().map(|part| part * part).sum();
        (
            a * a * 2 + b * b * p + a * b * q + 2 * others,
            element.clone(),
        )
    });
    all.truncate(random.between(3, 16) as usize);
    all
}

/// The sums of two digits, each once, zero first and the others in random order.
pub fn sums(alphabet: &[Element], random: &mut Random) -> Vec<Element> {
    let of_digit = |x| Operation::Sum.with_each(x, alphabet);
    let set: BTreeSet<Element> = alphabet.iter().flat_map(of_digit).collect();
    let mut list: Vec<Element> = set.into_iter().filter(|sum| !sum.is_zero()).collect();
    random.shuffle(&mut list);
    list.insert(0, alphabet[0].clone());
    list
}

/// Input digits beyond the sums, which rule 8 lets stand anywhere behind record 0: the differences that are missing, so that no pair
/// gets 42, or some of them, or small elements, seldom as many as there may be. True if there are any.
pub fn add_further(system: &mut System, random: &mut Random) -> bool {
    let sums = system.inputs.len();
    let mut further = further_digits(&system.alphabet, random);
    further.retain(|digit| !system.inputs.contains(digit));
    system.inputs.extend(further);
    system.inputs.truncate(MOST_INPUTS);
    if !random.one_in(4) {
        random.shuffle(&mut system.inputs[1..]);
    }
    system.inputs.len() > sums
}

/// Elements to choose further digits from, each once, in random order.
fn further_digits(alphabet: &[Element], random: &mut Random) -> Vec<Element> {
    let degree = alphabet[0].parts.len();
    let differences = || -> Vec<Element> {
        let of_digit = |x| Operation::Difference.with_each(x, alphabet);
        let set: BTreeSet<Element> = alphabet.iter().flat_map(of_digit).collect();
        set.into_iter().collect()
    };
    let few = 1 + random.below(6);
    let (mut choices, most) = match random.below(16) {
        0..=6 => (differences(), MOST_INPUTS),
        7..=9 => (differences(), few),
        10..=14 => (grid(8, 2, degree), few),
        _ => (grid(LARGEST_INPUT, 1, degree), MOST_INPUTS),
    };
    random.shuffle(&mut choices);
    choices.truncate(most);
    choices
}
