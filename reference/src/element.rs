//! The elements of ℤ[ω] as lists of their parts, and what is done to two of them.

use std::ops::{Add, Neg, Sub};

/// An element: its parts, that of 1 first, then those of ω, ω² and so on, as many as the ring's degree. Elements of different degrees
/// never meet.
#[derive(Clone, Debug, PartialEq, Eq, PartialOrd, Ord, Hash)]
pub struct Element {
    pub parts: Vec<i64>,
}

impl Element {
    pub fn new(parts: impl Into<Vec<i64>>) -> Self {
        let parts = parts.into();
        Element { parts }
    }

    /// Zero in a ring of some degree.
    pub fn zero(degree: usize) -> Self {
        Element::new(vec![0; degree])
    }

    pub fn is_zero(&self) -> bool {
        self.parts.iter().all(|part| *part == 0)
    }

    /// The element of a record's numbers.
    pub fn of(record: &[i16]) -> Self {
        let parts: Vec<i64> = record.iter().map(|part| i64::from(*part)).collect();
        Element::new(parts)
    }

    /// Its numbers in a record; the parts have to be small, as those of digits and weights are.
    pub fn record(&self) -> Vec<i16> {
        self.parts.iter().map(|part| *part as i16).collect()
    }

    /// Part by part with another one of the same degree.
    fn with(&self, other: &Element, of_parts: impl Fn(i64, i64) -> i64) -> Element {
        assert_eq!(self.parts.len(), other.parts.len(), "one ring");
        let pairs = self.parts.iter().zip(&other.parts);
        let parts: Vec<i64> = pairs.map(|(x, y)| of_parts(*x, *y)).collect();
        Element::new(parts)
    }
}

impl Add for &Element {
    type Output = Element;
    fn add(self, other: &Element) -> Element {
        self.with(other, |x, y| x + y)
    }
}

impl Sub for &Element {
    type Output = Element;
    fn sub(self, other: &Element) -> Element {
        self.with(other, |x, y| x - y)
    }
}

impl Neg for &Element {
    type Output = Element;
    fn neg(self) -> Element {
        let parts: Vec<i64> = self.parts.iter().map(|part| -part).collect();
        Element::new(parts)
    }
}

/// What is done to the two digits at a place before the conversion: addition takes their sum, subtraction (job 2) the first minus the
/// second.
#[derive(Clone, Copy, Debug, PartialEq, Eq)]
pub enum Operation {
    Sum,
    Difference,
}

impl Operation {
    pub fn of(self, x: &Element, y: &Element) -> Element {
        match self {
            Operation::Sum => x + y,
            Operation::Difference => x - y,
        }
    }

    /// One digit with each of some, in their order.
    pub fn with_each<'a>(
        self,
        x: &'a Element,
        others: &'a [Element],
    ) -> impl Iterator<Item = Element> + 'a {
        others.iter().map(move |y| self.of(x, y))
    }
}
