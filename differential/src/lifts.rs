//! Tables of degree three and four made from ones of degree two: digits and weights are carried into a larger ring by an additive map
//! that turns multiplication by the old base into that by the new one. The words stay, and so does what the check says.

use reference::ring::Ring;
use reference::{Base, Element, Parts};

use crate::random::Random;
use crate::search;

/// Such a map: the new base, and what becomes of 1, ω and so on.
struct Lift {
    base: Base,
    images: Vec<Element>,
}

/// Tables of one degree, each from one of some tables.
pub fn tables(degree: usize, wanted: usize, from: &[Parts], random: &mut Random) -> Vec<Parts> {
    let mut found = Vec::new();
    let mut tries_left = 40 * wanted;
    while found.len() < wanted && tries_left > 0 {
        tries_left -= 1;
        let parts = &from[random.below(from.len())];
        found.extend(lifted(parts, degree, random));
    }
    found
}

/// A table of a degree with the same words, if the way that is tried gives it numbers within the size limits.
fn lifted(parts: &Parts, degree: usize, random: &mut Random) -> Option<Parts> {
    let base = Base::of(&parts.base);
    let lift = match random.below(4) {
        0 => whole(&base, degree, random)?,
        1 => root(parts, degree, random)?,
        2 => square(&base, degree, random)?,
        _ => factor(&base, degree, random),
    };
    let shift = random.pick(&[-1, 0, 0, 1]);
    let lifted = lift.shifted(shift).carry(parts)?;
    search::is_accepted(&lifted).then_some(lifted)
}

/// The same table in terms of ω + 1 or ω − 1, with its digits and weights times an element.
pub fn moved(parts: &Parts, random: &mut Random) -> Option<Parts> {
    let base = Base::of(&parts.base);
    let images = (0..base.degree()).map(|power| base.ring.omega(power));
    let lift = Lift {
        images: images.collect(),
        base,
    };
    let unit = small(lift.base.degree(), 1, random);
    let shift = random.pick(&[-1, 1]);
    let moved = lift.times(&unit).shifted(shift).carry(parts)?;
    search::is_accepted(&moved).then_some(moved)
}

/// A whole number as base: any two elements of any ring will do for 1 and ω.
fn whole(base: &Base, degree: usize, random: &mut Random) -> Option<Lift> {
    let mut beta = Element::zero(degree);
    beta.parts[0] = base.beta.parts[0];
    // Up to the size limits, as nothing else depends on the ring.
    let widest = if degree == 4 { 32 } else { 64 };
    let reach = random.pick(&[3, 3, widest]);
    let ring = Ring::new(small(degree, reach, random));
    let images = base.beta.parts.iter().map(|_| small(degree, 2, random));
    (base.beta.parts[1] == 0).then(|| Lift {
        images: images.collect(),
        base: Base { ring, beta },
    })
}

/// A whole number n as base and whole digits: where (ω − r)·P(ω) = 0 in the new ring, a base that is n at r acts as n on P(ω).
fn root(parts: &Parts, degree: usize, random: &mut Random) -> Option<Lift> {
    let weights = parts.leaves.iter().map(|(_, weight)| weight);
    let mut elements = parts.alphabet.iter().chain(&parts.inputs).chain(weights);
    let whole = parts.base[3] == 0 && elements.all(|element| element[1] == 0);
    let linear = [random.between(-2, 2), 1];
    let factor = monic(degree - 1, 2, random);
    let ring = ring_of(&product(&linear, &factor));
    let besides = small(degree - 1, 1, random).parts;
    let mut beta = padded(&product(&linear, &besides), degree);
    beta.parts[0] += i64::from(parts.base[2]);
    let images = vec![padded(&factor, degree), Element::zero(degree)];
    whole.then_some(Lift {
        base: Base { ring, beta },
        images,
    })
}

/// The old ω as the square of the new one, and 1 as any element.
fn square(base: &Base, degree: usize, random: &mut Random) -> Option<Lift> {
    let [t, s] = base.ring.power() else {
        return None;
    };
    let squared = Element::new([0, 0, 1, 0]);
    let ring = Ring::new(Element::new([*t, 0, *s, 0]));
    let one = small(4, 2, random);
    let beta = Element::new([base.beta.parts[0], 0, base.beta.parts[1], 0]);
    let omega = ring.product(&one, &squared);
    (degree == 4).then(|| Lift {
        base: Base { ring, beta },
        images: vec![one, omega],
    })
}

/// The old ring's polynomial times another one, P: on the multiples of P(ω) the new ω acts as the old one.
fn factor(base: &Base, degree: usize, random: &mut Random) -> Lift {
    let old = polynomial_of(&base.ring);
    let factor = monic(degree - 2, 2, random);
    let ring = ring_of(&product(&old, &factor));
    let besides = small(degree - 2, 1, random).parts;
    let zero_there = padded(&product(&old, &besides), degree);
    let beta = &padded(&base.beta.parts, degree) + &zero_there;
    let images = vec![
        padded(&factor, degree),
        padded(&product(&[0, 1], &factor), degree),
    ];
    let lift = Lift {
        base: Base { ring, beta },
        images,
    };
    match random.one_in(3) {
        true => lift.times(&small(degree, 1, random)),
        false => lift,
    }
}

impl Lift {
    /// Everything times an element.
    fn times(mut self, unit: &Element) -> Self {
        for image in &mut self.images {
            *image = self.base.ring.product(image, unit);
        }
        self
    }

    /// The same ring in terms of ω + c.
    fn shifted(self, c: i64) -> Self {
        let degree = self.base.degree();
        let shift = |x: &Element| padded(&substituted(&x.parts, c), degree);
        let polynomial = polynomial_of(&self.base.ring);
        Lift {
            images: self.images.iter().map(shift).collect(),
            base: Base {
                ring: ring_of(&substituted(&polynomial, c)),
                beta: shift(&self.base.beta),
            },
        }
    }

    /// The table, if its numbers fit into 16 bits.
    fn carry(&self, parts: &Parts) -> Option<Parts> {
        let carried = |record: &Vec<i16>| -> Option<Vec<i16>> {
            let part = |at: usize| {
                let terms = record.iter().zip(&self.images);
                let sum: i64 = terms.map(|(x, y)| i64::from(*x) * y.parts[at]).sum();
                i16::try_from(sum).ok()
            };
            (0..self.base.degree()).map(part).collect()
        };
        let all = |records: &[Vec<i16>]| records.iter().map(carried).collect::<Option<_>>();
        let leaf = |(word, weight): &(Vec<u8>, Vec<i16>)| Some((word.clone(), carried(weight)?));
        Some(Parts {
            base: self.base.numbers(),
            alphabet: all(&parts.alphabet)?,
            inputs: all(&parts.inputs)?,
            leaves: parts.leaves.iter().map(leaf).collect::<Option<_>>()?,
        })
    }
}

/// An element with small parts.
fn small(degree: usize, reach: i64, random: &mut Random) -> Element {
    let parts: Vec<i64> = (0..degree).map(|_| random.between(-reach, reach)).collect();
    Element::new(parts)
}

/// A polynomial of some degree, lowest power first, whose highest part is 1.
fn monic(degree: usize, reach: i64, random: &mut Random) -> Vec<i64> {
    let mut parts = small(degree, reach, random).parts;
    parts.push(1);
    parts
}

/// The product of two polynomials.
fn product(x: &[i64], y: &[i64]) -> Vec<i64> {
    let mut parts = vec![0; x.len() + y.len() - 1];
    for (i, p) in x.iter().enumerate() {
        for (k, q) in y.iter().enumerate() {
            parts[i + k] += p * q;
        }
    }
    parts
}

/// A polynomial in x as one in x + c.
fn substituted(polynomial: &[i64], c: i64) -> Vec<i64> {
    let top_down = polynomial.iter().rev();
    top_down.fold(Vec::new(), |so_far, part| {
        let mut next = product(&so_far, &[-c, 1]);
        next[0] += part;
        next
    })
}

/// A polynomial of low degree as an element.
fn padded(polynomial: &[i64], degree: usize) -> Element {
    let mut parts = polynomial.to_vec();
    assert!(parts.iter().skip(degree).all(|part| *part == 0));
    parts.resize(degree, 0);
    Element::new(parts)
}

/// The polynomial whose highest part is 1 and that is zero in a ring.
fn polynomial_of(ring: &Ring) -> Vec<i64> {
    let mut polynomial: Vec<i64> = ring.power().iter().map(|part| -part).collect();
    polynomial.push(1);
    polynomial
}

/// The ring in which a polynomial whose highest part is 1 is zero.
fn ring_of(polynomial: &[i64]) -> Ring {
    let (_, lower) = polynomial.split_last().expect("it has a highest part");
    let power: Vec<i64> = lower.iter().map(|part| -part).collect();
    Ring::new(Element::new(power))
}
