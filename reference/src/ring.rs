//! The ring ℤ[ω] of degree two, three or four, and the base ("Ring and base", job 8).

use crate::element::Element;

/// The ring: ω^d as an element of it, where d is the degree. At degree two these are the parts t and s.
#[derive(Clone, Debug, PartialEq, Eq)]
pub struct Ring {
    power: Element,
}

impl Ring {
    pub fn new(power: Element) -> Self {
        Ring { power }
    }

    pub fn degree(&self) -> usize {
        self.power.parts.len()
    }

    /// ω^d's parts, lowest first.
    pub fn power(&self) -> &[i64] {
        &self.power.parts
    }

    /// The product: that of two polynomials in ω, whose powers from ω^d on are then replaced, the highest first.
    pub fn product(&self, x: &Element, y: &Element) -> Element {
        let degree = self.degree();
        let mut long = vec![0; 2 * degree - 1];
        for (i, p) in x.parts.iter().enumerate() {
            for (k, q) in y.parts.iter().enumerate() {
                long[i + k] += p * q;
            }
        }
        for high in (degree..long.len()).rev() {
            let count = long[high];
            for (low, part) in self.power.parts.iter().enumerate() {
                long[high - degree + low] += count * part;
            }
        }
        long.truncate(degree);
        Element::new(long)
    }

    /// ω to a power below d.
    pub fn omega(&self, power: usize) -> Element {
        let mut element = Element::zero(self.degree());
        element.parts[power] = 1;
        element
    }
}

/// The base β of a numeration system, in its ring.
#[derive(Clone, Debug, PartialEq, Eq)]
pub struct Base {
    pub ring: Ring,
    pub beta: Element,
}

impl Base {
    /// From the numbers of section 0: the parts of ω^d, highest power first, then those of β, lowest first.
    pub fn of(numbers: &[i16]) -> Self {
        let (power, beta) = numbers.split_at(numbers.len() / 2);
        let mut power = Element::of(power);
        power.parts.reverse();
        Base {
            ring: Ring::new(power),
            beta: Element::of(beta),
        }
    }

    /// The numbers of section 0.
    pub fn numbers(&self) -> Vec<i16> {
        let mut numbers = self.ring.power.record();
        numbers.reverse();
        numbers.extend(self.beta.record());
        numbers
    }

    pub fn degree(&self) -> usize {
        self.ring.degree()
    }

    /// β times an element.
    pub fn times(&self, x: &Element) -> Element {
        self.ring.product(&self.beta, x)
    }

    /// Multiplication by β as a matrix: row k has the parts of β·ω^k.
    pub fn matrix(&self) -> Vec<Vec<i64>> {
        let row = |power| self.times(&self.ring.omega(power)).parts;
        (0..self.degree()).map(row).collect()
    }

    /// Rule 5 objects, at degree two only: the discriminant of ω, s² + 4t, is a perfect square. It is below 66² within the size limits.
    pub fn splits(&self) -> bool {
        let [t, s] = self.ring.power.parts[..] else {
            return false;
        };
        (0..=66).any(|root| root * root == s * s + 4 * t)
    }

    /// Rule 6 has nothing against the base: at degree two it is expanding, at three and four the determinant of multiplication by it is
    /// neither −1 nor 0 nor 1.
    pub fn passes(&self) -> bool {
        match self.degree() {
            2 => self.expanding(),
            _ => !(-1..=1).contains(&determinant(self.matrix())),
        }
    }

    /// At degree two, T and N: the base's trace and norm, so that its conjugates are the roots of x² − T·x + N.
    pub fn trace_and_norm(&self) -> (i64, i64) {
        let [t, s] = self.ring.power.parts[..] else {
            panic!("degree two");
        };
        let (u, v) = (self.beta.parts[0], self.beta.parts[1]);
        (2 * u + s * v, u * u + s * u * v - t * v * v)
    }

    /// At degree two, all conjugates lie above 1 in modulus, judged by where the roots of x² − T·x + N are; a test below tries this
    /// against the paper's form, |N| ≥ 2 and |T| < |N + 1|.
    fn expanding(&self) -> bool {
        let (trace, norm) = self.trace_and_norm();
        roots_outside_unit_circle(trace, norm)
    }
}

fn roots_outside_unit_circle(trace: i64, norm: i64) -> bool {
    if trace * trace < 4 * norm {
        // Two complex conjugates: the norm is the square of their modulus.
        return norm > 1;
    }
    let at_one = 1 - trace + norm;
    let at_minus_one = 1 + trace + norm;
    let both_above = at_one > 0 && trace > 2;
    let both_below = at_minus_one > 0 && trace < -2;
    let one_on_each_side = at_one < 0 && at_minus_one < 0;
    both_above || both_below || one_on_each_side
}

/// The determinant, by elimination without fractions (Bareiss): after each step the entries that are left are determinants of parts of
/// the matrix, so that the division by the last pivot but one has no remainder.
pub fn determinant(matrix: Vec<Vec<i64>>) -> i128 {
    let widen = |row: Vec<i64>| row.into_iter().map(i128::from).collect();
    let mut rows: Vec<Vec<i128>> = matrix.into_iter().map(widen).collect();
    let size = rows.len();
    let (mut sign, mut before) = (1, 1);
    for step in 0..size {
        let Some(found) = (step..size).find(|row| rows[*row][step] != 0) else {
            return 0;
        };
        if found != step {
            rows.swap(found, step);
            sign = -sign;
        }
        let pivot = rows[step].clone();
        for row in &mut rows[step + 1..] {
            let head = row[step];
            for (entry, above) in row.iter_mut().zip(&pivot) {
                *entry = (*entry * pivot[step] - head * above) / before;
            }
        }
        before = pivot[step];
    }
    sign * before
}

#[cfg(test)]
mod tests {
    use super::*;

    #[test]
    fn roots_agree_with_the_papers_form() {
        for trace in -400i64..=400 {
            for norm in -400i64..=400 {
                let paper = norm.abs() >= 2 && trace.abs() < (norm + 1).abs();
                assert_eq!(
                    roots_outside_unit_circle(trace, norm),
                    paper,
                    "{trace} {norm}"
                );
            }
        }
    }

    #[test]
    fn marked_exercises_one_to_six() {
        let base = |numbers: [i16; 4]| Base::of(&numbers);
        let e = |a, b| Element::new([a, b]);
        assert_eq!(base([0, -1, -1, 1]).times(&e(1, 1)), e(-2, 0));
        assert_eq!(base([-1, -1, 1, 1]).times(&e(1, 1)), e(0, 1));
        assert!(base([0, -1, -1, 1]).passes());
        assert!(!base([0, 2, 2, 1]).passes());
        assert!(base([0, 2, 0, 1]).passes());
        assert!(!base([0, 2, 1, 1]).passes());
    }

    /// Numbers of section 0 that look like any others, from a small generator of its own.
    fn bases(degree: usize, limit: i64) -> impl Iterator<Item = Base> {
        let mut state = 9_u64;
        let mut number = move || {
            state = state.wrapping_mul(6_364_136_223_846_793_005) + 1_442_695_040_888_963_407;
            ((state >> 33) as i64 % (2 * limit + 1) - limit) as i16
        };
        let base = move |_| -> Base {
            let numbers: Vec<i16> = (0..2 * degree).map(|_| number()).collect();
            Base::of(&numbers)
        };
        (0..500).map(base)
    }

    /// The sum over all ways to take one entry of each row and column, each with the sign of its order.
    fn by_permutations(rows: &[Vec<i64>], free: &[usize]) -> i128 {
        let Some((row, rest)) = rows.split_first() else {
            return 1;
        };
        let of_column = |(at, column): (usize, &usize)| {
            let mut others = free.to_vec();
            others.remove(at);
            let sign = if at % 2 == 0 { 1 } else { -1 };
            sign * i128::from(row[*column]) * by_permutations(rest, &others)
        };
        free.iter().enumerate().map(of_column).sum()
    }

    #[test]
    fn determinants_agree_with_the_sum_over_permutations() {
        for (degree, limit) in [(2, 64), (3, 64), (4, 32), (3, 1), (4, 1), (4, 2)] {
            let columns: Vec<usize> = (0..degree).collect();
            for base in bases(degree, limit) {
                let matrix = base.matrix();
                let sum = by_permutations(&matrix, &columns);
                assert_eq!(determinant(matrix), sum, "{base:?}");
                if degree == 2 {
                    assert_eq!(sum, base.trace_and_norm().1.into());
                }
            }
        }
        assert_eq!(determinant(vec![vec![0, 1], vec![1, 0]]), -1);
        assert_eq!(determinant(vec![vec![0, 0], vec![1, 7]]), 0);
    }

    /// The laws of the ring, and ω^d as section 0 has it.
    #[test]
    fn products_keep_the_laws() {
        for degree in 2..=4 {
            for (base, other) in bases(degree, 5).zip(bases(degree, 4).skip(7)) {
                let ring = &base.ring;
                let (x, y, z) = (&base.beta, &other.beta, &other.ring.power);
                assert_eq!(ring.product(x, y), ring.product(y, x));
                let (left, right) = (ring.product(x, y), ring.product(y, z));
                assert_eq!(ring.product(&left, z), ring.product(x, &right));
                assert_eq!(ring.product(x, &(y + z)), &left + &ring.product(x, z));
                assert_eq!(ring.product(x, &ring.omega(0)), *x);
                let top = ring.product(&ring.omega(1), &ring.omega(degree - 1));
                assert_eq!(top, ring.power);
                assert_eq!(Base::of(&base.numbers()), base);
                let by = |beta| {
                    let ring = ring.clone();
                    determinant(Base { ring, beta }.matrix())
                };
                assert_eq!(by(left), by(x.clone()) * by(y.clone()));
            }
        }
    }

    #[test]
    fn rule_6_beyond_degree_two() {
        let passes = |numbers: &[i16]| Base::of(numbers).passes();
        // β = ω, whose determinant is the last part of ω³, and that of ω⁴ with the other sign.
        for last in -3..=3 {
            let allowed = i16::abs(last) > 1;
            assert_eq!(passes(&[5, -7, last, 0, 1, 0]), allowed);
            assert_eq!(passes(&[5, -7, 3, last, 0, 1, 0, 0]), allowed);
        }
        // Conjugates 1, 3 and 3: not expanding, determinant 9.
        assert!(passes(&[0, 1, 0, 1, 0, 2]));
        assert!(!passes(&[0, 0, 0, -1, 0, 0]));
        assert!(passes(&[0, 0, 0, 2, 1, 1]));
    }
}
