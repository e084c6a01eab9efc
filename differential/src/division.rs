//! Division by a base, and rows of a given value.

use reference::ring::determinant;
use reference::{Base, Element, Parts};

/// Division by β, as far as it leaves nothing over.
pub struct Division {
    /// Row k has what each part of an element adds to part k of the determinant times its quotient (Cramer's rule).
    rows: Vec<Vec<i128>>,
    determinant: i128,
}

/// The parts of the determinant times an element's quotient, whether it has one or not.
pub type Dividend = Vec<i128>;

impl Division {
    pub fn by(base: &Base) -> Self {
        let matrix = base.matrix();
        let degree = matrix.len();
        let with_unit = |k: usize, part: usize| {
            let mut other = matrix.clone();
            other[k] = base.ring.omega(part).parts;
            determinant(other)
        };
        let row = |k| (0..degree).map(|part| with_unit(k, part)).collect();
        Division {
            rows: (0..degree).map(row).collect(),
            determinant: determinant(matrix.clone()),
        }
    }

    pub fn dividend(&self, element: &Element) -> Dividend {
        let part = |row: &Vec<i128>| {
            let terms = row.iter().zip(&element.parts);
            terms.map(|(x, part)| x * i128::from(*part)).sum()
        };
        self.rows.iter().map(part).collect()
    }

    /// The quotient by β of an element minus a digit, where there is one.
    pub fn quotient(&self, element: &Dividend, digit: &Dividend) -> Option<Element> {
        let part = |(x, y): (&i128, &i128)| {
            let left = x - y;
            // Mostly all is small, and the shorter division is several times as quick.
            match (i64::try_from(left), i64::try_from(self.determinant)) {
                (Ok(left), Ok(by)) => (left % by == 0).then(|| left / by),
                _ => (left % self.determinant == 0).then(|| (left / self.determinant) as i64),
            }
        };
        let parts: Option<Vec<i64>> = element.iter().zip(digit).map(part).collect();
        parts.map(Element::new)
    }
}

/// A row of the table's digits with this value, found from place 0 up by taking the digit that leaves the least; none where that
/// doesn't end within a row's length.
pub fn represent(parts: &Parts, element: Element) -> Option<Vec<u8>> {
    let division = Division::by(&Base::of(&parts.base));
    let digits = parts.alphabet.iter().map(|x| Element::of(x));
    let digits: Vec<Dividend> = digits.map(|digit| division.dividend(&digit)).collect();
    let mut left = element;
    let mut row = Vec::new();
    while !left.is_zero() && row.len() < 256 {
        let dividend = division.dividend(&left);
        let choices = digits.iter().enumerate();
        let divided = choices
            .filter_map(|(index, digit)| Some((division.quotient(&dividend, digit)?, index)));
        let size = |x: &Element| -> i64 { x.parts.iter().map(|part| part.abs()).sum() };
        let (quotient, index) = divided.min_by_key(|(quotient, _)| size(quotient))?;
        row.push(index as u8);
        left = quotient;
    }
    left.is_zero().then_some(row)
}
