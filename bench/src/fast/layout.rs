//! The file cut into its sections (rules 1 to 3), its small numbers checked (4 to 6).

use super::degree::Degree;

/// The most bytes of a file.
const LONGEST_FILE: usize = 65_535;
/// Bytes of the directory.
const DIRECTORY: usize = 20;

/// Of each section: bytes of a record, least and most records.
pub const fn records(degree: usize) -> [(usize, usize, usize); 5] {
    [
        (4 * degree, 1, 1),
        (2 * degree, 2, 16),
        (2 * degree, 1, 136),
        (4 + 2 * degree, 1, 4_000),
        (1, 1, 32_000),
    ]
}

/// The sections of a file that passes 1 to 6; of section 3 rule 4 is still open.
pub struct Sections<'a, D: Degree> {
    /// Multiplication by the base: β, β·ω and so on.
    pub base: D::Matrix,
    pub alphabet: &'a [D::Record],
    pub inputs: &'a [D::Record],
    pub leaves: &'a [D::Leaf],
    /// Section 3 as it stands.
    pub leaf_bytes: &'a [u8],
    pub words: &'a [u8],
    /// Section 4 with the eight bytes in front of it: a word that ends at e is the end of the eight bytes from e on.
    pub before_words: &'a [u8],
}

/// The degree that the base section tells, if it is one of those known; else two, by which rule 3 is broken.
pub fn degree_told(file: &[u8]) -> usize {
    let told = file.get(2..4).map_or(0, |bytes| unsigned(bytes, 0));
    let known = reference::DEGREES.into_iter().find(|d| 4 * d == told);
    known.unwrap_or(2)
}

/// The sections, if no rule of 1 to 6 is broken outside section 3.
pub fn sections<D: Degree>(file: &[u8]) -> Option<Sections<'_, D>> {
    let ends = directory::<D>(file)?;
    let part = |number: usize| &file[ends[number]..ends[number + 1]];
    let numbers_hold = [(0, D::BASE_LIMIT), (1, 64), (2, 128)];
    if !numbers_hold
        .iter()
        .all(|&(number, limit)| within(part(number), limit))
    {
        return None;
    }
    let base = base::<D>(part(0));
    base_holds::<D>(part(0), &base).then(|| Sections {
        base,
        alphabet: D::records(part(1)),
        inputs: D::records(part(2)),
        leaves: D::leaves(part(3)),
        leaf_bytes: part(3),
        words: part(4),
        before_words: &file[ends[4] - 8..],
    })
}

/// Where the sections start and the last one ends, by rules 1 to 3.
fn directory<D: Degree>(file: &[u8]) -> Option<[usize; 6]> {
    if file.len() < DIRECTORY || file.len() > LONGEST_FILE {
        return None;
    }
    let mut ends = [DIRECTORY; 6];
    let records = const { records(D::PARTS) };
    for (number, (record, least, most)) in records.into_iter().enumerate() {
        let (start, length) = (unsigned(file, 4 * number), unsigned(file, 4 * number + 2));
        let whole = length.is_multiple_of(record);
        let allowed = length >= least * record && length <= most * record;
        if start != ends[number] || start + length > file.len() || !whole || !allowed {
            return None;
        }
        ends[number + 1] = start + length;
    }
    (ends[5] == file.len()).then_some(ends)
}

/// Every signed number of a part is within ±limit.
fn within(part: &[u8], limit: u16) -> bool {
    let excess = part.chunks_exact(2).fold(0, |excess, number| {
        let number = u16::from_le_bytes([number[0], number[1]]);
        excess | number.wrapping_add(limit).saturating_sub(2 * limit)
    });
    excess == 0
}

/// β, β·ω and so on: each is the one before, moved up a power, its highest part taken by ω^d.
pub fn base<D: Degree>(section: &[u8]) -> D::Matrix {
    let numbers: &[[u8; 2]] = section.as_chunks().0;
    let (power, beta) = numbers.split_at(D::PARTS);
    let power = D::element(power);
    let mut rows = D::NO_BASE;
    let mut row = D::element(beta);
    for place in rows.as_mut() {
        *place = row;
        let top = row.as_ref()[D::PARTS - 1];
        let parts = row.as_mut();
        parts.copy_within(..D::PARTS - 1, 1);
        parts[0] = 0;
        // The section has ω^d's highest part first.
        for (part, add) in parts.iter_mut().rev().zip(power.as_ref()) {
            *part += top * add;
        }
    }
    rows
}

/// Rules 5 and 6.
pub fn base_holds<D: Degree>(section: &[u8], base: &D::Matrix) -> bool {
    if D::PARTS == 2 {
        let [s, t, u, v] = [0, 2, 4, 6].map(|at| i64::from(signed(section, at)));
        return !is_square(s * s + 4 * t) && is_expanding([s, t, u, v]);
    }
    let rows: Vec<&[i64]> = base.as_ref().iter().map(|row| row.as_ref()).collect();
    !(-1..=1).contains(&determinant(&rows))
}

/// Rule 5.
pub fn is_square(number: i64) -> bool {
    // Below 2⁵³ the root is exact where there is one, and a negative number's is no number.
    let root = (number as f64).sqrt();
    number >= 0 && root.fract() == 0.0
}

/// Rule 6 at degree two.
pub fn is_expanding([s, t, u, v]: [i64; 4]) -> bool {
    let (trace, norm) = (2 * u + s * v, u * u + s * u * v - t * v * v);
    norm.abs() >= 2 && trace.abs() < (norm + 1).abs()
}

/// The determinant of three or four rows, by minors of two of them. Within the size limits of the base it stays far inside 64 bits.
fn determinant(rows: &[&[i64]]) -> i64 {
    let minor = |x: usize, y: usize, i: usize, k: usize| {
        let (x, y) = (rows[x], rows[y]);
        x[i] * y[k] - x[k] * y[i]
    };
    if rows.len() == 3 {
        let of = |i, k| minor(1, 2, i, k);
        return rows[0][0] * of(1, 2) - rows[0][1] * of(0, 2) + rows[0][2] * of(0, 1);
    }
    let (high, low) = (|i, k| minor(0, 1, i, k), |i, k| minor(2, 3, i, k));
    high(0, 1) * low(2, 3) - high(0, 2) * low(1, 3)
        + high(0, 3) * low(1, 2)
        + high(1, 2) * low(0, 3)
        - high(1, 3) * low(0, 2)
        + high(2, 3) * low(0, 1)
}

/// A section's 16-bit numbers, some at a time.
pub fn chunks<const N: usize>(section: &[u8]) -> &[[[u8; 2]; N]] {
    section.as_chunks().0.as_chunks().0
}

/// The unsigned 16-bit number at a place.
pub fn unsigned(bytes: &[u8], at: usize) -> usize {
    usize::from(u16::from_le_bytes([bytes[at], bytes[at + 1]]))
}

/// The signed 16-bit number at a place.
pub fn signed(bytes: &[u8], at: usize) -> i16 {
    i16::from_le_bytes([bytes[at], bytes[at + 1]])
}
