//! What the degree decides. One text serves all three degrees, and each is compiled for itself.

use super::{layout, leaves};

/// An element as one number: its parts 32 bits apart, the first one highest. Keys add as elements do, and elements with parts below 2³¹
/// have keys of their own.
pub trait Key: Copy + Eq {
    const ZERO: Self;
    /// With one part more.
    fn then(self, part: i64) -> Self;
    fn plus(self, other: Self) -> Self;
    fn minus(self, other: Self) -> Self;
    fn times(self, part: i64) -> Self;
    /// 64 bits for a hash table; those of small elements are different.
    fn folded(self) -> u64;
}

impl Key for u64 {
    const ZERO: u64 = 0;
    #[inline(always)]
    fn then(self, part: i64) -> u64 {
        (self << 32).wrapping_add(part as u64)
    }
    #[inline(always)]
    fn plus(self, other: u64) -> u64 {
        self.wrapping_add(other)
    }
    #[inline(always)]
    fn minus(self, other: u64) -> u64 {
        self.wrapping_sub(other)
    }
    #[inline(always)]
    fn times(self, part: i64) -> u64 {
        self.wrapping_mul(part as u64)
    }
    #[inline(always)]
    fn folded(self) -> u64 {
        self
    }
}

impl Key for u128 {
    const ZERO: u128 = 0;
    #[inline(always)]
    fn then(self, part: i64) -> u128 {
        (self << 32).wrapping_add(part as u128)
    }
    #[inline(always)]
    fn plus(self, other: u128) -> u128 {
        self.wrapping_add(other)
    }
    #[inline(always)]
    fn minus(self, other: u128) -> u128 {
        self.wrapping_sub(other)
    }
    #[inline(always)]
    fn times(self, part: i64) -> u128 {
        self.wrapping_mul(part as u128)
    }
    /// Parts under 2¹⁵ fit between each other, 16 bits apart.
    #[inline(always)]
    fn folded(self) -> u64 {
        (self as u64).wrapping_add(((self >> 64) as u64) << 16)
    }
}

/// A slot for an input digit, given by a number that adds as elements do, with its index.
pub trait Slot: Copy + Eq {
    const EMPTY: Self;
    fn new(number: i64, index: u8) -> Self;
    fn holds(self, number: i64) -> bool;
    fn index(self) -> u8;
    /// Well-mixed low bits.
    fn hash(number: i64) -> usize;
}

/// Two parts up to 128, 512 apart: 18 bits.
impl Slot for u32 {
    const EMPTY: u32 = 0;
    #[inline(always)]
    fn new(number: i64, index: u8) -> u32 {
        tag(number) << 8 | u32::from(index)
    }
    #[inline(always)]
    fn holds(self, number: i64) -> bool {
        self >> 8 == tag(number)
    }
    #[inline(always)]
    fn index(self) -> u8 {
        self as u8
    }
    #[inline(always)]
    fn hash(number: i64) -> usize {
        (tag(number).wrapping_mul(0x9e37_79b1) >> 16) as usize
    }
}

/// A number made positive, so that no slot in use is empty.
fn tag(number: i64) -> u32 {
    (number + (1 << 17)) as u32
}

/// Four parts: 36 bits.
impl Slot for u64 {
    const EMPTY: u64 = 0;
    #[inline(always)]
    fn new(number: i64, index: u8) -> u64 {
        long_tag(number) << 8 | u64::from(index)
    }
    #[inline(always)]
    fn holds(self, number: i64) -> bool {
        self >> 8 == long_tag(number)
    }
    #[inline(always)]
    fn index(self) -> u8 {
        self as u8
    }
    #[inline(always)]
    fn hash(number: i64) -> usize {
        (long_tag(number).wrapping_mul(0x9e37_79b9_7f4a_7c15) >> 48) as usize
    }
}

fn long_tag(number: i64) -> u64 {
    (number + (1 << 40)) as u64
}

/// A list of a length that the degree decides.
pub trait List<T>: Copy + AsRef<[T]> + AsMut<[T]> {}

impl<T: Copy, const N: usize> List<T> for [T; N] {}

/// A degree.
pub trait Degree: Copy {
    const PARTS: usize;
    /// The largest size of the base section's numbers.
    const BASE_LIMIT: u16;
    type Parts: List<i64>;
    /// The parts of β, β·ω and so on.
    type Matrix: List<Self::Parts>;
    /// The 16-bit numbers of an element's record and of a leaf's.
    type Record: List<[u8; 2]>;
    type Leaf: List<[u8; 2]>;
    type Key: Key;
    type Slot: Slot;
    const ZERO: Self::Parts;
    const NO_BASE: Self::Matrix;

    fn records(section: &[u8]) -> &[Self::Record];
    fn leaves(section: &[u8]) -> &[Self::Leaf];
    /// Rule 4 in section 3, and the lengths of rule 9.
    fn leaf_numbers_hold(section: &[u8]) -> bool;

    /// The element of some numbers.
    #[inline(always)]
    fn element(numbers: &[[u8; 2]]) -> Self::Parts {
        let mut parts = Self::ZERO;
        for (part, number) in parts.as_mut().iter_mut().zip(numbers) {
            *part = i64::from(i16::from_le_bytes(*number));
        }
        parts
    }

    #[inline(always)]
    fn key(element: Self::Parts) -> Self::Key {
        let parts = element.as_ref().iter();
        parts.fold(Self::Key::ZERO, |key, part| key.then(*part))
    }

    /// The key of β times an element.
    #[inline(always)]
    fn key_times_base(base: &Self::Matrix, element: Self::Parts) -> Self::Key {
        let terms = base.as_ref().iter().zip(element.as_ref());
        terms.fold(Self::Key::ZERO, |key, (row, part)| {
            key.plus(Self::key(*row).times(*part))
        })
    }
}

/// The three degrees. Of each: the parts, the numbers of a leaf, those of eight leaves, the limit, key and slot.
macro_rules! degree {
    ($name:ident, $parts:literal, $leaf:literal, $block:literal, $limit:literal, $key:ty, $slot:ty) => {
        #[derive(Clone, Copy)]
        pub struct $name;

        impl Degree for $name {
            const PARTS: usize = $parts;
            const BASE_LIMIT: u16 = $limit;
            type Parts = [i64; $parts];
            type Matrix = [[i64; $parts]; $parts];
            type Record = [[u8; 2]; $parts];
            type Leaf = [[u8; 2]; $leaf];
            type Key = $key;
            type Slot = $slot;
            const ZERO: Self::Parts = [0; $parts];
            const NO_BASE: Self::Matrix = [[0; $parts]; $parts];

            fn records(section: &[u8]) -> &[Self::Record] {
                layout::chunks(section)
            }
            fn leaves(section: &[u8]) -> &[Self::Leaf] {
                layout::chunks(section)
            }
            fn leaf_numbers_hold(section: &[u8]) -> bool {
                leaves::numbers_hold::<$leaf, $block>(section)
            }
        }
    };
}

degree!(Two, 2, 4, 32, 64, u64, u32);
degree!(Three, 3, 5, 40, 64, u128, u64);
degree!(Four, 4, 6, 48, 32, u128, u64);
