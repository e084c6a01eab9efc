//! The leaves as an ordered complete prefix code (rules 4 and 9 to 13), and the search of a window.

use super::degree::Degree;
use super::layout::Sections;

/// The most digits of a word.
pub const LONGEST: usize = 8;
/// The input digits that a byte can name, a few more than there can be.
const MOST_INPUTS: usize = 256;

/// The leaves of a table past 1 to 13.
pub struct Code<'a, D: Degree> {
    records: &'a [D::Leaf],
    before_words: &'a [u8],
    pub depth: usize,
    /// The words as numbers, if they were asked for.
    pub keys: Vec<u64>,
}

/// What a word's length says: the unit of its last digit, and how many strings of eight the word begins.
struct Lengths {
    units: [u64; 16],
    strings: [u64; 16],
}

/// The pass over words in order.
struct Scan<'a> {
    before_words: &'a [u8],
    lengths: Lengths,
    end: u32,
    /// The least number that the next word may have: above the last word and all that it begins.
    floor: u64,
    units: u64,
    strings: u64,
    /// Not 0 if a word doesn't start where the last one ends.
    gaps: u32,
    /// How many words aren't above the last one.
    falls: u32,
}

/// The code, if no rule of 4 and 9 to 13 is broken.
pub fn code<'a, D: Degree, const KEYS: bool>(sections: &Sections<'a, D>) -> Option<Code<'a, D>> {
    let (records, words) = (sections.leaves, sections.words);
    let inputs = sections.inputs.len();
    let highest = words.iter().fold(0, |high, &index| high.max(index));
    let leaf_0_is_zero = records[0].as_ref()[2..].iter().all(|part| *part == [0; 2]);
    let numbers_hold = D::leaf_numbers_hold(sections.leaf_bytes);
    if !numbers_hold || usize::from(highest) >= inputs || !leaf_0_is_zero {
        return None;
    }
    let mut scan = Scan::new(sections.before_words, inputs as u64);
    let mut keys = Vec::new();
    if KEYS {
        keys.reserve_exact(records.len());
        keys.extend(records.iter().map(|leaf| scan.step(leaf.as_ref())));
    } else {
        for leaf in records {
            scan.step(leaf.as_ref());
        }
    }
    let whole =
        scan.end as usize == words.len() && scan.strings == (inputs as u64).pow(LONGEST as u32);
    (whole && scan.gaps == 0 && scan.falls == 0).then_some(Code {
        records,
        before_words: sections.before_words,
        depth: LONGEST - scan.units.trailing_zeros() as usize / 8,
        keys,
    })
}

/// Numbers for a block of records of some length: one for a word's offset, one for its length, and one for each part of a weight.
const fn repeated<const LEAF: usize, const BLOCK: usize>(numbers: [u16; 3]) -> [u16; BLOCK] {
    let mut block = [numbers[2]; BLOCK];
    let mut at = 0;
    while at < BLOCK {
        block[at] = numbers[0];
        block[at + 1] = numbers[1];
        at += LEAF;
    }
    block
}

/// Rule 4 in section 3, and the lengths of rule 9: 1 to 8. A block of numbers, which is eight records, is judged at a time; the loop over it
/// becomes a few vector instructions.
pub fn numbers_hold<const LEAF: usize, const BLOCK: usize>(records: &[u8]) -> bool {
    // What is added to each number so that the least one allowed becomes 0, and the most that is then allowed.
    let up: [u16; BLOCK] = const { repeated::<LEAF, BLOCK>([0, u16::MAX, 1_024]) };
    let most: [u16; BLOCK] = const { repeated::<LEAF, BLOCK>([u16::MAX, 7, 2_048]) };
    let excess = |number: &[u8; 2], at: usize| {
        let raised = u16::from_le_bytes(*number).wrapping_add(up[at]);
        raised.saturating_sub(most[at])
    };
    let (blocks, rest) = records.as_chunks::<2>().0.as_chunks::<BLOCK>();
    let all_hold = blocks.iter().all(|block| {
        let all = (0..BLOCK).fold(0, |all, at| all | excess(&block[at], at));
        all == 0
    });
    let mut rest = rest.iter().enumerate();
    all_hold && rest.all(|(at, number)| excess(number, at) == 0)
}

impl<'a> Scan<'a> {
    fn new(before_words: &'a [u8], inputs: u64) -> Self {
        let (mut units, mut strings) = ([0; 16], [0; 16]);
        (units[LONGEST], strings[LONGEST]) = (1, 1);
        for length in (1..LONGEST).rev() {
            units[length] = units[length + 1] << 8;
            strings[length] = strings[length + 1] * inputs;
        }
        Scan {
            before_words,
            lengths: Lengths { units, strings },
            end: 0,
            floor: 0,
            units: 0,
            strings: 0,
            gaps: 0,
            falls: 0,
        }
    }

    /// One leaf: its word must start at the last one's end and be above it. The lengths were judged before.
    #[inline(always)]
    fn step(&mut self, record: &[[u8; 2]]) -> u64 {
        let [start, length] = [0, 1].map(|at| u32::from(u16::from_le_bytes(record[at])));
        let length = length % 16;
        self.gaps |= start ^ self.end;
        self.end += length;
        let unit = self.lengths.units[length as usize];
        let word = word_before(self.before_words, self.end).wrapping_mul(unit);
        self.falls += u32::from(word < self.floor);
        self.floor = word.wrapping_add(unit);
        self.units |= unit;
        // At most 4,000 · 136⁷, so it never wraps.
        self.strings += self.lengths.strings[length as usize];
        word
    }
}

/// The eight bytes in front of a word's end; no word ends past section 4 in a code that is accepted.
#[inline(always)]
fn word_before(before_words: &[u8], end: u32) -> u64 {
    // From 32 bits, so that the sum can't wrap and one comparison is enough.
    let end = end as usize;
    let bytes = before_words.get(end..end + 8).and_then(<[u8]>::first_chunk);
    bytes.map_or(0, |bytes| u64::from_be_bytes(*bytes))
}

impl<D: Degree> Code<'_, D> {
    pub fn count(&self) -> usize {
        self.records.len()
    }

    pub fn weight(&self, leaf: usize) -> D::Parts {
        D::element(&self.records[leaf].as_ref()[2..])
    }

    /// The first numbers of a leaf's record: a word's offset, then its length.
    fn number(&self, leaf: usize, at: usize) -> usize {
        u16::from_le_bytes(self.records[leaf].as_ref()[at]).into()
    }

    pub fn length(&self, leaf: usize) -> usize {
        self.number(leaf, 1)
    }

    /// A leaf's word as a number, from the file.
    fn word(&self, leaf: usize) -> u64 {
        let (start, length) = (self.number(leaf, 0), self.length(leaf));
        let word = word_before(self.before_words, (start + length) as u32);
        word.wrapping_shl(64 - 8 * length as u32)
    }

    /// The leaf whose word begins the window, by the words as numbers.
    pub fn search(&self, window: u64) -> usize {
        search(0, self.count(), window, |leaf| self.keys[leaf])
    }

    /// The leaf whose word begins the window, by the words in the file, for calls that search a few times only.
    pub fn search_file(&self, window: u64) -> usize {
        search(0, self.count(), window, |leaf| self.word(leaf))
    }

    /// Where the leaves of each first digit start, for calls that search often.
    pub fn first_digits(&self, inputs: usize) -> FirstDigits<'_> {
        let mut starts = [0; MOST_INPUTS];
        let (mut longest, mut last) = (0, self.count());
        for digit in (0..inputs).rev() {
            let word = (digit as u64) << 56;
            let start = self.search(word);
            longest = longest.max(last - start);
            starts[digit] = start as u16;
            last = start;
        }
        let highest = (self.count() - longest) as u16;
        FirstDigits {
            keys: &self.keys,
            starts: starts.map(|start| start.min(highest)),
            longest,
        }
    }
}

/// Of each first digit a run of leaves with all its leaves in it; the runs are of one length, so that a search always has the same
/// number of steps.
pub struct FirstDigits<'a> {
    keys: &'a [u64],
    starts: [u16; MOST_INPUTS],
    longest: usize,
}

impl FirstDigits<'_> {
    /// The leaf whose word begins the window.
    #[inline(always)]
    pub fn search(&self, window: u64) -> usize {
        let start = self.starts[(window >> 56) as usize];
        search(start.into(), self.longest, window, |leaf| self.keys[leaf])
    }
}

/// Of some leaves the last whose word isn't above the window. The steps depend on the count alone, so none is guessed wrong.
#[inline(always)]
fn search(start: usize, count: usize, window: u64, word: impl Fn(usize) -> u64) -> usize {
    let (mut low, mut size) = (start, count);
    while size > 1 {
        let half = size / 2;
        let above = word(low + half) > window;
        low = std::hint::select_unpredictable(above, low, low + half);
        size -= half;
    }
    low
}
