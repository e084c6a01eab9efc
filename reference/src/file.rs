//! The table file ("Table file"): reading it by rules 1 to 4, and writing one.

use crate::answer::{author, Fault};
use crate::element::Element;
use crate::ring::Base;
use crate::DEGREES;

/// Bytes of the directory: five pairs of two 16-bit numbers.
pub const DIRECTORY: usize = 20;

/// The longest file that rule 1 lets pass.
pub const LONGEST_FILE: usize = 65_535;

/// A leaf record as it stands in section 3.
#[derive(Clone, Debug)]
pub struct LeafRecord {
    pub offset: usize,
    pub length: usize,
    pub weight: Element,
}

/// The numbers of a file that passes 1 to 4; nothing is known yet of how they belong together.
#[derive(Clone, Debug)]
pub struct Contents {
    pub base: Base,
    pub alphabet: Vec<Element>,
    pub inputs: Vec<Element>,
    pub leaves: Vec<LeafRecord>,
    pub words: Vec<u8>,
}

/// Rules 1 to 4.
pub fn read(file: &[u8]) -> Result<Contents, Fault> {
    let sections = read_sections(file)?;
    let form = Form::of(&sections)?;
    form.check_sizes(file, &sections)?;
    Ok(form.contents(&sections))
}

/// The five sections of a file.
pub type Sections<'a> = [&'a [u8]; 5];

/// Rules 1 and 2: the sections as the directory has them.
pub fn read_sections(file: &[u8]) -> Result<Sections<'_>, Fault> {
    let long_enough = (DIRECTORY..=LONGEST_FILE).contains(&file.len());
    author(long_enough, 1, 0)?;
    read_directory(file)
}

/// Rule 2: each pair begins where the one before ends, none passes the file, the last ends it. Sums are taken in whole numbers.
fn read_directory(file: &[u8]) -> Result<Sections<'_>, Fault> {
    let mut sections: Sections = [&[]; 5];
    let mut previous_end = DIRECTORY;
    for (pair, section) in sections.iter_mut().enumerate() {
        let offset = unsigned(file, 4 * pair);
        let end = offset + unsigned(file, 4 * pair + 2);
        let follows = offset == previous_end;
        let inside = end <= file.len();
        let closes = pair < 4 || end == file.len();
        author(follows && inside && closes, 2, pair)?;
        *section = &file[offset..end];
        previous_end = end;
    }
    Ok(sections)
}

/// What the degree decides about a file.
#[derive(Clone, Copy, Debug)]
pub struct Form {
    /// Bytes of an element in a record: two for each part.
    pub element: usize,
    /// The largest size of a number of section 0.
    pub base_limit: i64,
}

impl Form {
    pub fn of_degree(degree: usize) -> Self {
        Form {
            element: 2 * degree,
            base_limit: if degree == 4 { 32 } else { 64 },
        }
    }

    /// Rule 3: section 0 tells the degree d by its 4d bytes, and the others are judged by it.
    fn of(sections: &Sections) -> Result<Self, Fault> {
        let told = DEGREES.into_iter().find(|d| sections[0].len() == 4 * d);
        author(told.is_some(), 3, 0)?;
        let form = Form::of_degree(told.unwrap_or_default());
        form.check_lengths(sections)?;
        Ok(form)
    }

    /// Rule 3 in sections 1 to 4: whole records, and as many as the paper allows.
    pub fn check_lengths(&self, sections: &Sections) -> Result<(), Fault> {
        for (number, section) in sections.iter().enumerate().skip(1) {
            let (record, counts) = match number {
                1 => (self.element, 2..=16),
                2 => (self.element, 1..=136),
                3 => (4 + self.element, 1..=4_000),
                _ => (1, 1..=32_000),
            };
            let records = section.len() / record;
            let whole = section.len() == records * record;
            author(whole && counts.contains(&records), 3, number)?;
        }
        Ok(())
    }

    /// Rule 4: every signed number within its limit, in file order. A leaf's offset and length have no limit here.
    pub fn check_sizes(&self, file: &[u8], sections: &Sections) -> Result<(), Fault> {
        let mut start = DIRECTORY;
        for (number, section) in sections.iter().enumerate().take(4) {
            for at in (0..section.len()).step_by(2) {
                let limit = match number {
                    0 => self.base_limit,
                    1 => 64,
                    2 => 128,
                    _ if at % (4 + self.element) >= 4 => 1_024,
                    _ => continue,
                };
                author(signed(file, start + at).abs() <= limit, 4, start + at)?;
            }
            start += section.len();
        }
        Ok(())
    }

    /// The numbers of sections that pass rule 3.
    pub fn contents(&self, [base, alphabet, inputs, leaves, words]: &Sections) -> Contents {
        let elements = |section: &[u8]| section.chunks(self.element).map(element).collect();
        let leaves = leaves.chunks(4 + self.element).map(leaf_record);
        Contents {
            base: Base::of(&element(base).record()),
            alphabet: elements(alphabet),
            inputs: elements(inputs),
            leaves: leaves.collect(),
            words: words.to_vec(),
        }
    }
}

fn unsigned(bytes: &[u8], at: usize) -> usize {
    usize::from(u16::from_le_bytes([bytes[at], bytes[at + 1]]))
}

fn signed(bytes: &[u8], at: usize) -> i64 {
    i64::from(i16::from_le_bytes([bytes[at], bytes[at + 1]]))
}

fn element(record: &[u8]) -> Element {
    let parts = (0..record.len()).step_by(2).map(|at| signed(record, at));
    Element::new(parts.collect::<Vec<i64>>())
}

fn leaf_record(record: &[u8]) -> LeafRecord {
    LeafRecord {
        offset: unsigned(record, 0),
        length: unsigned(record, 2),
        weight: element(&record[4..]),
    }
}

/// The parts of a table, from which a file is written. Nothing is judged here, so that tests can write faulty files too. Elements are
/// their parts, lowest first.
#[derive(Clone, Debug, PartialEq, Eq)]
pub struct Parts {
    /// The numbers of section 0: ω^d's parts, highest power first, then β's, lowest first.
    pub base: Vec<i16>,
    pub alphabet: Vec<Vec<i16>>,
    pub inputs: Vec<Vec<i16>>,
    pub leaves: Vec<(Vec<u8>, Vec<i16>)>,
}

impl Parts {
    pub fn degree(&self) -> usize {
        self.base.len() / 2
    }

    /// The bodies of the five sections, the words one behind the other.
    pub fn sections(&self) -> [Vec<u8>; 5] {
        let mut records = Vec::new();
        let mut words = Vec::new();
        for (word, weight) in &self.leaves {
            records.extend(low_half(words.len()));
            records.extend(low_half(word.len()));
            records.extend(number_bytes(weight));
            words.extend(word);
        }
        [
            number_bytes(&self.base),
            number_bytes(&self.alphabet.concat()),
            number_bytes(&self.inputs.concat()),
            records,
            words,
        ]
    }

    /// The table file.
    pub fn write(&self) -> Vec<u8> {
        assemble(&self.sections())
    }
}

/// Five sections one behind the other, with the directory that belongs to them.
pub fn assemble(sections: &[Vec<u8>; 5]) -> Vec<u8> {
    let mut file = Vec::new();
    let mut offset = DIRECTORY;
    for section in sections {
        file.extend(low_half(offset));
        file.extend(low_half(section.len()));
        offset += section.len();
    }
    file.extend(sections.iter().flatten());
    file
}

/// A number's low 16 bits; a file too long for its offsets is refused by rule 1 anyway.
fn low_half(number: usize) -> [u8; 2] {
    (number as u16).to_le_bytes()
}

fn number_bytes(numbers: &[i16]) -> Vec<u8> {
    numbers.iter().flat_map(|x| x.to_le_bytes()).collect()
}
