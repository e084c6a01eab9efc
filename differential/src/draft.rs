//! A table file that is about to be written, with what is to go wrong in writing it.

use reference::{assemble, Parts};

/// The sections of a file, and damage that they can't show.
pub struct Draft {
    pub degree: usize,
    pub sections: [Vec<u8>; 5],
    /// Directory numbers (0 to 9) to be written as something else.
    pub directory: Vec<(usize, u16)>,
    /// The length to which the file is cut or filled up.
    pub length: Option<usize>,
}

impl Draft {
    pub fn new(parts: &Parts) -> Self {
        Draft {
            degree: parts.degree(),
            sections: parts.sections(),
            directory: Vec::new(),
            length: None,
        }
    }

    /// The file with all damage done.
    pub fn write(&self) -> Vec<u8> {
        let mut file = assemble(&self.sections);
        for (number, value) in &self.directory {
            file[2 * number..][..2].copy_from_slice(&value.to_le_bytes());
        }
        if let Some(length) = self.length {
            file.resize(length, 0);
        }
        file
    }

    /// Bytes of a section's record.
    pub fn record(&self, section: usize) -> usize {
        match section {
            0 => 4 * self.degree,
            1 | 2 => 2 * self.degree,
            3 => 4 + 2 * self.degree,
            _ => 1,
        }
    }

    /// How many records a section has; at least 1, so that one can be picked.
    pub fn records(&self, section: usize) -> usize {
        (self.sections[section].len() / self.record(section)).max(1)
    }

    pub fn set(&mut self, section: usize, at: usize, value: i16) {
        if let Some(place) = self.sections[section].get_mut(at..at + 2) {
            place.copy_from_slice(&value.to_le_bytes());
        }
    }

    pub fn get(&self, section: usize, at: usize) -> u16 {
        match self.sections[section].get(at..at + 2) {
            Some(bytes) => u16::from_le_bytes([bytes[0], bytes[1]]),
            None => 0,
        }
    }

    /// The leaves as words and weights, as far as their records make sense.
    pub fn leaves(&self) -> Vec<(Vec<u8>, Vec<u8>)> {
        let words = &self.sections[4];
        let leaf = |record: &[u8]| {
            let offset = usize::from(u16::from_le_bytes([record[0], record[1]]));
            let length = usize::from(u16::from_le_bytes([record[2], record[3]]));
            let word = words.get(offset..offset + length).unwrap_or(&[]);
            (word.to_vec(), record[4..].to_vec())
        };
        let records = self.sections[3].chunks_exact(self.record(3));
        records.map(leaf).collect()
    }

    pub fn set_leaves(&mut self, leaves: &[(Vec<u8>, Vec<u8>)]) {
        let (mut records, mut words) = (Vec::new(), Vec::new());
        for (word, weight) in leaves {
            records.extend((words.len() as u16).to_le_bytes());
            records.extend((word.len() as u16).to_le_bytes());
            records.extend(weight);
            words.extend(word);
        }
        self.sections[3] = records;
        self.sections[4] = words;
    }
}
