//! Damage to the digits: rules 7 and 8.

use crate::draft::Draft;
use crate::random::Random;

/// Record 0 that isn't zero, or a record that repeats an earlier one.
pub fn record(draft: &mut Draft, section: usize, random: &mut Random) {
    let (records, size) = (draft.records(section), draft.record(section));
    if records < 2 || random.one_in(4) {
        let part = 2 * random.below(draft.degree);
        draft.set(section, part, random.pick(&[-1, 1, 2]));
        return;
    }
    let later = 1 + random.below(records - 1);
    let earlier = random.below(later);
    // Often all parts but one, which is no repeat.
    let kept = random.below(2 * draft.degree);
    for part in (0..draft.degree).filter(|part| *part != kept) {
        let value = draft.get(section, size * earlier + 2 * part);
        draft.set(section, size * later + 2 * part, value as i16);
    }
}

/// The same for input digits, or a missing sum; also digits beyond the sums, which offend only where they are in a sum's place or
/// repeat one another. One more digit passes rule 8 and has no leaf (12).
pub fn inputs(draft: &mut Draft, random: &mut Random) {
    let (records, size) = (draft.records(2), draft.record(2));
    let mut further = vec![random.pick(&[-128, -100, 99, 100, 128])];
    further.extend((1..draft.degree).map(|_| random.pick(&[0, 1, 128])));
    match random.below(7) {
        0 => draft.sections[2].truncate(size * (records - 1).max(1)),
        1 => {
            let at = size * random.below(records) + 2 * random.below(draft.degree);
            draft.set(2, at, random.pick(&[-128, -100, 100, 127, 128]));
        }
        2 => {
            // A digit more in the alphabet makes sums that aren't there.
            if draft.records(1) < 16 {
                draft.sections[1].extend([50, 0].repeat(draft.degree));
            }
        }
        3 => further_input(draft, &further, random),
        4 => {
            further_input(draft, &further, random);
            lose_input(draft, random);
        }
        5 => {
            further_input(draft, &further, random);
            further_input(draft, &further, random);
        }
        _ => record(draft, 2, random),
    }
}

/// One record more behind record 0, if there may be.
fn further_input(draft: &mut Draft, digit: &[i16], random: &mut Random) {
    let records = draft.records(2);
    let at = draft.record(2) * (1 + random.below(records));
    if records < 136 && at <= draft.sections[2].len() {
        let bytes = digit.iter().flat_map(|part| part.to_le_bytes());
        draft.sections[2].splice(at..at, bytes);
    }
}

/// One record less, mostly a sum's, not record 0.
fn lose_input(draft: &mut Draft, random: &mut Random) {
    let (records, size) = (draft.records(2), draft.record(2));
    if records > 2 {
        let at = size * (1 + random.below(records - 1));
        draft.sections[2].drain(at..at + size);
    }
}
