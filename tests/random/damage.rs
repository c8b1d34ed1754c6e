//! Damaged sheets: every cut, each wrong value at each field, changed bytes, bytes behind the end.

use crate::families;
use crate::numbers::Numbers;
use crate::sheets::{Path, Place, Sheet};

/// Bytes of the longest sheet that can be accepted.
pub const LONGEST: usize = 28_678;

/// Where a sheet was damaged: what stands there, and the offset that is told where it is refused for it.
#[derive(Clone, Copy)]
pub struct Damage {
    pub place: Place,
    pub offset: usize,
}

pub struct Damaged {
    pub bytes: Vec<u8>,
    pub damage: Damage,
}

/// A sheet with a field of every kind, and with what a small one has besides.
pub fn base(numbers: &mut Numbers) -> Sheet {
    use crate::sheets::Said::{Compatible, Labelled, Ordered, Reached, Selected};
    let mut sheet = families::small(numbers);
    let last = sheet.n - 1;
    for said in [Ordered(last, 0), Compatible(last, 0), Selected(last, 258, 0), Labelled(259, last)] {
        sheet.state_together(said);
        sheet.ask(said);
    }
    for features in [&[258][..], &[0, 65_535], &[1, 2, 3, 258, 0, 1, 2, 65_535]] {
        sheet.ask(Reached(last, Path::of(features)));
    }
    sheet
}

/// Every beginning of a sheet but the whole.
pub fn cuts(sheet: &Sheet) -> Vec<Damaged> {
    let bytes = sheet.bytes();
    let mut all = Vec::new();
    for field in sheet.fields() {
        for end in field.offset..field.offset + field.length {
            all.push(Damaged { bytes: bytes[..end].to_vec(), damage: Damage { place: field.place, offset: end } });
        }
    }
    all
}

/// Each wrong value of each field, and the values at the ends of what is right.
pub fn wrong_fields(sheet: &Sheet) -> Vec<Damaged> {
    let bytes = sheet.bytes();
    let mut all = Vec::new();
    for field in sheet.fields() {
        for value in wrong_values(field.place, bytes[field.offset], sheet.n) {
            let mut changed = bytes.clone();
            changed[field.offset..field.offset + value.len()].copy_from_slice(&value);
            all.push(Damaged { bytes: changed, damage: Damage { place: field.place, offset: field.offset } });
        }
    }
    all
}

fn wrong_values(place: Place, byte: u8, n: usize) -> Vec<Vec<u8>> {
    let bytes = |list: &[u8]| list.iter().map(|&b| vec![b]).collect();
    let words = |list: &[u16]| list.iter().map(|w| w.to_be_bytes().to_vec()).collect();
    match place {
        Place::HeaderMap => bytes(&[0, byte & 6, byte | 8, byte | 16, byte | 32, byte | 64, byte | 128, 255]),
        Place::VariableCount => bytes(&[0, 128, 129, 255]),
        Place::RecordCount | Place::QuestionCount => words(&[0, 1, 1_024, 1_025, 1_280, 2_048, 65_535]),
        Place::RecordMap => bytes(&[0, 16, 17, 31, 32, 48, 64, 128, byte | 16, byte | 128, 255]),
        Place::QuestionMap => {
            let several = [3, 5, 6, 9, 10, 12, 15, 17, 18, 20, 24, 31, 48, 80, 144, byte | 16, byte | 128];
            bytes(&[&[0, 16, 32, 64, 128][..], &several].concat())
        }
        Place::PathCount => bytes(&[0, 1, 2, 3, 4, 5, 6, 7, 8, 9, 10, 16, 128, 255]),
        Place::RecordFeature | Place::QuestionFeature | Place::PathFeature => words(&[0, 65_535]),
        Place::RecordLabel | Place::QuestionLabel => words(&[0, 65_535]),
        _ => bytes(&[n as u8, n as u8 + 1, 128, 255]),
    }
}

/// One byte changed, at every offset.
pub fn changed_bytes(numbers: &mut Numbers, sheet: &Sheet) -> Vec<Damaged> {
    let bytes = sheet.bytes();
    let mut all = Vec::new();
    for field in sheet.fields() {
        for offset in field.offset..field.offset + field.length {
            let mut changed = bytes.clone();
            changed[offset] ^= numbers.pick(&[1, 2, 4, 8, 16, 32, 64, 128, 255, 3]);
            all.push(Damaged { bytes: changed, damage: Damage { place: field.place, offset: field.offset } });
        }
    }
    all
}

/// Bytes behind the end, up to more than any sheet has.
pub fn trailing(numbers: &mut Numbers, sheet: &Sheet) -> Vec<Damaged> {
    let mut all = Vec::new();
    for more in [1, 2, 3, 9, LONGEST, 40_000] {
        let mut bytes = sheet.bytes();
        let damage = Damage { place: Place::Behind, offset: bytes.len() };
        bytes.extend((0..more).map(|_| numbers.byte()));
        all.push(Damaged { bytes, damage });
    }
    all
}

/// Bytes by chance behind a header that is often right.
pub fn noise(numbers: &mut Numbers) -> Vec<u8> {
    let mut bytes = vec![numbers.pick(&[1, 3, 5, 7, 7, 7, 0, 9]), numbers.between(1, 4) as u8, 0, 2, 0, 2];
    let length = numbers.between(0, 30);
    bytes.extend((0..length).map(|_| match numbers.below(8) {
        0 => numbers.byte(),
        1 => 16,
        _ => numbers.below(10) as u8,
    }));
    bytes.truncate(numbers.between(0, 36));
    bytes
}
