//! Memory that is lent, and what two solvers leave in it.

use crate::numbers::Numbers;

/// Bytes before, between and behind the lent parts, which nobody may touch.
const GUARD: usize = 40;

/// How many bytes of the two tables and the reply buffer are lent.
#[derive(Clone, Copy)]
pub struct Lengths {
    pub facts: usize,
    pub work: usize,
    pub replies: usize,
}

/// One piece of memory with the sheet and the three buffers in it, all else filled by chance.
#[derive(Clone)]
pub struct Lent {
    pub bytes: Vec<u8>,
    sheet: usize,
    pub lengths: Lengths,
}

impl Lent {
    pub fn new(numbers: &mut Numbers, sheet: &[u8], lengths: Lengths) -> Lent {
        let whole = 5 * GUARD + sheet.len() + lengths.facts + lengths.work + lengths.replies;
        let mut bytes = Vec::with_capacity(whole + 8);
        while bytes.len() < whole {
            bytes.extend(numbers.next().to_le_bytes());
        }
        bytes[GUARD..GUARD + sheet.len()].copy_from_slice(sheet);
        Lent { bytes, sheet: sheet.len(), lengths }
    }

    /// Where the sheet, the two tables and the reply buffer start.
    fn starts(&self) -> [usize; 4] {
        let facts = 2 * GUARD + self.sheet;
        let work = facts + self.lengths.facts + GUARD;
        [GUARD, facts, work, work + self.lengths.work + GUARD]
    }

    pub fn replies(&self) -> &[u8] {
        let at = self.starts()[3];
        &self.bytes[at..at + self.lengths.replies]
    }

    /// Lends the parts to a check.
    pub fn lend(&mut self, check: impl Fn(&[u8], &mut [u8], &mut [u8], &mut [u8]) -> u64) -> u64 {
        let [sheet, facts, work, replies] = self.starts();
        let Lengths { facts: m, work: w, replies: q } = self.lengths;
        let (front, rest) = self.bytes.split_at_mut(facts);
        let (first, rest) = rest.split_at_mut(work - facts);
        let (second, third) = rest.split_at_mut(replies - work);
        check(&front[sheet..sheet + self.sheet], &mut first[..m], &mut second[..w], &mut third[..q])
    }

    /// Lends the sheet alone.
    pub fn lend_sheet(&mut self, call: impl Fn(&[u8]) -> u64) -> u64 {
        call(&self.bytes[GUARD..GUARD + self.sheet])
    }

    /// Says in which part the first byte that differs lies.
    pub fn differs_from(&self, other: &Lent) -> Option<String> {
        let at = (0..self.bytes.len()).find(|&k| self.bytes[k] != other.bytes[k])?;
        let lengths = [self.sheet, self.lengths.facts, self.lengths.work, self.lengths.replies];
        let names = ["sheet", "first table", "second table", "reply buffer"];
        for ((start, length), name) in self.starts().into_iter().zip(lengths).zip(names) {
            if (start..start + length).contains(&at) {
                return Some(format!(
                    "byte {} of the {name} is {} and {}",
                    at - start,
                    self.bytes[at],
                    other.bytes[at]
                ));
            }
        }
        Some(format!("a byte that was not lent is {} and {}", self.bytes[at], other.bytes[at]))
    }
}
