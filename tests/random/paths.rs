//! The labels at paths: the engine's check that tells them, from C, beside the second solver's, for one sheet.

use crate::cases::{lengths, Case, Known};
use crate::lent::{Lengths, Lent};
use crate::numbers::Numbers;
use crate::tally::{AtPath, Tally};

extern "C" {
    fn check_path(
        sheet: *const u8,
        sheet_length: usize,
        facts: *mut u8,
        facts_length: usize,
        work: *mut u8,
        work_length: usize,
        replies: *mut u8,
        replies_length: usize,
        question: u32,
    ) -> u64;
}

/// So many of a sheet's paths are asked for, chosen by chance where it has more.
const SOME: usize = 3;

/// The map of a question for a path.
const PATH: u8 = 16;

/// The engine's check, with parts that are valid and share no byte.
fn engine(sheet: &[u8], facts: &mut [u8], work: &mut [u8], replies: &mut [u8], question: u32) -> u64 {
    let (f, w, r) = (facts.as_mut_ptr(), work.as_mut_ptr(), replies.as_mut_ptr());
    unsafe { check_path(sheet.as_ptr(), sheet.len(), f, facts.len(), w, work.len(), r, replies.len(), question) }
}

/// The numbers of the questions that are for a path, or of those that are not.
fn questions(maps: &[u8], for_path: bool) -> Vec<u32> {
    (0..maps.len()).filter(|&q| (maps[q] == PATH) == for_path).map(|q| q as u32).collect()
}

/// Some of a list, all where it has no more.
fn some(numbers: &mut Numbers, list: &[u32]) -> Vec<u32> {
    if list.len() <= SOME {
        return list.to_vec();
    }
    (0..SOME).map(|_| numbers.pick(list)).collect()
}

/// Paths of a sheet, a question of another kind, the number behind the last and one further beyond: at the ends of what
/// a count, a byte and two bytes can hold, or a path's number and so much more.
fn asked_of_whole(numbers: &mut Numbers, maps: &[u8]) -> Vec<u32> {
    let mut all = some(numbers, &questions(maps, true));
    let (count, path) = (maps.len() as u32, all.first().map_or(0, |&q| q));
    let others = questions(maps, false);
    if !others.is_empty() {
        all.push(numbers.pick(&others));
    }
    let further = [path + 256, path + 1_024, path + 65_536, path + (1 << 31), count + 1, 1_024, 65_535, u32::MAX];
    all.push(count);
    all.push(numbers.pick(&further).max(count));
    all
}

/// Question numbers to ask for.
fn asked(case: &Case, numbers: &mut Numbers) -> Vec<u32> {
    match &case.known {
        Known::Whole(whole) => asked_of_whole(numbers, &whole.questions),
        _ => vec![numbers.below(16) as u32, numbers.pick(&[1_024, 65_536, u32::MAX])],
    }
}

/// What came of a call, as far as that is known.
fn came_of(case: &Case, question: u32, outcome: u64, replies: &[u8]) -> Option<AtPath> {
    match (outcome & 255, outcome >> 8 & 255) {
        (1, _) => return Some(AtPath::Clash),
        (2, 8) => return Some(AtPath::ShortTable),
        (2, 9) => return Some(AtPath::ShortReplies),
        (2, _) => return Some(AtPath::Refused),
        _ => {}
    }
    let Known::Whole(whole) = &case.known else {
        return None;
    };
    Some(match whole.questions.get(question as usize) {
        None => AtPath::NoQuestion,
        Some(&map) if map != PATH => AtPath::OtherQuestion,
        _ if outcome >> 40 != 0 => AtPath::Told,
        _ if replies[question as usize] == 0 => AtPath::Unlabelled,
        _ => AtPath::Open,
    })
}

/// Compares one call with the second solver, byte for byte, and counts it.
fn compare_call(
    case: &Case,
    question: u32,
    lengths: Lengths,
    numbers: &mut Numbers,
    tally: &mut Tally,
) -> Result<(), String> {
    let mut lent = Lent::new(numbers, &case.bytes, lengths);
    let mut second = lent.clone();
    let outcome = lent.lend(|sheet, facts, work, replies| engine(sheet, facts, work, replies, question));
    let expected = second.lend(|sheet, facts, work, replies| second::check_path(sheet, facts, work, replies, question));
    let Lengths { facts, work, replies } = lengths;
    let told = format!("path of question {question}, lent {facts}, {work} and {replies} bytes");
    if outcome != expected {
        return Err(format!("{told}: the engine returns {outcome:#x}, the second solver {expected:#x}"));
    }
    if let Some(what) = lent.differs_from(&second) {
        return Err(format!("{told}: {what}, by the engine and by the second solver"));
    }
    if let Some(what) = came_of(case, question, outcome, lent.replies()) {
        tally.at_path(what);
    }
    Ok(())
}

/// Compares calls for a sheet: each number with its one lending, or one number with each lending.
pub fn compare(case: &Case, numbers: &mut Numbers, tally: &mut Tally) -> Result<(), String> {
    let (asked, lendings) = (asked(case, numbers), lengths(case, numbers));
    if let [lengths] = lendings[..] {
        return asked.into_iter().try_for_each(|question| compare_call(case, question, lengths, numbers, tally));
    }
    lendings.into_iter().try_for_each(|lengths| {
        let question = numbers.pick(&asked);
        compare_call(case, question, lengths, numbers, tally)
    })
}
