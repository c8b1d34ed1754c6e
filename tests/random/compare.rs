//! One sheet through the engine and through the second solver: the calls from C, and the program.

use crate::calls;
use crate::cases::{lengths, Case, Known};
use crate::labels;
use crate::lent::{Lengths, Lent};
use crate::numbers::Numbers;
use crate::paths;
use crate::tally::Tally;
use std::io::{Read, Write};
use std::process::{Command, Stdio};

/// Compares one call with the second solver, byte for byte, and counts it.
fn compare_call(case: &Case, lengths: Lengths, numbers: &mut Numbers, tally: &mut Tally) -> Result<(), String> {
    let mut engine = Lent::new(numbers, &case.bytes, lengths);
    let mut second = engine.clone();
    let (outcome, expected) = (engine.lend(calls::engine), second.lend(second::check));
    let Lengths { facts, work, replies } = lengths;
    let told = format!("lent {facts}, {work} and {replies} bytes");
    if outcome != expected {
        return Err(format!("{told}: the engine returns {outcome:#x}, the second solver {expected:#x}"));
    }
    if let Some(what) = engine.differs_from(&second) {
        return Err(format!("{told}: {what}, by the engine and by the second solver"));
    }
    tally.outcome(outcome, case.bytes.len());
    match (outcome & 255, &case.known) {
        (0, Known::Whole(whole)) => tally.reply(&whole.questions, engine.replies())?,
        (2, Known::Whole(_)) if outcome >> 8 & 255 < 8 => return Err("a sheet that is whole is refused".to_string()),
        (2, Known::Damaged(damage)) => tally.refused_at(damage, outcome),
        _ => {}
    }
    Ok(())
}

/// What the program writes when it reads these bytes; it has to end well and say nothing else.
fn run_program(program: &str, bytes: &[u8]) -> Result<String, String> {
    let mut command = Command::new(program);
    command.stdin(Stdio::piped()).stdout(Stdio::piped()).stderr(Stdio::piped());
    let mut child = command.spawn().map_err(|e| format!("{program} does not start: {e}"))?;
    // The program reads no further than the longest sheet, so the rest may find nobody to read it.
    let _ = child.stdin.take().expect("a pipe").write_all(bytes);
    let mut wrote = String::new();
    child.stdout.take().expect("a pipe").read_to_string(&mut wrote).map_err(|e| e.to_string())?;
    let ended = child.wait_with_output().map_err(|e| e.to_string())?;
    if !ended.status.success() || !ended.stderr.is_empty() {
        return Err(format!("{program} ends with {} and says {:?}", ended.status, ended.stderr));
    }
    Ok(wrote)
}

fn compare_run(program: &str, case: &Case, tally: &mut Tally) -> Result<(), String> {
    let (wrote, expected) = (run_program(program, &case.bytes)?, second::printed(&case.bytes));
    tally.runs += 1;
    if wrote == expected {
        return Ok(());
    }
    let line = wrote.lines().zip(expected.lines()).take_while(|(a, b)| a == b).count();
    let [a, b] = [&wrote, &expected].map(|text| text.lines().nth(line).unwrap_or("nothing"));
    Err(format!("line {}: the program prints {a:?}, the second solver {b:?}", line + 1))
}

pub fn compare(program: &str, case: &Case, numbers: &mut Numbers, tally: &mut Tally) -> Result<(), String> {
    tally.sheets += 1;
    for lengths in lengths(case, numbers) {
        compare_call(case, lengths, numbers, tally)?;
    }
    labels::compare(case, numbers, tally)?;
    paths::compare(case, numbers, tally)?;
    compare_run(program, case, tally)
}
