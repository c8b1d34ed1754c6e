//! Holds the engine against the second solver on sheets from stored seeds.
//!
//! `random compare SEEDS PROGRAM`: each sheet goes through the checking program, whose output has to be what the second
//! solver prints, and through the calls from C: the outcome, every byte of the memory around the call, and the labels
//! at roots and at paths have to be the same as the second solver's. `random clashes SEEDS FAMILY` counts the clashes
//! of one family by both.

mod calls;
mod cases;
mod compare;
mod damage;
mod families;
mod labels;
mod lent;
mod numbers;
#[path = "../../bench/ordinary.rs"]
mod ordinary;
mod path_families;
mod paths;
mod seeds;
mod sheets;
mod tally;
mod ways;

use lent::Lent;
use numbers::Numbers;
use seeds::Line;
use std::process::ExitCode;
use tally::Tally;

/// As many as there are processors: what is drawn for a sheet hangs on its seed alone.
fn threads() -> usize {
    std::thread::available_parallelism().map_or(2, usize::from)
}

/// Compares every so-many-th draw of each line, and stops where something differs: a tally for each line.
fn compare_share(program: &str, lines: &[Line], share: usize, of: usize) -> Result<Vec<Tally>, String> {
    lines.iter().map(|line| compare_line(program, line, share, of)).collect()
}

fn compare_line(program: &str, line: &Line, share: usize, of: usize) -> Result<Tally, String> {
    let mut tally = Tally::default();
    for draw in (share as u64..line.count).step_by(of) {
        let mut numbers = Numbers::of(line.seed, draw);
        for (k, case) in cases::cases(&line.family, &mut numbers).iter().enumerate() {
            let found = compare::compare(program, case, &mut numbers, &mut tally);
            let place = || format!("{} {}, draw {draw}, sheet {k}", line.family, line.seed);
            found.map_err(|what| format!("{}: {what}\nthe sheet: {:?}", place(), case.bytes))?;
        }
    }
    Ok(tally)
}

fn compare_all(program: &str, lines: &[Line]) -> Result<Vec<Tally>, String> {
    let of = threads();
    let shares: Vec<Result<Vec<Tally>, String>> = std::thread::scope(|scope| {
        let started: Vec<_> =
            (0..of).map(|share| scope.spawn(move || compare_share(program, lines, share, of))).collect();
        started.into_iter().map(|thread| thread.join().expect("a thread that ends")).collect()
    });
    let mut all: Vec<Tally> = lines.iter().map(|_| Tally::default()).collect();
    for share in shares {
        all.iter_mut().zip(&share?).for_each(|(line, part)| line.add(part));
    }
    Ok(all)
}

/// Prints a row for each family, then all counts; false where one is 0 that has no right to be.
fn report(lines: &[Line], tallies: &[Tally]) -> bool {
    let mut all = Tally::default();
    let mut missing = Vec::new();
    println!(
        "{:>20} {:>8} {:>8} {:>8} {:>10} {:>8} {:>8} {:>8}",
        "family", "sheets", "refused", "clash", "consistent", "never", "unstated", "at paths"
    );
    for (line, tally) in lines.iter().zip(tallies) {
        let (refused, never) = (tally.refused.iter().sum::<u64>(), tally.never());
        let Tally { sheets, clashed, consistent, labels: [_, _, unstated], paths: [told, ..], .. } = tally;
        println!(
            "{:>20} {sheets:>8} {refused:>8} {clashed:>8} {consistent:>10} {never:>8} {unstated:>8} {told:>8}",
            line.family
        );
        let for_clash = line.family.starts_with("clash-by") && *clashed == 0;
        let for_trial = line.family.contains("-trial") && never == 0;
        let for_path = line.family.starts_with("path-") && !tally.tells_of_paths();
        if for_clash || for_trial || for_path || line.family == "label-below" && *unstated == 0 {
            missing.push(format!("what {} is for", line.family));
        }
        all.add(tally);
    }
    for (name, count) in all.named() {
        println!("{count:>8} {name}");
        if count == 0 {
            missing.push(name);
        }
    }
    let Tally { sheets, runs, calls, labels: [asked, told, unstated], paths, .. } = all;
    let labels = format!("{asked} labels asked, {told} told, {unstated} not stated there");
    let labels = format!("{labels}, {} asked at paths, {} told", paths.iter().sum::<u64>(), paths[0]);
    println!("{sheets} sheets, {runs} runs of the program, {calls} calls, {labels}, 0 differences");
    if !missing.is_empty() {
        println!("not seen at all: {}", missing.join(", "));
    }
    missing.is_empty()
}

/// How many sheets of a line clash, by the engine and by the second solver.
fn count_clashes(line: &Line) -> [u64; 2] {
    let mut counts = [0; 2];
    for draw in 0..line.count {
        let mut numbers = Numbers::of(line.seed, draw);
        for case in cases::cases(&line.family, &mut numbers) {
            let lengths = cases::lengths(&case, &mut numbers)[0];
            let lent = Lent::new(&mut numbers, &case.bytes, lengths);
            let outcomes = [lent.clone().lend(calls::engine), lent.clone().lend(second::check)];
            counts.iter_mut().zip(outcomes).for_each(|(count, outcome)| *count += u64::from(outcome & 255 == 1));
        }
    }
    counts
}

fn compare_and_report(lines: &[Line], program: &str) -> ExitCode {
    match compare_all(program, lines) {
        Ok(tallies) if report(lines, &tallies) => ExitCode::SUCCESS,
        Ok(_) => ExitCode::FAILURE,
        Err(what) => {
            println!("{what}");
            ExitCode::FAILURE
        }
    }
}

fn main() -> ExitCode {
    let words: Vec<String> = std::env::args().skip(1).collect();
    let [mode, seeds, rest] = &words[..] else {
        eprintln!("usage: random compare SEEDS PROGRAM | random clashes SEEDS FAMILY");
        return ExitCode::from(2);
    };
    let lines = seeds::read(&std::fs::read_to_string(seeds).expect("the file of seeds"));
    if mode == "compare" {
        return compare_and_report(&lines, rest);
    }
    let line = lines.iter().find(|line| line.family == *rest).expect("a family of the seeds");
    let [engine, second] = count_clashes(line);
    println!("{engine} {second}");
    ExitCode::SUCCESS
}
