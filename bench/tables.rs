//! The tables of what was measured.

use crate::reading;
use crate::solvers::{Buffers, Solver};
use crate::stored::{self, Family, Job};
use crate::stored::{FAMILIES, LARGEST, ORDINARY, ORDINARY_SIZE, PATH_FAMILIES, PATH_SIZES, QUESTIONS, SIZES};
use std::collections::HashMap;

/// Nanoseconds of one check by the engine, in C and by the second solver; then of one with less to do: without trials,
/// or where paths are asked for, without questions.
pub type Times = [f64; 6];

/// By file name and number of variables.
pub type AllTimes = HashMap<(String, usize), Times>;

/// The least times of all lines of a file.
pub fn read_times(file: &str) -> Result<AllTimes, String> {
    let text = std::fs::read_to_string(file).map_err(|e| format!("{file}: {e}"))?;
    let mut all = HashMap::new();
    for line in text.lines() {
        let words: Vec<&str> = line.split(' ').collect();
        let n = words[1].parse().map_err(|_| format!("{file}: {line}"))?;
        let least: &mut Times = all.entry((words[0].to_string(), n)).or_insert([f64::INFINITY; 6]);
        for (time, word) in least.iter_mut().zip(&words[2..]) {
            *time = time.min(word.parse().map_err(|_| format!("{file}: {line}"))?);
        }
    }
    Ok(all)
}

/// A ratio, rounded up.
fn ratio(a: f64, b: f64) -> f64 {
    (a / b * 100.0).ceil() / 100.0
}

/// What the engine tells of some sheets: how many are consistent, and sums of records, both counts and each reply.
fn told(job: &Job) -> [u64; 7] {
    let mut sums = [0; 7];
    for sheet in &job.sheets {
        let mut lent = Buffers::new();
        let outcome = Solver::Engine.check(sheet, &mut lent);
        if outcome & 255 != 0 {
            continue;
        }
        let replied = |reply: u8| lent.replies.iter().filter(|&&byte| byte == reply).count() as u64;
        let records = reading::read(sheet).records.len() as u64;
        let more = [1, records, outcome >> 8 & 0xffff, outcome >> 24, replied(0), replied(1), replied(2)];
        sums.iter_mut().zip(more).for_each(|(sum, one)| *sum += one);
    }
    sums
}

/// What the largest sheets say, and the means of the ordinary ones that are consistent.
fn print_told(jobs: &[Job]) {
    let heads = ["records", "<=", "~", "always", "never", "open"].map(|head| format!(" {head:>8}"));
    println!("{:<26} {:>4}{}", "sheet", "n", heads.concat());
    for job in jobs.iter().filter(|job| job.n == LARGEST || job.file == ORDINARY) {
        let [consistent, sums @ ..] = told(job);
        let digits = usize::from(consistent > 1);
        let means = sums.map(|sum| format!(" {:>8.digits$}", sum as f64 / consistent as f64));
        println!("{:<26} {:>4}{}", job.name, job.n, means.concat());
        if job.file == ORDINARY {
            println!("of {} ordinary sheets {consistent} are consistent, the others clash", job.sheets.len());
        }
    }
}

/// The head of a table of the three solvers' times.
fn print_head(rows: &str, unit: &str) {
    let times = ["engine", "C", "second"].map(|solver| format!(" {:>11}", format!("{solver}, {unit}")));
    println!("{rows:<26} {:>4}{} {:>9} {:>13}", "n", times.concat(), "engine/C", "engine/second");
}

fn print_times(times: &AllTimes) {
    print_head("family", "us");
    for (families, sizes) in [(&FAMILIES[..], &SIZES[..]), (&PATH_FAMILIES, &PATH_SIZES)] {
        for (family, n) in rows(families, sizes) {
            let [engine, reference, second, ..] = times[&(family.file.to_string(), n)];
            print_three(family, n, [engine, reference, second].map(|time| time / 1e3));
        }
    }
}

/// Each family at each size.
fn rows<'a>(families: &'a [Family], sizes: &'a [usize]) -> impl Iterator<Item = (&'a Family, usize)> {
    families.iter().flat_map(|family| sizes.iter().map(move |&n| (family, n)))
}

/// A row of the three solvers' times and what the engine's are by the others'.
fn print_three(family: &Family, n: usize, [engine, reference, second]: [f64; 3]) {
    let (by_reference, by_second) = (ratio(engine, reference), ratio(engine, second));
    println!(
        "{:<26} {n:>4} {engine:>11.1} {reference:>11.1} {second:>11.1} {by_reference:>9.2} {by_second:>13.2}",
        family.name
    );
}

/// Nanoseconds of one question: what the check takes beyond that without questions, by their number.
fn print_paths(times: &AllTimes) {
    print_head("a question for a path", "ns");
    for (family, n) in rows(&PATH_FAMILIES, &PATH_SIZES) {
        let [a, b, c, less_a, less_b, less_c] = times[&(family.file.to_string(), n)];
        print_three(family, n, [a - less_a, b - less_b, c - less_c].map(|time| time / QUESTIONS as f64));
    }
}

/// The largest sheets with one label for all, on which no question is tried by a derivation.
fn print_untried(times: &AllTimes) {
    let n = LARGEST;
    println!("{:<26} {:>4} {:>11} {:>11} {:>13}", "without trials", "n", "engine, us", "second, us", "engine/second");
    for family in &FAMILIES {
        let [.., engine, _, second] = times[&(family.file.to_string(), n)].map(|time| time / 1e3);
        println!("{:<26} {n:>4} {engine:>11.1} {second:>11.1} {:>13.2}", family.name, ratio(engine, second));
    }
}

/// How many times as long twice as many variables take, and the power of n that this is.
fn growth(times: &AllTimes, file: &str, n: usize, solver: usize) -> String {
    let [small, large] = [n, 2 * n].map(|n| times[&(file.to_string(), n)][solver]);
    format!("{:.2} ({:.2})", large / small, (large / small).log2())
}

fn print_growth(times: &AllTimes) {
    println!("{:<26} {:>29} {:>29}", "", "engine", "second solver");
    println!("{:<26} {:>14} {:>14} {:>14} {:>14}", "family", "32 to 64", "64 to 128", "32 to 64", "64 to 128");
    for family in &FAMILIES {
        let of = |n, solver| growth(times, family.file, n, solver);
        let columns = [of(32, 0), of(64, 0), of(32, 2), of(64, 2)].map(|cell| format!("{cell:>14}"));
        println!("{:<26} {}", family.name, columns.join(" "));
    }
}

fn print_ordinary(times: &AllTimes) {
    let [engine, reference, second, ..] = times[&(ORDINARY.to_string(), ORDINARY_SIZE)];
    println!("{:<26} {:>10} {:>10} {:>10}", "ordinary sheets", "engine", "C", "second");
    println!("{:<26} {:>10.1} {:>10.1} {:>10.1}", "us a sheet", engine / 1e3, reference / 1e3, second / 1e3);
    let [a, b, c] = [engine, reference, second].map(|time| (1e9 / time) as u64);
    println!("{:<26} {a:>10} {b:>10} {c:>10}", "sheets a second");
    println!("engine/C {:.2}, engine/second {:.2}", ratio(engine, reference), ratio(engine, second));
}

pub fn print(file: &str) -> Result<(), String> {
    let times = read_times(file)?;
    print_told(&stored::jobs());
    println!();
    print_times(&times);
    println!();
    print_untried(&times);
    println!();
    print_paths(&times);
    println!();
    print_growth(&times);
    println!();
    print_ordinary(&times);
    Ok(())
}
