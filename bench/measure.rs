//! Measures checks of the stored sheets by the engine, by the same algorithm in C, by the second solver and by rivals.
//!
//! `measure times` writes a line of least times for each sheet, `measure tables FILE` the tables of all such lines,
//! `measure rivals FILE` runs the rivals and puts them beside the engine.

mod reading;
mod rivals;
mod solvers;
mod tables;
mod timing;

#[allow(dead_code)]
mod stored;

#[path = "../tests/random/calls.rs"]
mod calls;

#[path = "../tests/random/sheets.rs"]
#[allow(dead_code)]
mod sheets;

use solvers::{Buffers, SOLVERS};
use std::process::ExitCode;
use stored::Job;
use timing::{least_times, Run};

// Moves all code behind this one by so many bytes.
std::arch::global_asm!(".section .text.shift,\"axR\"", ".balign 64", concat!(".skip ", env!("SHIFT")), ".text");

/// Fails where two solvers differ in an outcome, a table or a reply.
fn agree(job: &Job) -> Result<(), String> {
    for (k, sheet) in job.sheets.iter().enumerate() {
        let told = SOLVERS.map(|solver| {
            let mut lent = Buffers::new();
            (solver.check(sheet, &mut lent), lent)
        });
        if told[0] != told[1] || told[0] != told[2] {
            let outcomes = told.map(|(outcome, _)| outcome);
            return Err(format!("{}, n = {}, sheet {k}: the solvers differ; outcomes {outcomes:?}", job.name, job.n));
        }
    }
    Ok(())
}

fn write_times() -> Result<(), String> {
    let jobs = stored::jobs();
    jobs.iter().try_for_each(agree)?;
    for job in &jobs {
        let with_less = if job.asks_paths { reading::without_questions } else { reading::with_one_label };
        let less: Vec<Vec<u8>> = job.sheets.iter().map(|sheet| with_less(sheet)).collect();
        let [a, b, c] = SOLVERS.map(|solver| Run::new(solver, &job.sheets));
        let [d, e, f] = SOLVERS.map(|solver| Run::new(solver, &less));
        let times = least_times([a, b, c, d, e, f]);
        println!("{} {} {}", job.file, job.n, times.map(|time| format!("{time:.0}")).join(" "));
    }
    Ok(())
}

fn main() -> ExitCode {
    let words: Vec<String> = std::env::args().skip(1).collect();
    let done = match words.iter().map(String::as_str).collect::<Vec<_>>()[..] {
        ["times"] => write_times(),
        ["tables", file] => tables::print(file),
        ["rivals", file] => rivals::print(file),
        _ => Err("usage: measure times | measure tables FILE | measure rivals FILE".to_string()),
    };
    match done {
        Ok(()) => ExitCode::SUCCESS,
        Err(what) => {
            println!("{what}");
            ExitCode::FAILURE
        }
    }
}
