//! The least time of a check.

use crate::solvers::{Buffers, Solver};
use std::hint::black_box;

/// Nanoseconds that a batch of checks takes at least, and that all batches of a solver take together.
const BATCH: f64 = 5e6;
const ENOUGH: f64 = 6e7;

extern "C" {
    fn clock_gettime(clock: i32, time: *mut [i64; 2]) -> i32;
}

/// Processor time of this program in nanoseconds.
fn now() -> f64 {
    const PROCESS_TIME: i32 = 2;
    let mut time = [0; 2];
    // The clock writes seconds and nanoseconds.
    let failed = unsafe { clock_gettime(PROCESS_TIME, &mut time) };
    assert!(failed == 0, "no clock");
    time[0] as f64 * 1e9 + time[1] as f64
}

/// A solver, the sheets that it checks, and what was found so far.
pub struct Run<'a> {
    solver: Solver,
    sheets: &'a [Vec<u8>],
    rounds: usize,
    spent: f64,
    /// Nanoseconds of one check.
    pub least: f64,
}

impl<'a> Run<'a> {
    pub fn new(solver: Solver, sheets: &'a [Vec<u8>]) -> Run<'a> {
        let mut run = Run { solver, sheets, rounds: 1, spent: 0.0, least: f64::INFINITY };
        run.batch(&mut Buffers::new());
        run.rounds = 1 + (BATCH / run.spent) as usize;
        run
    }

    /// Checks all sheets so many times.
    fn batch(&mut self, lent: &mut Buffers) {
        let start = now();
        for _ in 0..self.rounds {
            for sheet in self.sheets {
                black_box(self.solver.check(black_box(sheet), lent));
            }
        }
        let time = now() - start;
        self.spent += time;
        self.least = self.least.min(time / (self.rounds * self.sheets.len()) as f64);
    }
}

/// The least time of one check in each run, the runs taken by turns.
pub fn least_times<const N: usize>(mut runs: [Run; N]) -> [f64; N] {
    let mut lent = Buffers::new();
    while runs.iter().any(|run| run.spent < ENOUGH) {
        for run in runs.iter_mut().filter(|run| run.spent < ENOUGH) {
            run.batch(&mut lent);
        }
    }
    runs.map(|run| run.least)
}
