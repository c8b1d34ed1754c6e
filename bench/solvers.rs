//! The three solvers that are measured, behind one call.

use crate::calls::{call, engine};

extern "C" {
    fn reference_check(_: *const u8, _: usize, _: *mut u8, _: usize, _: *mut u8, _: usize, _: *mut u8, _: usize)
        -> u64;
}

fn reference(sheet: &[u8], facts: &mut [u8], work: &mut [u8], replies: &mut [u8]) -> u64 {
    call(reference_check, sheet, facts, work, replies)
}

#[derive(Clone, Copy)]
pub enum Solver {
    Engine,
    Reference,
    Second,
}

pub const SOLVERS: [Solver; 3] = [Solver::Engine, Solver::Reference, Solver::Second];

/// What a check is lent, with room for every sheet.
#[derive(PartialEq)]
pub struct Buffers {
    pub facts: Vec<u8>,
    pub work: Vec<u8>,
    pub replies: Vec<u8>,
}

impl Buffers {
    /// Each byte has the same value, which no solver writes.
    pub fn new() -> Buffers {
        Buffers { facts: vec![9; 16_384], work: vec![9; 16_384], replies: vec![9; 1_024] }
    }
}

impl Solver {
    pub fn check(self, sheet: &[u8], lent: &mut Buffers) -> u64 {
        let check = match self {
            Solver::Engine => engine,
            Solver::Reference => reference,
            Solver::Second => second::check,
        };
        check(sheet, &mut lent.facts, &mut lent.work, &mut lent.replies)
    }
}
