//! Solvers that are called as C calls them.

/// The check as C calls it: the sheet, the two tables and the reply buffer, each an address and a length.
pub type InC = unsafe extern "C" fn(*const u8, usize, *mut u8, usize, *mut u8, usize, *mut u8, usize) -> u64;

extern "C" {
    fn check_sheet(
        sheet: *const u8,
        sheet_length: usize,
        facts: *mut u8,
        facts_length: usize,
        work: *mut u8,
        work_length: usize,
        replies: *mut u8,
        replies_length: usize,
    ) -> u64;
}

/// Calls a check with parts that are valid and share no byte.
pub fn call(check: InC, sheet: &[u8], facts: &mut [u8], work: &mut [u8], replies: &mut [u8]) -> u64 {
    let (f, w, r) = (facts.as_mut_ptr(), work.as_mut_ptr(), replies.as_mut_ptr());
    unsafe { check(sheet.as_ptr(), sheet.len(), f, facts.len(), w, work.len(), r, replies.len()) }
}

/// The engine's check.
pub fn engine(sheet: &[u8], facts: &mut [u8], work: &mut [u8], replies: &mut [u8]) -> u64 {
    call(check_sheet, sheet, facts, work, replies)
}
