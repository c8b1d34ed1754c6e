// The checking program: a sheet on standard input, its outcome on standard output.

use std::io::{self, Read, Write};

// The most bytes read: one more than the longest sheet has.
const MOST_READ: u64 = 28_679;

fn main() -> io::Result<()> {
    let mut sheet = Vec::new();
    io::stdin().lock().take(MOST_READ).read_to_end(&mut sheet)?;
    io::stdout().lock().write_all(second::printed(&sheet).as_bytes())
}
