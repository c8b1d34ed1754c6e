// Rows of bits, one bit for each variable, and square grids of such rows.

// The largest number of variables a sheet may have.
pub const MOST: usize = 128;

// A set of variables.
pub type Row = u128;

// One set of variables for each variable.
pub type Grid = [Row; MOST];

// The grid without any pair.
pub const EMPTY: Grid = [0; MOST];

// The set of one variable.
#[inline(always)]
pub fn bit(v: usize) -> Row {
    1 << (v & (MOST - 1))
}

// Whether the variable is in the set.
#[inline(always)]
pub fn holds(row: Row, v: usize) -> bool {
    (row >> (v & (MOST - 1))) & 1 == 1
}

// The least variable of a set that is not empty.
#[inline(always)]
pub fn least(row: Row) -> usize {
    row.trailing_zeros() as usize & (MOST - 1)
}

// The variables of a set that are still to be handed out, in rising order.
pub struct Members {
    word: u64,
    later: u64,
    base: usize,
}

// Hand out the variables of a set in rising order.
#[inline(always)]
pub fn members(row: Row) -> Members {
    Members {
        word: row as u64,
        later: (row >> 64) as u64,
        base: 0,
    }
}

impl Iterator for Members {
    type Item = usize;

    #[inline(always)]
    fn next(&mut self) -> Option<usize> {
        if self.word == 0 {
            if self.later == 0 {
                return None;
            }
            self.word = self.later;
            self.later = 0;
            self.base = 64;
        }
        let v = self.base + self.word.trailing_zeros() as usize;
        self.word &= self.word - 1;
        Some(v & (MOST - 1))
    }
}

// The grid that pairs each of the first n variables with itself.
pub fn diagonal(n: usize) -> Grid {
    let mut grid = EMPTY;
    for (v, row) in grid.iter_mut().enumerate().take(n) {
        *row = bit(v);
    }
    grid
}

// The number of pairs in a grid.
pub fn pairs(grid: &Grid) -> u64 {
    grid.iter().map(|row| u64::from(row.count_ones())).sum()
}
