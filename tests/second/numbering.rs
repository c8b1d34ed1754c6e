// Small numbers, in order of arrival, for the feature or label numbers that a sheet names.

// Twice the largest number of names one sheet can bring, so that a free place is always left.
const PLACES: usize = 2048;

// The names met so far; a place holds one more than the small number, or 0 when it is free.
pub struct Numbering {
    places: Vec<u16>,
    names: Vec<u16>,
}

impl Numbering {
    // A numbering without names.
    pub fn new() -> Self {
        Numbering {
            places: vec![0; PLACES],
            names: Vec::new(),
        }
    }

    // The place of a name, or the free place where it would go.
    fn place(&self, name: u16) -> usize {
        let mut at = usize::from(name.wrapping_mul(40503) >> 5) % PLACES;
        while self.places[at] != 0 && self.names[usize::from(self.places[at]) - 1] != name {
            at = (at + 1) % PLACES;
        }
        at
    }

    // The names by their small numbers.
    pub fn names(&self) -> &[u16] {
        &self.names
    }

    // The small number of a name met before.
    pub fn find(&self, name: u16) -> Option<usize> {
        usize::from(self.places[self.place(name)]).checked_sub(1)
    }

    // The small number of a name, a fresh one if it was not met before.
    pub fn number(&mut self, name: u16) -> usize {
        let at = self.place(name);
        if self.places[at] == 0 {
            self.names.push(name);
            self.places[at] = self.names.len() as u16;
        }
        usize::from(self.places[at]) - 1
    }
}
