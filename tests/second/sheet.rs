// Reading a sheet from left to right, with the refusals 1 to 7 and 10.

use crate::labels::Labels;
use crate::rows::{bit, Grid, EMPTY, MOST};

// The largest record count and the largest question count.
const MOST_COUNTED: usize = 1024;

// The length in bytes of the longest lawful sheet.
pub const LONGEST: usize = 28_678;

// The most features that a path has.
const LONGEST_PATH: usize = 8;

// Header bits.
const HAS_VARIABLES: u8 = 1;
const HAS_RECORDS: u8 = 2;
const HAS_QUESTIONS: u8 = 4;

// Record and question bits; a path is for questions alone.
const ORDER: u8 = 1;
const MATES: u8 = 2;
const SELECTS: u8 = 4;
const LABELLED: u8 = 8;
const PATH: u8 = 16;

// Why a sheet is refused, and where.
#[derive(Clone, Copy, Debug, PartialEq)]
pub struct Refusal {
    pub number: u8,
    pub offset: usize,
}

// The statement subject[feature]child.
#[derive(Clone, Copy)]
pub struct Selection {
    pub subject: usize,
    pub feature: u16,
    pub child: usize,
}

// A list of at least one feature.
#[derive(Clone, Copy)]
pub struct Path {
    places: [u16; LONGEST_PATH],
    length: usize,
}

impl Path {
    // The features from first to last.
    pub fn features(&self) -> &[u16] {
        &self.places[..self.length]
    }
}

// What one question asks.
#[derive(Clone, Copy)]
pub enum Question {
    Order(usize, usize),
    Mates(usize, usize),
    Selects(Selection),
    Labelled(usize, u16),
    Reaches(usize, Path),
}

// A whole sheet: the number of variables, what is stated, what is asked.
pub struct Sheet {
    pub count: usize,
    pub order: Grid,
    pub mates: Grid,
    pub selections: Vec<Selection>,
    pub labels: Labels,
    pub questions: Vec<Question>,
}

// A reading in progress.
struct Reader<'a> {
    bytes: &'a [u8],
    next: usize,
    count: usize,
}

// A refusal of the given number at the given offset.
fn refused<T>(number: u8, offset: usize) -> Result<T, Refusal> {
    Err(Refusal { number, offset })
}

impl Reader<'_> {
    // The next field of one byte.
    #[inline(always)]
    fn byte(&mut self) -> Result<u8, Refusal> {
        let Some(&byte) = self.bytes.get(self.next) else {
            return refused(1, self.bytes.len());
        };
        self.next += 1;
        Ok(byte)
    }

    // The next field of two bytes.
    #[inline(always)]
    fn word(&mut self) -> Result<u16, Refusal> {
        let Some(&[high, low]) = self.bytes.get(self.next..self.next + 2) else {
            return refused(1, self.bytes.len());
        };
        self.next += 2;
        Ok(u16::from_be_bytes([high, low]))
    }

    // The next field, a variable.
    #[inline(always)]
    fn variable(&mut self) -> Result<usize, Refusal> {
        let v = usize::from(self.byte()?);
        if v < self.count {
            Ok(v)
        } else {
            refused(6, self.next - 1)
        }
    }

    // The next field, a record or question count if it is there at all.
    fn counted(&mut self, there: bool) -> Result<usize, Refusal> {
        if !there {
            return Ok(0);
        }
        let count = usize::from(self.word()?);
        if count <= MOST_COUNTED {
            Ok(count)
        } else {
            refused(4, self.next - 2)
        }
    }

    // The next field, the map of a record or, where a single statement is due, of a question.
    #[inline(always)]
    fn map(&mut self, single: bool) -> Result<u8, Refusal> {
        let map = self.byte()?;
        let right = if single {
            map.is_power_of_two() && map <= PATH
        } else {
            map != 0 && map <= (ORDER | MATES | SELECTS | LABELLED)
        };
        if right {
            Ok(map)
        } else {
            refused(5, self.next - 1)
        }
    }

    // The next two fields, the feature and the child of a selection.
    #[inline(always)]
    fn selection(&mut self, subject: usize) -> Result<Selection, Refusal> {
        let feature = self.word()?;
        Ok(Selection {
            subject,
            feature,
            child: self.variable()?,
        })
    }

    // The next fields, the number of a path's features and the features.
    fn path(&mut self) -> Result<Path, Refusal> {
        let length = usize::from(self.byte()?);
        if !(1..=LONGEST_PATH).contains(&length) {
            return refused(10, self.next - 1);
        }
        let mut places = [0; LONGEST_PATH];
        for place in &mut places[..length] {
            *place = self.word()?;
        }
        Ok(Path { places, length })
    }

    // The header: the counts of records and questions; the count of variables stays with the reader.
    fn header(&mut self) -> Result<(usize, usize), Refusal> {
        let map = self.byte()?;
        if map & HAS_VARIABLES == 0 || map > (HAS_VARIABLES | HAS_RECORDS | HAS_QUESTIONS) {
            return refused(2, 0);
        }
        self.count = usize::from(self.byte()?);
        if self.count == 0 || self.count > MOST {
            return refused(3, 1);
        }
        let records = self.counted(map & HAS_RECORDS != 0)?;
        let questions = self.counted(map & HAS_QUESTIONS != 0)?;
        Ok((records, questions))
    }

    // The next record, taken into the sheet.
    fn record(&mut self, sheet: &mut Sheet) -> Result<(), Refusal> {
        let map = self.map(false)?;
        let i = self.variable()?;
        if map & ORDER != 0 {
            sheet.order[i] |= bit(self.variable()?);
        }
        if map & MATES != 0 {
            sheet.mates[i] |= bit(self.variable()?);
        }
        if map & SELECTS != 0 {
            sheet.selections.push(self.selection(i)?);
        }
        if map & LABELLED != 0 {
            sheet.labels.state(i, self.word()?);
        }
        Ok(())
    }

    // The next question.
    fn question(&mut self) -> Result<Question, Refusal> {
        let map = self.map(true)?;
        let i = self.variable()?;
        Ok(match map {
            ORDER => Question::Order(i, self.variable()?),
            MATES => Question::Mates(i, self.variable()?),
            SELECTS => Question::Selects(self.selection(i)?),
            LABELLED => Question::Labelled(i, self.word()?),
            _ => Question::Reaches(i, self.path()?),
        })
    }
}

// A sheet of the given number of variables that states and asks nothing.
fn blank(count: usize) -> Sheet {
    Sheet {
        count,
        order: EMPTY,
        mates: EMPTY,
        selections: Vec::new(),
        labels: Labels::new(),
        questions: Vec::new(),
    }
}

// Read a whole sheet.
pub fn read(bytes: &[u8]) -> Result<Sheet, Refusal> {
    let mut reader = Reader {
        bytes,
        next: 0,
        count: 0,
    };
    let (records, questions) = reader.header()?;
    let mut sheet = blank(reader.count);
    sheet.selections.reserve(records);
    sheet.questions.reserve(questions);
    for _ in 0..records {
        reader.record(&mut sheet)?;
    }
    for _ in 0..questions {
        sheet.questions.push(reader.question()?);
    }
    if reader.next < bytes.len() {
        return refused(7, reader.next);
    }
    Ok(sheet)
}
