// Sheets of the plain solver as bytes, and back.

use crate::plain::Said::{self, Below, Labelled, Mates, Reaches, Selects};
use crate::plain::{Path, Plain};

// The map bit of a statement.
fn map_bit(one: &Said) -> u8 {
    match one {
        Below(..) => 1,
        Mates(..) => 2,
        Selects(..) => 4,
        Labelled(..) => 8,
        Reaches(..) => 16,
    }
}

// The subject of a statement.
pub fn subject(one: &Said) -> usize {
    match *one {
        Below(i, _) | Mates(i, _) | Selects(i, _, _) | Labelled(i, _) | Reaches(i, _) => i,
    }
}

// The fields of one statement behind map and subject.
fn fields(one: &Said, out: &mut Vec<u8>) {
    match *one {
        Below(_, j) | Mates(_, j) => out.push(j as u8),
        Selects(_, f, j) => out.extend([(f >> 8) as u8, f as u8, j as u8]),
        Labelled(_, a) => out.extend([(a >> 8) as u8, a as u8]),
        Reaches(_, path) => {
            out.push(path.features().len() as u8);
            path.features().iter().for_each(|f| out.extend(f.to_be_bytes()));
        }
    }
}

// The bytes of one record, whose statements stand in the order of their bits and share one subject.
fn record(said: &[Said], out: &mut Vec<u8>) {
    out.push(said.iter().map(map_bit).sum());
    out.push(subject(&said[0]) as u8);
    said.iter().for_each(|one| fields(one, out));
}

// The bytes of a sheet.
pub fn encode(sheet: &Plain) -> Vec<u8> {
    let (r, q) = (sheet.records.len(), sheet.questions.len());
    let mut out = vec![1 + 2 * u8::from(r > 0) + 4 * u8::from(q > 0), sheet.n as u8];
    for count in [r, q] {
        if count > 0 {
            out.extend([(count >> 8) as u8, count as u8]);
        }
    }
    sheet.records.iter().for_each(|said| record(said, &mut out));
    sheet
        .questions
        .iter()
        .for_each(|&question| record(&[question], &mut out));
    out
}

// A refusal: its number and offset.
pub type Refused = (u64, u64);

// Judge a field at an offset.
fn judge(good: bool, number: u64, at: usize) -> Result<(), Refused> {
    if good {
        Ok(())
    } else {
        Err((number, at as u64))
    }
}

// The number that stands in the given number of bytes at an offset.
fn field(b: &[u8], at: usize, width: usize) -> Result<usize, Refused> {
    match b.get(at..at + width) {
        Some(bytes) => Ok(bytes.iter().fold(0, |all, &byte| all * 256 + usize::from(byte))),
        None => Err((1, b.len() as u64)),
    }
}

// Read the header: the counts of variables, records and questions, and the offset behind it.
fn decode_header(b: &[u8]) -> Result<([usize; 3], usize), Refused> {
    let map = field(b, 0, 1)?;
    judge([1, 3, 5, 7].contains(&map), 2, 0)?;
    let (mut counts, mut at) = ([field(b, 1, 1)?, 0, 0], 2);
    judge((1..=128).contains(&counts[0]), 3, 1)?;
    for which in [1, 2] {
        if map >> which & 1 == 1 {
            counts[which] = field(b, at, 2)?;
            judge(counts[which] <= 1024, 4, at)?;
            at += 2;
        }
    }
    Ok((counts, at))
}

// Read the count and the features of a path: the path and the offset behind it.
fn decode_path(b: &[u8], at: usize) -> Result<(Path, usize), Refused> {
    let count = field(b, at, 1)?;
    judge(count != 0 && count < 9, 10, at)?;
    let mut features = Vec::new();
    for k in 0..count {
        features.push(field(b, at + 1 + 2 * k, 2)? as u16);
    }
    Ok((Path::of(&features), at + 1 + 2 * count))
}

// Read the statement of one map bit: the statement and the offset behind it.
fn decode_statement(b: &[u8], n: usize, i: usize, bit: usize, mut at: usize) -> Result<(Said, usize), Refused> {
    if bit == 4 {
        let (path, behind) = decode_path(b, at)?;
        return Ok((Reaches(i, path), behind));
    }
    let (mut name, mut j) = (0, 0);
    if bit >= 2 {
        name = field(b, at, 2)? as u16;
        at += 2;
    }
    if bit <= 2 {
        j = field(b, at, 1)?;
        judge(j < n, 6, at)?;
        at += 1;
    }
    let forms = [Below(i, j), Mates(i, j), Selects(i, name, j), Labelled(i, name)];
    Ok((forms[bit], at))
}

// Read a record, or a question if it is one: its statements and the offset behind it.
fn decode_record(b: &[u8], n: usize, asked: bool, at: usize) -> Result<(Vec<Said>, usize), Refused> {
    let map = field(b, at, 1)?;
    let bits: Vec<usize> = (0..8).filter(|bit| map >> bit & 1 == 1).collect();
    let known = !bits.is_empty() && bits.iter().all(|&bit| bit < if asked { 5 } else { 4 });
    judge(known && (!asked || bits.len() == 1), 5, at)?;
    let i = field(b, at + 1, 1)?;
    judge(i < n, 6, at + 1)?;
    let (mut said, mut next) = (Vec::new(), at + 2);
    for bit in bits {
        let (one, behind) = decode_statement(b, n, i, bit, next)?;
        said.push(one);
        next = behind;
    }
    Ok((said, next))
}

// Read a sheet; gives the refusal or the sheet.
pub fn decode(b: &[u8]) -> Result<Plain, Refused> {
    let ([n, records, questions], mut at) = decode_header(b)?;
    let mut sheet = Plain { n, ..Plain::default() };
    for _ in 0..records {
        let (said, behind) = decode_record(b, n, false, at)?;
        sheet.records.push(said);
        at = behind;
    }
    for _ in 0..questions {
        let (said, behind) = decode_record(b, n, true, at)?;
        sheet.questions.push(said[0]);
        at = behind;
    }
    judge(at == b.len(), 7, at)?;
    Ok(sheet)
}
