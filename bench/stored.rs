//! The stored sheets: each family at each size, and the ordinary ones.

use std::path::{Path, PathBuf};

/// What a family is called in the tables, and in the names of its files.
pub struct Family {
    pub name: &'static str,
    pub file: &'static str,
}

pub const FAMILIES: [Family; 8] = [
    Family { name: "sparse, few features", file: "sparse-few" },
    Family { name: "sparse, many features", file: "sparse-many" },
    Family { name: "dense", file: "dense" },
    Family { name: "total order", file: "total-order" },
    Family { name: "reversed chain", file: "reversed-chain" },
    Family { name: "one cycle, eight features", file: "one-cycle" },
    Family { name: "two coprime cycles", file: "two-cycles" },
    Family { name: "order, 1,024 selections", file: "order-selections" },
];

/// The families that are asked for paths.
pub const PATH_FAMILIES: [Family; 2] = [
    Family { name: "paths, 1,024 selections", file: "paths-selections" },
    Family { name: "paths, one cycle", file: "paths-one-cycle" },
];

/// How many variables the sheets of a family have.
pub const SIZES: [usize; 4] = [16, 32, 64, 128];
pub const PATH_SIZES: [usize; 2] = [32, 128];
pub const LARGEST: usize = 128;

/// How many questions each of them is asked.
pub const QUESTIONS: usize = 1_024;

/// The file name of the ordinary sheets, and how many variables each has.
pub const ORDINARY: &str = "ordinary";
pub const ORDINARY_SIZE: usize = 40;

/// Sheets that are measured together: one of a family, or all ordinary ones.
pub struct Job {
    pub name: &'static str,
    pub file: &'static str,
    pub n: usize,
    pub asks_paths: bool,
    pub sheets: Vec<Vec<u8>>,
}

pub fn path_of(family: &Family, n: usize) -> PathBuf {
    Path::new("bench/sheets").join(format!("{}-{n}.sheet", family.file))
}

/// The file of all ordinary sheets, each behind its length in two bytes.
pub fn ordinary_path() -> PathBuf {
    Path::new("bench/sheets").join(format!("{ORDINARY}.sheets"))
}

/// Ordinary sheets as they are stored.
pub fn together(sheets: &[Vec<u8>]) -> Vec<u8> {
    sheets.iter().flat_map(|sheet| [&(sheet.len() as u16).to_be_bytes()[..], sheet].concat()).collect()
}

/// The same, one by one.
fn apart(mut bytes: &[u8]) -> Vec<Vec<u8>> {
    let mut sheets = Vec::new();
    while let [high, low, rest @ ..] = bytes {
        let (sheet, behind) = rest.split_at(usize::from(u16::from_be_bytes([*high, *low])));
        sheets.push(sheet.to_vec());
        bytes = behind;
    }
    sheets
}

fn read(path: PathBuf) -> Vec<u8> {
    std::fs::read(&path).unwrap_or_else(|e| panic!("{}: {e}", path.display()))
}

fn job(family: &Family, n: usize, asks_paths: bool) -> Job {
    Job { name: family.name, file: family.file, n, asks_paths, sheets: vec![read(path_of(family, n))] }
}

/// All that is stored, the ordinary sheets last.
pub fn jobs() -> Vec<Job> {
    let mut all = Vec::new();
    for family in &FAMILIES {
        all.extend(SIZES.map(|n| job(family, n, false)));
    }
    for family in &PATH_FAMILIES {
        all.extend(PATH_SIZES.map(|n| job(family, n, true)));
    }
    let sheets = apart(&read(ordinary_path()));
    all.push(Job { name: ORDINARY, file: ORDINARY, n: ORDINARY_SIZE, asks_paths: false, sheets });
    all
}
