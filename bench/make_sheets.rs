//! Writes the stored sheets of the benchmark from seeds, or with `--check` shows that they are as stored.

mod families;
mod ordinary;

#[allow(dead_code)]
mod stored;

#[path = "../tests/random/numbers.rs"]
#[allow(dead_code)]
mod numbers;

#[path = "../tests/random/sheets.rs"]
#[allow(dead_code)]
mod sheets;

use numbers::Numbers;
use sheets::Sheet;
use std::path::PathBuf;
use std::process::ExitCode;
use stored::Family;

/// What a family is asked: statements with so many features, or paths of at least so many.
enum Asked {
    Statements(usize),
    Paths(usize),
}

/// How a family comes about: its seed, what is asked, and what is stated.
struct Recipe {
    seed: u64,
    asked: Asked,
    state: fn(&mut Numbers, &mut Sheet),
}

/// In the order of the families.
const RECIPES: [Recipe; 8] = [
    Recipe { seed: 1101, asked: Asked::Statements(3), state: families::sparse_few },
    Recipe { seed: 1202, asked: Asked::Statements(200), state: families::sparse_many },
    Recipe { seed: 1303, asked: Asked::Statements(4), state: families::dense },
    Recipe { seed: 1404, asked: Asked::Statements(2), state: families::total_order },
    Recipe { seed: 1505, asked: Asked::Statements(1), state: families::reversed_chain },
    Recipe { seed: 1606, asked: Asked::Statements(8), state: families::one_cycle },
    Recipe { seed: 1707, asked: Asked::Statements(1), state: families::two_cycles },
    Recipe { seed: 1808, asked: Asked::Statements(8), state: families::order_selections },
];

/// In the order of the families that are asked for paths; by their seeds they state what two of the others do.
const PATH_RECIPES: [Recipe; 2] = [
    Recipe { seed: 1808, asked: Asked::Paths(1), state: families::order_selections },
    Recipe { seed: 1606, asked: Asked::Paths(8), state: families::one_cycle },
];

const ORDINARY_SEED: u64 = 1909;
const ORDINARY_SHEETS: u64 = 200;

const TABLE: usize = 128 * 128;

/// The kind of a sheet's outcome (0 consistent, 1 clash, 2 refused) and its fact table, by the second solver.
fn checked(sheet: &Sheet) -> (u64, Vec<u8>) {
    let (mut facts, mut work, mut replies) = (vec![0; TABLE], vec![0; TABLE], vec![0; 1_024]);
    let outcome = second::check(&sheet.bytes(), &mut facts, &mut work, &mut replies);
    (outcome & 255, facts)
}

fn is_consistent(sheet: &Sheet) -> bool {
    checked(sheet).0 == 0
}

fn different_labels(sheet: &Sheet) -> usize {
    let mut labels: Vec<u16> = sheet.records.iter().filter_map(|record| record.label).collect();
    labels.sort();
    labels.dedup();
    labels.len()
}

/// The sheet of a family at a size: consistent, and with labels that can clash.
fn sheet_of(recipe: &Recipe, n: usize) -> Sheet {
    let mut numbers = Numbers::of(recipe.seed, n as u64);
    let mut sheet = Sheet::over(n);
    (recipe.state)(&mut numbers, &mut sheet);
    let (_, table) = checked(&sheet);
    families::state_labels(&mut numbers, &mut sheet, &table);
    match recipe.asked {
        Asked::Statements(features) => families::ask(&mut numbers, &mut sheet, features),
        Asked::Paths(shortest) => families::ask_paths(&mut numbers, &mut sheet, &table, shortest),
    }
    assert!(is_consistent(&sheet), "seed {}, n = {n}: the sheet is refused or clashes", recipe.seed);
    assert!(different_labels(&sheet) > 1, "seed {}, n = {n}: fewer than two labels", recipe.seed);
    sheet
}

/// Ordinary sheets; of twenty one is not looked after, and may clash.
fn ordinary_sheets() -> Vec<Vec<u8>> {
    let one = |k: u64| {
        let mut numbers = Numbers::of(ORDINARY_SEED, k);
        ordinary::sheet(&mut numbers, |sheet| k % 20 == 19 || is_consistent(sheet)).bytes()
    };
    (0..ORDINARY_SHEETS).map(one).collect()
}

fn file(family: &Family, recipe: &Recipe, n: usize) -> (PathBuf, Vec<u8>) {
    (stored::path_of(family, n), sheet_of(recipe, n).bytes())
}

/// All files with their bytes.
fn files() -> Vec<(PathBuf, Vec<u8>)> {
    let mut all = Vec::new();
    for (family, recipe) in stored::FAMILIES.iter().zip(&RECIPES) {
        all.extend(stored::SIZES.map(|n| file(family, recipe, n)));
    }
    for (family, recipe) in stored::PATH_FAMILIES.iter().zip(&PATH_RECIPES) {
        all.extend(stored::PATH_SIZES.map(|n| file(family, recipe, n)));
    }
    all.push((stored::ordinary_path(), stored::together(&ordinary_sheets())));
    all
}

fn main() -> ExitCode {
    let check = std::env::args().nth(1).is_some_and(|word| word == "--check");
    let all = files();
    for (path, bytes) in &all {
        if !check {
            std::fs::write(path, bytes).expect("a file that can be written");
        } else if std::fs::read(path).ok().as_ref() != Some(bytes) {
            println!("{} is not what its seed gives", path.display());
            return ExitCode::FAILURE;
        }
    }
    let size: usize = all.iter().map(|(_, bytes)| bytes.len()).sum();
    println!("{} files of sheets, {size} bytes, as their seeds give", all.len());
    ExitCode::SUCCESS
}
