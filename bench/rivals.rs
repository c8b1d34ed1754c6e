//! What a user would pick instead: gringo, and SWI-Prolog with CHR, on derivation, clash and support.

use crate::reading;
use crate::solvers::{Buffers, Solver};
use crate::stored::{self, Job};
use crate::tables::{self, Times};
use std::fs::File;
use std::io;
use std::process::{Child, Command, Stdio};
use std::time::{Duration, Instant};

/// A run that takes longer is ended.
const LIMIT: Duration = Duration::from_secs(60);

/// Runs are repeated until they took this long together, or so many times.
const ENOUGH: f64 = 0.5;
const RUNS: usize = 20;

const FACTS: &str = "target/bench/facts.lp";
const WROTE: &str = "target/bench/rival.out";

/// How many <=, ~, clashes and supported questions there are.
type Counts = [usize; 4];

struct Rival {
    name: &'static str,
    package: &'static str,
    command: &'static [&'static str],
    count: fn(&str) -> Counts,
    /// Seconds that it takes on no facts at all.
    idle: f64,
}

const GRINGO: Rival = Rival {
    name: "gringo",
    package: "gringo",
    command: &["gringo", "bench/closure.lp"],
    count: count_shown,
    idle: 0.0,
};

/// The program that bench/run compiles closure.pl to.
const CHR: Rival = Rival {
    name: "CHR",
    package: "swi-prolog-nox",
    command: &["target/bench/closure_chr"],
    count: count_printed,
    idle: 0.0,
};

/// Counts the atoms that gringo shows: lines `4 LENGTH ATOM ...`.
fn count_shown(text: &str) -> Counts {
    let atoms: Vec<&str> = text.lines().filter_map(|line| line.strip_prefix("4 ")?.split(' ').nth(1)).collect();
    ["le(", "ok(", "clash(", "always("].map(|start| atoms.iter().filter(|atom| atom.starts_with(start)).count())
}

/// The four counts that closure.pl prints.
fn count_printed(text: &str) -> Counts {
    let words: Vec<usize> = text.split_whitespace().filter_map(|word| word.parse().ok()).collect();
    words.try_into().unwrap_or([usize::MAX; 4])
}

extern "C" {
    fn getrusage(who: i32, usage: *mut [i64; 18]) -> i32;
}

/// Processor time in seconds of all programs that were started here and have ended.
fn children_time() -> f64 {
    const CHILDREN: i32 = -1;
    let mut usage = [0; 18];
    // The first four of 18 numbers are seconds and microseconds of the user's and of the system's time.
    let failed = unsafe { getrusage(CHILDREN, &mut usage) };
    assert!(failed == 0, "no times of ended programs");
    (usage[0] + usage[2]) as f64 + (usage[1] + usage[3]) as f64 / 1e6
}

/// Waits for a program up to the limit, and ends it then; fails where the program does.
fn ends_in_time(child: &mut Child) -> io::Result<bool> {
    let start = Instant::now();
    while start.elapsed() < LIMIT {
        match child.try_wait()? {
            Some(status) if status.success() => return Ok(true),
            Some(status) => return Err(io::Error::other(format!("it ends with {status}"))),
            None => std::thread::sleep(Duration::from_millis(1)),
        }
    }
    child.kill()?;
    child.wait()?;
    Ok(false)
}

impl Rival {
    fn start(&self) -> io::Result<Child> {
        let mut command = Command::new(self.command[0]);
        command
            .args(&self.command[1..])
            .arg(FACTS)
            .stdin(Stdio::null())
            .stderr(Stdio::null())
            .stdout(File::create(WROTE)?);
        command.spawn()
    }

    /// Seconds of one run, if it ends in time.
    fn run(&self) -> io::Result<Option<f64>> {
        let before = children_time();
        let ended = ends_in_time(&mut self.start()?)?;
        Ok(ended.then(|| children_time() - before))
    }

    /// The least of some runs on these facts, less the time on none, and what was counted.
    fn measure(&self, facts: &str) -> io::Result<Option<(f64, Counts)>> {
        std::fs::write(FACTS, facts)?;
        let (mut least, mut spent) = (f64::INFINITY, 0.0);
        for _ in 0..RUNS {
            let Some(time) = self.run()? else { return Ok(None) };
            least = least.min(time);
            spent += time;
            if spent > ENOUGH {
                break;
            }
        }
        Ok(Some((least - self.idle, (self.count)(&std::fs::read_to_string(WROTE)?))))
    }

    /// The rival with its time on no facts, or nothing where it is not there.
    fn ready(mut self) -> Result<Option<Rival>, String> {
        match self.measure("") {
            Ok(Some((idle, _))) => self.idle = idle,
            Err(e) if e.kind() == io::ErrorKind::NotFound => {
                println!("{} is not there and left out: apt-get install {}", self.name, self.package);
                return Ok(None);
            }
            other => return Err(format!("{} without facts: {other:?}", self.name)),
        }
        println!("{} takes {:.1} ms without any facts; this is taken off below", self.name, self.idle * 1e3);
        Ok(Some(self))
    }
}

/// What the engine counts on a sheet.
fn engine_counts(sheet: &[u8]) -> Counts {
    let mut lent = Buffers::new();
    let outcome = Solver::Engine.check(sheet, &mut lent);
    let always = lent.replies.iter().filter(|&&reply| reply == 0).count();
    [(outcome >> 8 & 0xffff) as usize, (outcome >> 24) as usize, 0, always]
}

/// The rival's time in milliseconds and how many times the engine's that is, rounded down.
fn cells(rival: &Rival, job: &Job, engine: f64) -> Result<String, String> {
    let place = format!("{}, n = {}", job.file, job.n);
    let measured = rival.measure(&reading::facts(&job.sheets[0]));
    match measured.map_err(|e| format!("{}, {place}: {e}", rival.name))? {
        None => Ok(format!("{:>10} {:>9}", format!("> {} s", LIMIT.as_secs()), "")),
        Some((time, counts)) if counts == engine_counts(&job.sheets[0]) => {
            Ok(format!("{:>10.2} {:>9}", time * 1e3, (time * 1e9 / engine) as u64))
        }
        Some((_, counts)) => Err(format!("{}, {place}: counts are {counts:?}, not the engine's", rival.name)),
    }
}

fn row(job: &Job, times: &Times, rivals: &[Rival]) -> Result<String, String> {
    let [all, _, _, untried, ..] = *times;
    let mut row = format!("{:<26} {:>4} {:>11.3} {:>11.3}", job.name, job.n, all / 1e6, untried / 1e6);
    for rival in rivals {
        row = row + " " + &cells(rival, job, untried)?;
    }
    Ok(row)
}

pub fn print(file: &str) -> Result<(), String> {
    let times = tables::read_times(file)?;
    let mut rivals = Vec::new();
    for rival in [GRINGO, CHR] {
        rivals.extend(rival.ready()?);
    }
    if rivals.is_empty() {
        return Ok(());
    }
    let named: String = rivals.iter().map(|rival| format!(" {:>10} {:>9}", rival.name, "times")).collect();
    println!("{:<26} {:>4} {:>11} {:>11}{named}", "family, times in ms", "n", "engine", "no trials");
    for job in stored::jobs().iter().filter(|job| !job.asks_paths && job.file != stored::ORDINARY) {
        println!("{}", row(job, &times[&(job.file.to_string(), job.n)], &rivals)?);
    }
    Ok(())
}
