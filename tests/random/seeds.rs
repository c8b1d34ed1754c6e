//! The stored seeds.

/// A line of the seeds: a family, its seed, how many times it is drawn from.
pub struct Line {
    pub family: String,
    pub seed: u64,
    pub count: u64,
}

pub fn read(text: &str) -> Vec<Line> {
    let lines = text.lines().map(|line| line.split('#').next().unwrap_or("").split_whitespace().collect::<Vec<_>>());
    lines.filter(|words| !words.is_empty()).map(|words| seed_line(&words)).collect()
}

fn seed_line(words: &[&str]) -> Line {
    let number = |k: usize| words[k].parse().expect("a seed and a count");
    Line { family: words[0].to_string(), seed: number(1), count: number(2) }
}
