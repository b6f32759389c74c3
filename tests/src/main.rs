//! Tests of the record engine. Each suite reports its tests by name; the last line counts them.

mod counts;
mod differences;
mod edges;
mod engine;
mod inputs;
mod mistakes;
mod model;
mod random;
mod report;
mod schema_bytes;
mod sqlite;
mod suites;
mod trials;

use engine::Built;
use random::Random;
use report::Report;
use std::process::ExitCode;

const DEFAULT_SEED: u64 = 0x686F_6F66;

/// The number in the environment variable SEED, if it is set.
fn seed() -> Result<u64, String> {
    match std::env::var("SEED") {
        Ok(text) => text
            .parse()
            .map_err(|_| format!("SEED is not a number below 2^64: {}", text)),
        Err(_) => Ok(DEFAULT_SEED),
    }
}

/// Whether a suite is asked for: it is named, or no suite is; and it is not named after a minus.
fn wanted(suite: &str, words: &[String]) -> bool {
    let (out, named): (Vec<&str>, Vec<&str>) = words
        .iter()
        .map(String::as_str)
        .partition(|word| word.starts_with('-'));
    (named.is_empty() || named.contains(&suite)) && !out.iter().any(|word| &word[1..] == suite)
}

/// Runs the suites named as arguments, or all, without those named after a minus.
/// The argument `edge-cases` prints that text instead.
fn main() -> ExitCode {
    let names: Vec<String> = std::env::args().skip(1).collect();
    if names == ["edge-cases"] {
        print!("{}", edges::text(&Built));
        return ExitCode::SUCCESS;
    }
    let seed = match seed() {
        Ok(seed) => seed,
        Err(message) => {
            eprintln!("{}", message);
            return ExitCode::FAILURE;
        }
    };
    println!("SEED={}", seed);
    let mut report = Report::default();
    for (name, suite) in suites::ALL {
        if wanted(name, &names) {
            suite(&mut Random::new(seed), &mut report);
        }
    }
    report.finish()
}
