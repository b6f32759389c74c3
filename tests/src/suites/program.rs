//! The built program on stored inputs against stored outputs, and on random ones against the model.

use crate::differences::hex;
use crate::model::program::{schema_length, text};
use crate::model::schema::Schema;
use crate::model::Model;
use crate::random::Random;
use crate::report::Report;
use crate::trials::program::{bytes_of, output, random_input, searches_in, test_file};
use std::fs;

type Outcome = Result<(), String>;

/// The stored inputs: each has an output beside it.
const STORED: &[&str] = &[
    "empty",
    "fifteen_bytes",
    "paper",
    "short_last_call",
    "no_unique_key",
    "parent_table_200",
    "match_full",
    "match_of_2",
    "folded",
    "folded_no_column",
    "windowed",
    "windowed_of_one",
    "words_8192",
    "words_8193",
];

const RANDOM_INPUTS: usize = 1_500;
const LEAST_SEARCHES: usize = 10_000;
const LEAST_BY_23: usize = 500;
const LEAST_FOLDED: usize = 200;
const LEAST_WINDOWED: usize = 100;
const LEAST_BY_24: usize = 200;

pub fn run(r: &mut Random, report: &mut Report) {
    for name in STORED {
        report.test(&format!("hoofrun: {}", name), stored(name));
    }
    report.test("hoofrun: the paper's calls cut at each byte", cut());
    let mut outcome = Ok(());
    let (mut inputs, mut searches, mut by_23, mut by_24) = (0, 0, 0, 0);
    let (mut folded, mut windowed) = (0, 0);
    while outcome.is_ok() && inputs < RANDOM_INPUTS {
        let input = random_input(r);
        searches += searches_in(&input);
        folded += usize::from(has(&input, Schema::any_folded));
        windowed += usize::from(has(&input, Schema::any_windowed));
        let printed = against_model(&input);
        if let Ok(text) = &printed {
            by_23 += refused_by(text, "23,");
            by_24 += refused_by(text, "24,");
        }
        outcome = printed.map(drop);
        inputs += 1;
    }
    println!(
        "{} random inputs of hoofrun compared with the model, {} with folded columns, {} with windowed \
         keys: {} calls of kinds 10 and 11, {} calls refused by 23, {} by 24",
        inputs, folded, windowed, searches, by_23, by_24
    );
    report.test("hoofrun: random inputs", outcome);
    let name = "hoofrun: calls of kinds 10 and 11";
    report.at_least(name, LEAST_SEARCHES, searches);
    report.at_least("hoofrun: calls refused by 23", LEAST_BY_23, by_23);
    report.at_least("hoofrun: calls refused by 24", LEAST_BY_24, by_24);
    report.at_least("hoofrun: inputs with folded columns", LEAST_FOLDED, folded);
    report.at_least(
        "hoofrun: inputs with windowed keys",
        LEAST_WINDOWED,
        windowed,
    );
}

/// Whether an input has an accepted schema that is so.
fn has(input: &[u8], is_so: fn(&Schema) -> bool) -> bool {
    let schema = Schema::read(&input[..schema_length(input)]);
    schema.map_or(false, |schema| is_so(&schema))
}

/// How many lines of a printed text begin with this code.
fn refused_by(text: &str, code: &str) -> usize {
    text.lines().filter(|line| line.starts_with(code)).count()
}

fn read(name: &str) -> Result<String, String> {
    let file = test_file("hoofrun").join(name);
    fs::read_to_string(&file).map_err(|why| format!("{}: {}", file.display(), why))
}

/// The program and the model print the stored output.
fn stored(name: &str) -> Outcome {
    let input = bytes_of(&read(&format!("{}.hex", name))?);
    let expected = read(&format!("{}.txt", name))?;
    same(&against_model(&input)?, &expected)
}

/// The outputs for all lengths, equal ones told once, are the stored text.
fn cut() -> Outcome {
    let input = bytes_of(&read("paper.hex")?);
    let mut groups: Vec<(usize, usize, String)> = Vec::new();
    for length in 0..=input.len() {
        let printed = output(&input[..length])?;
        match groups.last_mut() {
            Some(last) if last.2 == printed => last.1 = length,
            _ => groups.push((length, length, printed)),
        }
    }
    let told = |(from, to, printed): &(usize, usize, String)| {
        format!("cut to {} to {} bytes:\n{}\n", from, to, printed)
    };
    let all: String = groups.iter().map(told).collect();
    same(all.trim_end(), read("paper_cut.txt")?.trim_end())
}

/// The text that both the program and the model print.
fn against_model(input: &[u8]) -> Result<String, String> {
    let (found, expected) = (output(input)?, text(&Model::of_the_paper(), input));
    same(&found, &expected).map_err(|why| format!("{}; input {}", why, hex(input)))?;
    Ok(found)
}

fn same(found: &str, expected: &str) -> Outcome {
    if found == expected {
        Ok(())
    } else {
        Err(format!("printed {:?}, expected {:?}", found, expected))
    }
}
