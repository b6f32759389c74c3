//! The edge cases, run by the built engine and by the model, against the stored text.

use crate::edges;
use crate::engine::{Built, Engine};
use crate::model::Model;
use crate::random::Random;
use crate::report::Report;

const STORED: &str = include_str!("../../expected/edge_cases.txt");

pub fn run(_: &mut Random, report: &mut Report) {
    report.test("edge cases by the engine", compare(&Built));
    report.test("edge cases by the model", compare(&Model::of_the_paper()));
    let count = edges::all().len();
    println!("{} edge cases compared with the stored text", count);
}

/// Tells the first line in which the text of an engine differs from the stored one.
pub fn compare(engine: &dyn Engine) -> Result<(), String> {
    let text = edges::text(engine);
    if text == STORED {
        return Ok(());
    }
    let (found, stored): (Vec<&str>, Vec<&str>) =
        (text.lines().collect(), STORED.lines().collect());
    let at = found
        .iter()
        .zip(&stored)
        .take_while(|(a, b)| a == b)
        .count();
    let line = |lines: &[&str]| lines.get(at).unwrap_or(&"the end").to_string();
    let (found, stored) = (line(&found), line(&stored));
    Err(format!("line {}: '{}', stored '{}'", at + 1, found, stored))
}
