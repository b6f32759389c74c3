//! The built program, and inputs for it.

use crate::engine::Engine;
use crate::inputs::grounds::{self, Ground};
use crate::inputs::{malformed, mixed_calls};
use crate::model::program::schema_length;
use crate::model::Model;
use crate::random::Random;
use std::fs::{self, File};
use std::path::PathBuf;
use std::process::Command;

/// A file of the tests' folder.
pub fn test_file(name: &str) -> PathBuf {
    PathBuf::from(env!("CARGO_MANIFEST_DIR")).join(name)
}

/// Runs the program on an input. Gives what it prints.
pub fn output(input: &[u8]) -> Result<String, String> {
    let program = test_file("../crates/hoofrun/out/hoofrun");
    let file = std::env::temp_dir().join(format!("hoofrun-input-{}", std::process::id()));
    fs::write(&file, input).map_err(|why| format!("{}: {}", file.display(), why))?;
    let opened = File::open(&file).map_err(|why| format!("{}: {}", file.display(), why));
    let output = Command::new(&program).stdin(opened?).output();
    let _ = fs::remove_file(&file);
    let output = output.map_err(|why| format!("{}: {}", program.display(), why))?;
    if !output.status.success() {
        return Err(format!("the program ends with {}", output.status));
    }
    String::from_utf8(output.stdout).map_err(|_| "the program prints no text".into())
}

/// The bytes of a stored input: pairs of hexadecimal digits; what follows # on a line is a remark.
pub fn bytes_of(stored: &str) -> Vec<u8> {
    let lines = stored
        .lines()
        .map(|line| line.split('#').next().unwrap_or(""));
    let pairs = lines.flat_map(str::split_whitespace);
    pairs
        .map(|pair| u8::from_str_radix(pair, 16).expect("a stored input is pairs of digits"))
        .collect()
}

/// A random input: a schema and calls, some of them damaged, cut short or too large.
pub fn random_input(r: &mut Random) -> Vec<u8> {
    let ground = match r.between(0, 9) {
        0 => grounds::large(r),
        1 => grounds::chain(r),
        _ => grounds::collisions(r),
    };
    let count = if r.once_in(40) {
        2_000
    } else {
        r.between(0, 60)
    };
    let mut input = ground.bytes.clone();
    if ground.schema.area_words() <= 8_192 {
        input.extend(random_calls(r, &ground, count));
    }
    match r.between(0, 9) {
        0 => input.truncate(r.between(0, input.len())),
        1 => {
            let at = r.between(0, ground.bytes.len() - 1);
            input[at] ^= r.between(1, 255) as u8;
        }
        2 => input.extend(vec![7; r.between(1, 200)]),
        _ => {}
    }
    input
}

/// How many calls of kinds 10 and 11 an input has.
pub fn searches_in(input: &[u8]) -> usize {
    let calls = input[schema_length(input)..].chunks_exact(96);
    let kind =
        |call: &[u8]| i64::from_le_bytes(call[..8].try_into().expect("a word has eight bytes"));
    calls.filter(|call| matches!(kind(call), 10 | 11)).count()
}

/// The bytes of calls that suit the area as it comes to be.
fn random_calls(r: &mut Random, ground: &Ground, count: usize) -> Vec<u8> {
    let model = Model::of_the_paper();
    let mut area = ground.fresh();
    let mut bytes = Vec::new();
    for _ in 0..count {
        let mut call = mixed_calls::any(r, ground, &area);
        if r.once_in(20) {
            call = malformed::spoiled(r, ground, call);
            call.resize(12, 0);
        }
        model.call(&ground.bytes, &mut area, &call);
        bytes.extend(call.iter().flat_map(|word| word.to_le_bytes()));
    }
    bytes
}
