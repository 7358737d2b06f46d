//! Prints the stored test of the program `readings`: `readings SEED input` its
//! input, `readings SEED output` what it has to print, `readings SEED kinds` how
//! many cases there are of each kind.

use reference::readings::{cases, files, Case};
use std::collections::BTreeMap;
use std::io::{self, Write};
use std::process::ExitCode;

/// Reads the arguments and prints the file.
fn main() -> ExitCode {
    let arguments: Vec<String> = std::env::args().skip(1).collect();
    let seed = arguments.first().and_then(|text| text.parse().ok());
    let what = arguments.get(1).map(String::as_str);
    let (Some(seed), Some(what)) = (seed, what) else {
        return usage();
    };
    let cases = cases(seed);
    let files = files(&cases);
    let bytes: Vec<u8> = match what {
        "input" => files.input.iter().flat_map(|w| w.to_le_bytes()).collect(),
        "output" => files.output.into_bytes(),
        "kinds" => kinds(&cases).into_bytes(),
        _ => return usage(),
    };
    match io::stdout().lock().write_all(&bytes) {
        Ok(()) => ExitCode::SUCCESS,
        Err(_) => ExitCode::FAILURE,
    }
}

/// Says what the arguments are.
fn usage() -> ExitCode {
    eprintln!("usage: readings SEED input|output|kinds");
    ExitCode::FAILURE
}

/// A line for each kind of case with its number.
fn kinds(cases: &[Case]) -> String {
    let mut counts = BTreeMap::new();
    for case in cases {
        *counts.entry(case.kind).or_insert(0) += 1;
    }
    let lines = counts
        .iter()
        .map(|(kind, count)| format!("{count} {kind:?}\n"));
    lines.collect()
}
