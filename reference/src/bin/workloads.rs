//! Blocks written a call. `workloads numbers` and `workloads stores` print the
//! Markdown tables of `docs/BLOCKS-WRITTEN.md`, `workloads plot` its plot as SVG.
//! `workloads check DOCUMENT PLOT` measures what `numbers` and `plot` print and says
//! whether both files have it; `workloads check-all DOCUMENT PLOT` looks at `stores`
//! too, which takes longer.

use reference::workloads::chosen::{all_cases, number_cases};
use reference::workloads::measure::Results;
use reference::workloads::plot::svg;
use reference::workloads::tables::{number_tables, store_tables};
use std::fs;
use std::process::ExitCode;

/// Reads the arguments, measures, and prints or compares.
fn main() -> ExitCode {
    let arguments: Vec<String> = std::env::args().skip(1).collect();
    let arguments: Vec<&str> = arguments.iter().map(String::as_str).collect();
    let numbers = || Results::of_cases(&number_cases());
    let all = || Results::of_cases(&all_cases());
    match arguments[..] {
        ["numbers"] => print!("{}", number_tables(&numbers())),
        ["stores"] => print!("{}", store_tables(&all())),
        ["plot"] => print!("{}", svg(&numbers())),
        ["check", document, plot] => return check(document, plot, false),
        ["check-all", document, plot] => return check(document, plot, true),
        _ => {
            eprintln!("usage: workloads numbers | stores | plot | check[-all] DOCUMENT PLOT");
            return ExitCode::FAILURE;
        }
    }
    ExitCode::SUCCESS
}

/// Compares both files with what is measured now; names each part that differs.
fn check(document: &str, plot: &str, all: bool) -> ExitCode {
    let (Ok(text), Ok(drawn)) = (fs::read_to_string(document), fs::read_to_string(plot)) else {
        eprintln!("{document} or {plot} cannot be read");
        return ExitCode::FAILURE;
    };
    let cases = if all { all_cases() } else { number_cases() };
    let results = Results::of_cases(&cases);
    let mut parts = vec![
        ("plot", Some(drawn.as_str()), svg(&results)),
        ("numbers", part(&text, "numbers"), number_tables(&results)),
    ];
    if all {
        parts.push(("stores", part(&text, "stores"), store_tables(&results)));
    }
    let differing = parts.iter().filter(|(_, stored, now)| *stored != Some(now));
    let names: Vec<&str> = differing.map(|&(name, _, _)| name).collect();
    if names.is_empty() {
        return ExitCode::SUCCESS;
    }
    println!("not what is measured now: {}", names.join(", "));
    ExitCode::FAILURE
}

/// What stands in the document between the two lines that name the part.
fn part<'a>(text: &'a str, name: &str) -> Option<&'a str> {
    let (_, after) = text.split_once(&format!("<!-- workloads {name}: begin -->\n"))?;
    let (inside, _) = after.split_once(&format!("<!-- workloads {name}: end -->\n"))?;
    Some(inside)
}
