//! Prints a call list: a random one, `generate SEED LINES [--noise]`, or with `generate
//! --slow` the one of `lists/slow.calls`, whose last put makes five merges.

use reference::cascade::Cascade;
use reference::generate::{call_list, printed};
use std::io::{self, Write};
use std::process::ExitCode;

/// Reads the arguments and prints the list.
fn main() -> ExitCode {
    let arguments: Vec<String> = std::env::args().skip(1).collect();
    let words: Vec<&str> = arguments.iter().map(String::as_str).collect();
    let number = |at: usize| words.get(at).and_then(|text| text.parse::<u64>().ok());
    let list = match (&words[..], number(0), number(1)) {
        (["--slow"], ..) => printed(&Cascade::ALL[0].call_list()),
        ([_, _], Some(seed), Some(lines)) => call_list(seed, lines as usize, false),
        ([_, _, "--noise"], Some(seed), Some(lines)) => call_list(seed, lines as usize, true),
        _ => {
            eprintln!("usage: generate SEED LINES [--noise] | --slow");
            return ExitCode::FAILURE;
        }
    };
    match io::stdout().lock().write_all(&list) {
        Ok(()) => ExitCode::SUCCESS,
        Err(_) => ExitCode::FAILURE,
    }
}
