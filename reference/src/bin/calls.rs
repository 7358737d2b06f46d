//! The call list program of document 01: standard input to standard output.

use reference::script::{run_here, Bench};
use std::io;

/// Runs the call list on standard input.
fn main() -> io::Result<()> {
    run_here(Bench::answer)
}
