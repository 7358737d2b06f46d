//! The call list program with the tickets of document 02's card 3: after the line of a
//! put or delete one line `t LEVEL FIRST OVERLAP WRITTEN` for each of its merges.

use reference::script::{run_here, Bench};
use std::io;

/// Runs the call list on standard input.
fn main() -> io::Result<()> {
    run_here(Bench::trace)
}
