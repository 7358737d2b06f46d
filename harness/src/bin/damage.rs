//! `damage SECONDS [SEED]`: looks for a difference between the verified store and
//! the reference on damaged stores, for so many seconds, and on till it has seen
//! enough of them. Ends with 1 at the first difference, or if twice the time is not
//! enough.
//! `damage --repeat SEED GROUP` runs one group; `damage --self-test` plants faults
//! and sees each of them reported.

use harness::asked::Asked;
use harness::calls::{Library, Package};
use harness::planted::{Fault, Planted};
use harness::search::Search;
use std::process::ExitCode;
use std::time::{Duration, Instant};

/// Damaged stores, and calls, that a run must at least have, and merges: tickets filled,
/// and forecasts of a merge.
const ENOUGH: u64 = 100_000;
const ENOUGH_MERGES: u64 = 1_000;

fn main() -> ExitCode {
    match Asked::read() {
        Some(Asked::SelfTest) => self_test(),
        Some(Asked::Repeat { seed, number }) => search(seed, number, Duration::ZERO),
        Some(Asked::Run { time, seed }) => search(seed, 0, time),
        None => {
            eprintln!("usage: damage SECONDS [SEED] | --repeat SEED GROUP | --self-test");
            ExitCode::from(2)
        }
    }
}

/// Groups from `first` on, at least one, till the time is over.
fn search(seed: u64, first: u64, time: Duration) -> ExitCode {
    println!("seed {seed}");
    let start = Instant::now();
    let mut search = Search::new(vec![&Library, &Package], seed);
    for group in first.. {
        if let Err(report) = search.group(group) {
            println!("{}\n{report}", search.counts);
            return ExitCode::FAILURE;
        }
        let counts = &search.counts;
        let enough = counts.damaged >= ENOUGH
            && counts.calls >= ENOUGH
            && counts.tickets.filled >= ENOUGH_MERGES
            && counts.forecasts.merge >= ENOUGH_MERGES;
        if time.is_zero() || start.elapsed() >= time && enough {
            break;
        }
        if start.elapsed() >= 2 * time {
            println!(
                "{counts}\nfewer than {ENOUGH} damaged stores or calls, or {ENOUGH_MERGES} tickets or merges foretold"
            );
            return ExitCode::FAILURE;
        }
    }
    println!("{}", search.counts);
    println!("no difference in {:.0} s", start.elapsed().as_secs_f64());
    ExitCode::SUCCESS
}

/// Plants each fault and runs groups till it is reported.
fn self_test() -> ExitCode {
    let mut missed = 0;
    for fault in Fault::ALL {
        let store = Planted {
            store: Library,
            fault,
        };
        let mut search = Search::new(vec![&store], 1);
        match (0..400).find_map(|group| search.group(group).err()) {
            Some(report) => {
                let (stores, calls) = (search.counts.stores, search.counts.calls);
                let found = &report.difference;
                println!("{fault:?}: store {stores}, call {calls}: {found}");
            }
            None => {
                missed += 1;
                println!("{fault:?}: NOT REPORTED");
            }
        }
    }
    println!("{} faults planted, {missed} not reported", Fault::ALL.len());
    ExitCode::from(u8::from(missed > 0))
}
