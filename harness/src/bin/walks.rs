//! `walks SECONDS [SEED]`: looks for a difference between the verified store, the
//! reference and a plain map in histories of puts and deletes, half of them with
//! tickets, each after its forecast, with stretches between them, for so many seconds,
//! and on till it has seen enough of all. Ends with 1 at the first difference, or if ten
//! times the time is not enough.
//! `walks --repeat SEED HISTORY` runs one history; `walks --self-test` plants faults
//! in stretches, tickets and forecasts and sees each of them reported.

use harness::asked::Asked;
use harness::calls::{Library, Package};
use harness::planted::{Fault, Planted};
use harness::walks::Walks;
use std::process::ExitCode;
use std::time::{Duration, Instant};

/// Stretches that a run must at least have of those that wrote records and said that
/// more follow, and tickets, and forecasts of a merge.
const ENOUGH: u64 = 1_000;

fn main() -> ExitCode {
    match Asked::read() {
        Some(Asked::SelfTest) => self_test(),
        Some(Asked::Repeat { seed, number }) => walks(seed, number, Duration::ZERO),
        Some(Asked::Run { time, seed }) => walks(seed, 0, time),
        None => {
            eprintln!("usage: walks SECONDS [SEED] | --repeat SEED HISTORY | --self-test");
            ExitCode::from(2)
        }
    }
}

/// Histories from `first` on, at least one, till the time is over.
fn walks(seed: u64, first: u64, time: Duration) -> ExitCode {
    println!("seed {seed}");
    let start = Instant::now();
    let mut walks = Walks::new(vec![&Library, &Package], seed);
    for history in first.. {
        if let Err(report) = walks.history(history) {
            println!("{}\n{report}", walks.counts);
            return ExitCode::FAILURE;
        }
        let counts = &walks.counts;
        let enough = counts.stretches.cut >= ENOUGH
            && counts.tickets.filled >= ENOUGH
            && counts.forecasts.merge >= ENOUGH;
        if time.is_zero() || start.elapsed() >= time && enough {
            break;
        }
        if start.elapsed() >= 10 * time {
            println!(
                "{counts}\nfewer than {ENOUGH} stretches with more, tickets or merges foretold"
            );
            return ExitCode::FAILURE;
        }
    }
    println!("{}", walks.counts);
    println!("no difference in {:.0} s", start.elapsed().as_secs_f64());
    ExitCode::SUCCESS
}

/// Plants each fault of a sound store's stretches, tickets and forecasts and runs histories
/// till it is reported.
fn self_test() -> ExitCode {
    let mut missed = 0;
    for fault in Fault::HISTORIES {
        let store = Planted {
            store: Library,
            fault,
        };
        let mut walks = Walks::new(vec![&store], 1);
        match (0..400).find_map(|history| walks.history(history).err()) {
            Some(report) => {
                let (histories, calls) = (walks.counts.histories, report.calls);
                let found = &report.difference;
                println!("{fault:?}: history {histories}, call {calls}: {found}");
            }
            None => {
                missed += 1;
                println!("{fault:?}: NOT REPORTED");
            }
        }
    }
    let planted = Fault::HISTORIES.len();
    println!("{planted} faults planted, {missed} not reported");
    ExitCode::from(u8::from(missed > 0))
}
