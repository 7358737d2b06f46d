//! `bench [SECONDS] [FILE]`: times of the verified store, as ratios measured in one
//! run, on full stores (live = N, level 0 as it stands after many puts) of growing
//! geometries, in about so many seconds (45). It prints tables with the lowest and
//! the highest of its repetitions, and for each aim whether it is met, missed or
//! within their noise; nothing depends on its times. FILE gets the same figures, a
//! line each, for `harness/runs`.

use harness::cold::Work;
use harness::measure::{full_store, Rounds};
use harness::table::{lines, print, Row};
use reference::geometry::Geometry;
use std::thread;
use std::time::{Duration, Instant};

/// From geometry A to the largest: 8,192 places and 1,024 blocks in level h. The last
/// has the most words that a legal store can have.
const GEOMETRIES: [[u32; 6]; 9] = [
    [4, 1, 2, 4, 1, 40],
    [8, 2, 4, 4, 1, 136],
    [16, 2, 4, 8, 1, 264],
    [16, 1, 4, 8, 2, 1160],
    [16, 16, 8, 8, 1, 8192],
    [16, 2, 8, 8, 2, 8192],
    [16, 1, 2, 8, 3, 8192],
    [16, 1, 16, 4, 3, 8192],
    [16, 16, 16, 2, 2, 8192],
];

/// Time for all geometries together, where none is given.
const SECONDS: u64 = 45;

/// Blocks of rounds of each geometry, spread over the run.
const BLOCKS: usize = 5;

/// The share of the time that a geometry gets.
fn share(numbers: &[u32; 6]) -> u32 {
    if numbers[5] == 8192 {
        4
    } else {
        1
    }
}

/// A full store of each geometry, made side by side: making them is not timed.
fn stores() -> Vec<Rounds> {
    let make = |numbers: &[u32; 6]| {
        let geometry = Geometry::new(*numbers).expect("a legal geometry");
        let (store, keys) = full_store(geometry);
        Rounds::new(geometry, store, &keys)
    };
    thread::scope(|scope| {
        let making = GEOMETRIES.each_ref().map(|n| scope.spawn(move || make(n)));
        making.map(|one| one.join().expect("a store")).into()
    })
}

fn main() {
    let mut asked = std::env::args().skip(1);
    let seconds = asked.next().and_then(|text| text.parse().ok());
    let time = Duration::from_secs(seconds.unwrap_or(SECONDS));
    let start = Instant::now();
    let mut all = stores();
    let mut work = Work::new();
    let order = (0..BLOCKS).flat_map(|_| GEOMETRIES.iter().map(share).enumerate());
    let mut shares: u32 = order.clone().map(|(_, share)| share).sum();
    for (geometry, share) in order {
        let left = time.saturating_sub(start.elapsed());
        all[geometry].block(left * share / shares, &mut work);
        shares -= share;
    }
    let rows: Vec<Row> = all.iter().map(Row::new).collect();
    print(&rows);
    if let Some(file) = asked.next() {
        std::fs::write(&file, lines(&rows)).expect("a file that can be written");
    }
}
