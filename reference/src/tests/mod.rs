//! The tests. The random ones take their seed from REFERENCE_SEED, or 1, and
//! print it.

mod about;
mod checker;
mod damage;
mod fast;
mod faults;
mod figures;
mod forecast;
mod geometry;
mod lists;
mod live;
mod readings;
mod refusals;
mod scripts;
mod steps;
mod stretch;
mod tickets;
mod workloads;

use crate::block::Record;
use crate::cascade::lay_out;
use crate::geometry::Geometry;
use crate::layout::CURSOR;

/// The seed of the random tests.
fn seed() -> u64 {
    let seed = std::env::var("REFERENCE_SEED")
        .ok()
        .and_then(|text| text.parse().ok())
        .unwrap_or(1);
    println!("REFERENCE_SEED={seed}");
    seed
}

/// A put record.
fn set(key: u32, payload: u32) -> Record {
    Record {
        key,
        payload,
        tombstone: false,
    }
}

/// A tombstone.
fn tomb(key: u32) -> Record {
    Record {
        key,
        payload: 0,
        tombstone: true,
    }
}

/// Put records with payloads that tell their origin.
fn sets(keys: &[u32], origin: u32) -> Vec<Record> {
    keys.iter()
        .map(|&key| set(key, 1000 * origin + key))
        .collect()
}

/// A store with these records in level 0 and these blocks in the levels on flash,
/// at slots 5, 6, 7 .., whatever the form check says of it; live is counted.
fn build(numbers: [u32; 6], zero: &[Record], levels: &[&[Vec<Record>]]) -> Vec<u32> {
    let geometry = Geometry::new(numbers).expect("a legal geometry");
    let flash: Vec<_> = levels.iter().map(|blocks| blocks.to_vec()).collect();
    let mut slots = (5..geometry.slots() as u32).rev().collect();
    let mut words = vec![0; geometry.length()];
    words[CURSOR] = 3;
    lay_out(geometry, &mut words, zero, &flash, &mut slots);
    words
}
