//! Random call lists, from formatted stores and from stores that no call list
//! reaches.

use super::checker::{Checked, Checker, Statistics};
use super::seed;
use crate::calls;
use crate::generate::{Choices, Stream};
use crate::geometry::Geometry;
use crate::random::Random;
use crate::unreachable;

/// Runs so many random calls on a store.
pub fn run_calls(
    random: &mut Random,
    words: Vec<u32>,
    geometry: Geometry,
    calls: usize,
    statistics: &mut Statistics,
) -> Checked {
    let mut checker = Checker::new(words, statistics.clone())?;
    let live = checker.map.keys().copied().collect();
    let mut stream = Stream::new(random, geometry, live);
    for _ in 0..calls {
        let line = stream.call(random);
        checker
            .call(line, random)
            .map_err(|text| format!("{line:?}: {text}"))?;
    }
    checker.sweep()?;
    *statistics = checker.statistics;
    Ok(())
}

/// A formatted store.
pub fn formatted(geometry: Geometry) -> Vec<u32> {
    let mut words = vec![0; geometry.length()];
    calls::format(&mut words, geometry.numbers());
    words
}

/// Call lists from formatted stores: filled to N, emptied, churned.
#[test]
fn from_formatted_stores() {
    let mut random = Random::new(seed());
    let choices = Choices::new(16384);
    let mut statistics = Statistics::default();
    for _ in 0..160 {
        let geometry = choices.pick(&mut random);
        let calls = (6 * geometry.key_limit() + 60).min(2500);
        let words = formatted(geometry);
        let result = run_calls(&mut random, words, geometry, calls, &mut statistics);
        result.unwrap_or_else(|text| panic!("{:?}: {text}", geometry.numbers()));
    }
    println!("formatted: {statistics:#?}");
    met(&statistics);
}

/// Call lists from stores that no call list reaches.
#[test]
fn from_unreachable_stores() {
    let mut random = Random::new(seed() ^ 0x5555);
    let (small, all) = (Choices::new(5000), Choices::new(16384));
    let mut statistics = Statistics::default();
    for round in 0..6000 {
        let choices = if round % 4 == 0 { &all } else { &small };
        let geometry = choices.pick(&mut random);
        let calls = random.between(3, 60);
        let words = unreachable::store(&mut random, geometry);
        let result = run_calls(&mut random, words, geometry, calls, &mut statistics);
        result.unwrap_or_else(|text| panic!("{:?}: {text}", geometry.numbers()));
    }
    println!("unreachable: {statistics:#?}");
    met(&statistics);
    assert!(statistics.above_unrounded > 0);
    assert!(statistics.most_merges > 3 && statistics.joins_above > 0);
    assert!(statistics.over_entry > 0);
}

/// Larger stores than the call list program has, a few calls each.
#[test]
fn large_stores() {
    let mut random = Random::new(seed() ^ 0xaaaa);
    let choices = Choices::new(288_524);
    let mut statistics = Statistics::default();
    for _ in 0..80 {
        let geometry = choices.pick(&mut random);
        let words = unreachable::store(&mut random, geometry);
        let result = run_calls(&mut random, words, geometry, 60, &mut statistics);
        result.unwrap_or_else(|text| panic!("{:?}: {text}", geometry.numbers()));
    }
    println!("large: {statistics:#?}");
}

/// The lists met what they are there for.
fn met(statistics: &Statistics) {
    assert!(statistics.merges_out_of.iter().all(|&merges| merges > 0));
    assert!(statistics.calls_with_several > 0 && statistics.compactions > 0);
    assert!(statistics.refused_full > 0 && statistics.absent_deletes > 0);
}
