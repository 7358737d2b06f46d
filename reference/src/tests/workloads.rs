//! The program that measures blocks written: its calls are those of the store, its
//! workloads are the paper's, its sums are right.

use super::seed;
use crate::calls::{self, Changed, Counts};
use crate::generate::with_fewest_slots;
use crate::geometry::Geometry;
use crate::random::Random;
use crate::workloads::chosen::{all_cases, editions, number_cases};
use crate::workloads::measure::{margin, perform, Case, Figures, Run};
use crate::workloads::requests::{normal, Keys, Mix, Request, Requests};
use std::collections::BTreeSet;

/// A few small geometries, with one, two and three levels.
fn small() -> [Geometry; 4] {
    let five = [
        [4, 1, 2, 4, 1],
        [2, 2, 3, 3, 2],
        [5, 1, 4, 4, 2],
        [3, 1, 2, 3, 3],
    ];
    five.map(|five| with_fewest_slots(five).expect("a legal geometry"))
}

/// Every pair of keys and mix.
fn loads() -> Vec<(Keys, Mix)> {
    let mixes = [
        Mix::Steady(50),
        Mix::Steady(90),
        Mix::Renewal,
        Mix::Overwrites,
    ];
    let both = |mix| [(Keys::Uniform, mix), (Keys::Normal, mix)];
    mixes.into_iter().flat_map(both).collect()
}

/// The call as a buyer makes it.
fn as_called(words: &mut [u32], request: Request) -> Changed {
    match request {
        Request::Insert(key) => calls::put(words, key, !key),
        Request::Overwrite(key) => calls::put(words, key, key),
        Request::Delete(key) => calls::delete(words, key),
    }
}

/// Without its form check a call has the same answer and leaves the same words, and
/// no call of a workload is refused.
#[test]
fn calls_without_form_check_are_the_calls() {
    let seed = seed();
    let mut written = 0;
    for geometry in small() {
        for (keys, mix) in loads() {
            let mut requests = Requests::new(seed, keys, mix);
            let mut words = vec![0; geometry.length()];
            calls::format(&mut words, geometry.numbers());
            let mut quick = words.clone();
            let mut filled = false;
            for _ in 0..1500 {
                filled |= requests.live() == mix.target(geometry);
                let request = if filled {
                    requests.next_request()
                } else {
                    requests.insert()
                };
                let answer = as_called(&mut words, request);
                assert_eq!(answer.refusal, 0, "{geometry:?} {keys:?} {mix:?}");
                assert_eq!(perform(&mut quick, request), answer);
                assert_eq!(quick, words);
                let counts = answer.levels.iter();
                written += counts.map(|level| level.merge_writes).sum::<u32>();
            }
        }
    }
    assert!(written > 10_000, "the calls merge: {written}");
}

/// P decides where blocks go and not how many are written.
#[test]
fn places_change_no_count() {
    let seed = seed();
    for geometry in small() {
        let mut numbers = geometry.numbers();
        numbers[5] = 8192;
        let largest = Geometry::new(numbers).expect("a legal geometry");
        let of = |geometry| Run::filled(Case::new(geometry, Keys::Normal, Mix::Steady(90)), seed);
        let (mut few, mut many) = (of(geometry), of(largest));
        assert_ne!(few.words().len(), many.words().len());
        assert!((0..2000).all(|_| few.step() == many.step()));
    }
}

/// Inserts take keys that are not live, deletes and overwrites live ones; live stays
/// at the target, or one beside it within a pair.
#[test]
fn requests_keep_live_at_the_target() {
    let seed = seed();
    for geometry in small() {
        for (keys, mix) in loads() {
            let target = mix.target(geometry);
            let mut requests = Requests::new(seed, keys, mix);
            let mut live = BTreeSet::new();
            while live.len() < target {
                assert!(matches!(requests.insert(), Request::Insert(key) if live.insert(key)));
            }
            let (mut lowest, mut highest) = (target, target);
            for _ in 0..1000 {
                assert!(match requests.next_request() {
                    Request::Insert(key) => live.insert(key),
                    Request::Delete(key) => live.remove(&key),
                    Request::Overwrite(key) => live.contains(&key),
                });
                assert_eq!(live.len(), requests.live());
                (lowest, highest) = (lowest.min(live.len()), highest.max(live.len()));
            }
            let (down, up) = match mix {
                Mix::Steady(_) => (1, 1),
                Mix::Renewal => (1, 0),
                Mix::Overwrites => (0, 0),
            };
            assert_eq!((lowest, highest), (target - down, target + up));
        }
    }
}

/// Normal's numbers have the mean, the spread and the tails of the distribution.
#[test]
fn normal_numbers_are_normal() {
    let mut random = Random::new(seed());
    let count = 200_000;
    let drawn: Vec<f64> = (0..count).map(|_| normal(&mut random)).collect();
    let mean =
        |of: &dyn Fn(f64) -> f64| drawn.iter().map(|&x| of(x)).sum::<f64>() / f64::from(count);
    let within = |size: f64| mean(&|x| f64::from(u8::from(x.abs() < size)));
    // Five standard errors each.
    assert!(mean(&|x| x).abs() < 0.0112);
    assert!((mean(&|x| x * x) - 1.0).abs() < 0.0159);
    assert!(mean(&|x| x * x * x).abs() < 0.0434);
    for (size, share) in [
        (0.5, 0.38292),
        (1.0, 0.68269),
        (2.0, 0.95450),
        (3.0, 0.99730),
    ] {
        let error = (share * (1.0 - share) / f64::from(count)).sqrt();
        assert!((within(size) - share).abs() < 5.0 * error, "{size}");
    }
}

/// Under Normal 64 inserts in a row have keys near each other, and the next 64 are
/// elsewhere; under Uniform they are anywhere.
#[test]
fn normal_keys_move_in_a_body() {
    let mut requests = Requests::new(seed(), Keys::Normal, Mix::Steady(90));
    let mut middles = Vec::new();
    for _ in 0..50 {
        let keys = inserted(&mut requests);
        let (first, last) = (keys[0], keys[63]);
        assert!(last - first < 258_000_000, "12 times 0.5 % of 2^32");
        assert!(last - first > 21_474_836, "and not all in one place");
        middles.push(first / 2 + last / 2);
    }
    middles.sort_unstable();
    assert!(middles[0] < 1 << 30 && middles[49] > 3 << 30);
    let mut requests = Requests::new(seed(), Keys::Uniform, Mix::Steady(90));
    let keys = inserted(&mut requests);
    assert!(keys[63] - keys[0] > 3 << 30);
}

/// The keys of 64 inserts, sorted.
fn inserted(requests: &mut Requests) -> Vec<u32> {
    let mut keys: Vec<u32> = (0..64)
        .map(|_| match requests.insert() {
            Request::Insert(key) => key,
            other => panic!("{other:?}"),
        })
        .collect();
    keys.sort_unstable();
    keys
}

/// Three answers, summed by hand.
#[test]
fn figures_are_sums_and_greatest() {
    let counts = |merges, merge_writes, compaction_writes| Counts {
        merges,
        merge_writes,
        compaction_writes,
    };
    let none = counts(0, 0, 0);
    let answers = [
        [counts(1, 3, 0), counts(1, 10, 0), none],
        [none, none, none],
        [counts(1, 4, 8), none, none],
    ];
    let mut figures = Figures::default();
    for levels in answers {
        figures.add(&Changed {
            levels,
            ..Changed::default()
        });
    }
    assert_eq!((figures.calls, figures.blocks()), (3, 25));
    assert_eq!((figures.worst, figures.worst_merging), (13, 13));
    let [one, two, three] = figures.levels;
    assert_eq!(
        (one.merge_writes, one.compaction_writes, one.worst),
        (7, 8, 12)
    );
    assert_eq!(
        (two.merge_writes, two.compaction_writes, two.worst),
        (10, 0, 10)
    );
    assert_eq!((three.merge_writes, three.worst), (0, 0));
}

/// Sixteen batches of 90 and sixteen of 110: variance 3200/31, so the standard error
/// of the mean is 1.796 and 2.04 of them are 3.664 % of it. Equal ones leave none.
#[test]
fn margins_by_hand() {
    let batches: Vec<u64> = (0..32).map(|at| 90 + 20 * (at % 2)).collect();
    assert!((margin(&batches) - 0.036_64).abs() < 0.000_01);
    assert_eq!(margin(&[7; 32]), 0.0);
}

/// At N a new key is refused with 5 and writes nothing; a live one is taken.
#[test]
fn full_stores_take_no_new_key() {
    for geometry in small() {
        let case = Case::new(geometry, Keys::Uniform, Mix::Overwrites);
        let mut words = Run::filled(case, seed()).words().to_vec();
        let live = calls::next(&words, 0).key;
        let new = (0..).find(|&key| !calls::look_up(&words, key).found);
        let refused = calls::put(&mut words, new.expect("a key is not live"), 1);
        assert_eq!((refused.refusal, refused.levels), (5, Default::default()));
        assert_eq!(calls::put(&mut words, live, 1).refusal, 0);
    }
}

/// The tables have every geometry that the document speaks of, and each case once.
#[test]
fn cases_come_once() {
    let (numbers, all) = (number_cases(), all_cases());
    assert_eq!(all[..numbers.len()], numbers);
    assert!((1..all.len()).all(|at| !all[..at].contains(&all[at])));
    assert!((1..=3).all(|levels| editions().iter().any(|(_, g)| g.levels() == levels)));
    assert!(editions()
        .iter()
        .any(|(_, g)| g.slots() == Geometry::MOST_SLOTS));
}
