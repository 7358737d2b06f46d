//! The search and the histories are able to fail, and find nothing in the library.
//! What the benchmark says of an aim, and its logs.

use crate::calls::{Answer, Call, Library, Package};
use crate::forecasts::{came_true, Forecasts};
use crate::log::Log;
use crate::planted::{Fault, Planted};
use crate::search::Search;
use crate::table::Range;
use crate::tickets::Tickets;
use crate::walks::{same, Walks};
use reference::geometry::Geometry;
use reference::layout::LIVE;
use reference::{calls, unreachable};

/// Each planted fault is reported, and the report's group shows it again.
#[test]
fn planted_faults_are_reported() {
    for fault in Fault::ALL {
        let store = Planted {
            store: Library,
            fault,
        };
        let mut search = Search::new(vec![&store], 5);
        let report = (0..400).find_map(|group| search.group(group).err());
        let report = report.unwrap_or_else(|| panic!("{fault:?} is not reported"));
        println!("{fault:?}: {}", report.difference);
        let again = Search::new(vec![&store], 5).group(report.group);
        let again = again.expect_err("the group shows it again");
        assert_eq!(again.difference, report.difference, "{fault:?}");
        assert_eq!(again.harms, report.harms, "{fault:?}");
    }
}

/// A short search finds nothing, and meets every answer.
#[test]
fn nothing_in_the_library() {
    let mut search = Search::new(vec![&Library, &Package], 1);
    for group in 0..600 {
        if let Err(report) = search.group(group) {
            panic!("{report}");
        }
    }
    let counts = &search.counts;
    println!("{counts}");
    assert!(counts.reasons.iter().all(|&stores| stores > 0));
    assert!(counts.merges > 0 && counts.full > 0 && counts.both > 0 && counts.large > 0);
    let stretches = &counts.stretches;
    assert!(stretches.cut > 0 && stretches.wrote > stretches.cut && stretches.more > stretches.cut);
    all_met(&counts.tickets);
    all_foretold(&counts.forecasts);
}

/// Lists of tickets that had no room, were too short, and were told of five merges and six.
fn all_met(tickets: &Tickets) {
    assert!(tickets.empty > 0 && tickets.short > 0 && tickets.filled > 100);
    assert!(tickets.deep > 0 && tickets.most == 6);
}

/// Forecasts of a merge, of none though level 0 is full, and of a put that is turned down for 5.
fn all_foretold(forecasts: &Forecasts) {
    assert!(forecasts.merge > 100 && forecasts.spared > 100 && forecasts.full > 100);
    assert!(forecasts.calls > forecasts.merge + forecasts.spared + forecasts.full);
}

/// Each planted fault of a stretch, ticket or forecast is reported in a history, which shows it
/// again.
#[test]
fn planted_faults_are_reported_in_histories() {
    for fault in Fault::HISTORIES {
        let store = Planted {
            store: Library,
            fault,
        };
        let mut walks = Walks::new(vec![&store], 5);
        let report = (0..400).find_map(|history| walks.history(history).err());
        let report = report.unwrap_or_else(|| panic!("{fault:?} is not reported"));
        println!("{fault:?}: {}", report.difference);
        let again = Walks::new(vec![&store], 5).history(report.history);
        let again = again.expect_err("the history shows it again");
        assert_eq!(again.difference, report.difference, "{fault:?}");
        assert_eq!(again.calls, report.calls, "{fault:?}");
    }
}

/// Some histories show nothing.
#[test]
fn nothing_in_histories() {
    let mut walks = Walks::new(vec![&Library, &Package], 1);
    for history in 0..100 {
        if let Err(report) = walks.history(history) {
            panic!("{report}");
        }
    }
    let counts = &walks.counts;
    println!("{counts}");
    assert!(counts.merges > 0 && counts.full > 0 && counts.large > 0);
    assert!(counts.stretches.cut > 0 && counts.steps > 2 * counts.walks);
    all_met(&counts.tickets);
    all_foretold(&counts.forecasts);
}

/// What a put or delete comes to is held to its forecast, whatever the reference says.
#[test]
fn other_calls_than_foretold() {
    let words = [4, 1, 2, 4, 2, 168, 0, 0, 8, 0, 0, 0];
    // Reason, merges into level 1, blocks that they write, those of level 2 and its compacting.
    let held = |foretold, [reason, merges, written, deep, compacted]: [u32; 5]| {
        let answer = Answer::Changed([
            reason, 0, merges, written, 0, deep, deep, compacted, 0, 0, 0,
        ]);
        came_true(&words, Call::Put(7, 1), Answer::Forecast(foretold), answer).is_ok()
    };
    assert!(held([0, 0], [0, 0, 0, 0, 0]));
    assert!(held([0, 1], [0, 1, 1, 0, 0]));
    // w × (G + 1) blocks, and what follows the first merge.
    assert!(held([0, 1], [0, 1, 5, 2, 3]));
    assert!(held([5, 0], [5, 0, 0, 0, 0]));
    assert!(!held([0, 0], [0, 1, 1, 0, 0]));
    assert!(!held([0, 1], [0, 0, 0, 0, 0]));
    assert!(!held([0, 2], [0, 2, 2, 0, 0]));
    assert!(!held([0, 1], [0, 1, 6, 0, 0]));
    assert!(!held([0, 0], [0, 0, 1, 0, 0]));
    assert!(!held([0, 0], [0, 0, 0, 1, 0]));
    assert!(!held([0, 0], [0, 0, 0, 0, 1]));
    assert!(!held([0, 0], [5, 0, 0, 0, 0]));
    assert!(!held([5, 1], [5, 0, 0, 0, 0]));
    assert!(!held([4, 0], [5, 0, 0, 0, 0]));
    let said = Answer::Forecast([0, 1]);
    let shown = came_true(&words, Call::Delete(7), said, Answer::Changed([0; 11]));
    let shown = shown.expect_err("no merge came").to_string();
    assert_eq!(
        shown,
        "Delete(7): Forecast([0, 1]), and it answered Changed([0, 0, 0, 0, 0, 0, 0, 0, 0, 0, 0])"
    );
}

/// What a stretch gives is held to the map, whatever the reference says.
#[test]
fn other_records_than_the_map() {
    let map = [(10, 1), (20, 2), (30, 3), (40, 4)].into();
    let held = |first, last, rooms, records: &[(u32, u32)], more| {
        same(&map, first, last, rooms, (records.to_vec(), more)).is_ok()
    };
    assert!(held(10, 30, [2, 3], &[(10, 1), (20, 2)], true));
    assert!(held(11, 30, [2, 3], &[(20, 2), (30, 3)], false));
    assert!(held(41, u32::MAX, [2, 2], &[], false));
    assert!(held(10, 10, [0, 7], &[], true));
    assert!(held(30, 10, [7, 7], &[], false));
    assert!(!held(10, 30, [2, 2], &[(10, 1), (20, 2)], false));
    assert!(!held(10, 20, [2, 2], &[(10, 1), (20, 2)], true));
    assert!(!held(10, 30, [7, 7], &[(10, 1), (20, 2)], true));
    assert!(!held(10, 30, [7, 7], &[(10, 1), (20, 2), (30, 4)], false));
    assert!(!held(10, 30, [7, 7], &[(20, 2), (10, 1), (30, 3)], false));
    assert!(!held(30, 10, [7, 7], &[(10, 1)], true));
    let shown = same(&map, 10, 30, [7, 7], (vec![(10, 1), (30, 3)], true));
    let shown = shown.expect_err("a record is missing").to_string();
    assert!(shown.ends_with(
        "gave 2 records, more true, and the map has 3, more false; record 1 is Some((30, 3)) and not Some((20, 2))"
    ));
}

/// A log has the last N keys, and is left out where level h has no block.
#[test]
fn logs() {
    let log = |numbers| Log::new(Geometry::new(numbers).expect("a legal geometry"));
    for (numbers, limit) in [
        ([4, 1, 2, 4, 1, 40], 17),
        ([8, 2, 4, 4, 1, 136], 140),
        ([16, 1, 4, 8, 2, 1160], 2700),
    ] {
        let store = log(numbers).expect("a block in level h").store;
        assert_eq!((calls::check(&store), store[LIVE]), (0, limit));
        let keys: Vec<u32> = unreachable::map(&store).into_keys().collect();
        let rising = (keys[0]..).zip(&keys).all(|(right, &key)| key == right);
        assert!(rising && keys[0] > limit, "{numbers:?}");
    }
    assert!(log([4, 2, 8, 2, 2, 392]).is_none());
}

/// An aim is met or missed by all repetitions, or else within their noise.
#[test]
fn aims() {
    let said = |times: [f64; 3]| Range::of(times.to_vec()).verdict(1.2);
    assert_eq!(said([1.0, 1.2, 1.1]), "met");
    assert_eq!(said([1.3, 1.21, 1.4]), "MISSED");
    assert_eq!(said([1.3, 1.1, 1.0]), "within the noise");
}
