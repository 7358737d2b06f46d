//! The tests are able to fail: each wrong variant is found out.

use super::checker::Statistics;
use super::forecast;
use super::lists::{formatted, run_calls};
use super::stretch::{self, agrees, by_fast, by_next, by_the_map, random_ask, Other};
use super::tickets;
use crate::fault::{set, Fault};
use crate::generate::{Choices, Stream};
use crate::random::Random;
use crate::unreachable;

/// What the tests say to a wrong variant, and after how many stores.
fn found_out(fault: Fault) -> Option<(usize, String)> {
    let mut random = Random::new(7);
    let choices = Choices::new(6000);
    for round in 0..600 {
        let geometry = choices.pick(&mut random);
        let words = if round % 2 == 0 {
            formatted(geometry)
        } else {
            unreachable::store(&mut random, geometry)
        };
        set(Some(fault));
        let result = run_calls(
            &mut random,
            words,
            geometry,
            200,
            &mut Statistics::default(),
        );
        set(None);
        if let Err(text) = result {
            return Some((round + 1, text));
        }
    }
    None
}

/// Each wrong variant, the ones of "Errors in the trade" first, is found out by
/// the random call lists. (The unrounded average is no variant of the store: the
/// list tests count the merges that break it.)
#[test]
fn wrong_variants_are_found_out() {
    use Fault::*;
    let faults = [
        CancelInMiddle,
        ReuseTombstonesAtBottom,
        PairRuleOnlyForBuffer,
        HighestOfEquals,
        NoJoinAbove,
        SlotsFreeTooSoon,
        NoCompactionAbove,
    ];
    for fault in faults {
        let found = found_out(fault);
        println!("{fault:?}: {found:?}");
        assert!(found.is_some(), "{fault:?} is not found out");
    }
}

/// Whether a wrong stretch is found out by this comparison over random stores, and
/// after how many.
fn stretch_found_out(fault: Fault, other: Other) -> Option<(usize, String)> {
    let mut random = Random::new(7);
    let choices = Choices::new(2500);
    (1..=300).find_map(|round| {
        let geometry = choices.pick(&mut random);
        let words = unreachable::store(&mut random, geometry);
        let live: Vec<u32> = unreachable::map(&words).into_keys().collect();
        let ask = random_ask(&mut random, &words, &live);
        set(Some(fault));
        let result = agrees(&words, ask, other);
        set(None);
        result.err().map(|text| (round, text))
    })
}

/// Each wrong stretch is found out by the hand-written cases, by the map, by
/// repeated next and by the implementation written for speed, each alone.
#[test]
fn wrong_stretches_are_found_out() {
    use Fault::*;
    let faults = [
        LeaveOutLast,
        MoreOfTheStore,
        TouchBehindWritten,
        ListTombstones,
        ListOlder,
    ];
    for fault in faults {
        set(Some(fault));
        let cases = stretch::CASES.map(|case| case().is_err());
        set(None);
        assert!(cases.contains(&true), "no case finds {fault:?}");
        for other in [by_the_map as Other, by_next, by_fast] {
            let found = stretch_found_out(fault, other);
            println!("{fault:?}: {cases:?} {found:?}");
            assert!(found.is_some(), "{fault:?} is not found out");
        }
    }
}

/// Whether wrong tickets are found out by this comparison over random stores, and after
/// how many.
fn tickets_found_out(fault: Fault, other: tickets::Other) -> Option<(usize, String)> {
    let mut random = Random::new(7);
    let choices = Choices::new(6000);
    (1..=600).find_map(|round| {
        let geometry = choices.pick(&mut random);
        let mut words = unreachable::store(&mut random, geometry);
        let keys = unreachable::map(&words).into_keys().collect();
        let mut stream = Stream::new(&mut random, geometry, keys);
        (0..60).find_map(|_| {
            let line = stream.call(&mut random);
            let room = random.below(5);
            set(Some(fault));
            let result = tickets::agrees(&words, line, room, other);
            set(None);
            words = tickets::by_fast(&words, line, 0).words;
            result.err().map(|text| (round, text))
        })
    })
}

/// Each wrong ticket is found out by the hand-written cases, by the merges made again and
/// by the implementation written for speed, each alone.
#[test]
fn wrong_tickets_are_found_out() {
    use Fault::*;
    let faults = [
        FirstAfterLeaving,
        FirstInWindows,
        JoinNotCounted,
        CompactingOnTicket,
        TicketsBackwards,
        TicketsOfLast,
        ClearsTickets,
        CountsTicketsOnly,
    ];
    for fault in faults {
        set(Some(fault));
        let cases = tickets::CASES.map(|case| case().is_err());
        set(None);
        assert!(cases.contains(&true), "no case finds {fault:?}");
        for other in [tickets::by_replay as tickets::Other, tickets::by_fast] {
            let found = tickets_found_out(fault, other);
            println!("{fault:?}: {cases:?} {found:?}");
            assert!(found.is_some(), "{fault:?} is not found out");
        }
    }
}

/// Whether a wrong forecast is found out by this comparison over random stores, and after
/// how many.
fn forecast_found_out(fault: Fault, other: forecast::Other) -> Option<(usize, String)> {
    let mut random = Random::new(7);
    let choices = Choices::new(2500);
    (1..=300).find_map(|round| {
        let geometry = choices.pick(&mut random);
        let words = unreachable::store(&mut random, geometry);
        (0..20).find_map(|_| {
            let line = forecast::random_line(&mut random, &words);
            set(Some(fault));
            let result = forecast::agrees(&words, line, other);
            set(None);
            result.err().map(|text| (round, text))
        })
    })
}

/// Each wrong forecast is found out by the hand-written cases, by the call itself and by
/// the implementation written for speed, each alone.
#[test]
fn wrong_forecasts_are_found_out() {
    use Fault::*;
    let faults = [
        TombstonesNotHeld,
        TombstoneNotAmong,
        FullMerges,
        RefusedMerges,
        AbsentMerges,
    ];
    for fault in faults {
        set(Some(fault));
        let cases = forecast::CASES.map(|case| case().is_err());
        set(None);
        assert!(cases.contains(&true), "no case finds {fault:?}");
        for other in [forecast::by_call as forecast::Other, forecast::by_fast] {
            let found = forecast_found_out(fault, other);
            println!("{fault:?}: {cases:?} {found:?}");
            assert!(found.is_some(), "{fault:?} is not found out");
        }
    }
}
