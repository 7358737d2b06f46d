//! Stretch, document 02's card 1: "the live records of that stretch in rising
//! order", cut at the shorter array's length.

use super::checker::Checked;
use super::lists::formatted;
use super::{build, seed, set, sets, tomb};
use crate::block::Record;
use crate::borders::borders;
use crate::breach::Breach;
use crate::calls::{self, check, delete, next, put, Stretched};
use crate::damage::damaged;
use crate::fast;
use crate::form::checked;
use crate::generate::{Choices, Stream};
use crate::geometry::Geometry;
use crate::random::Random;
use crate::readings::one_word;
use crate::script::Line;
use crate::unreachable;
use std::collections::BTreeMap;

const A: [u32; 6] = [4, 1, 2, 4, 1, 40];
const TWO: [u32; 6] = [4, 1, 2, 3, 2, 104];
const THREE: [u32; 6] = [4, 1, 2, 8, 3, 8192];
const LAST: u32 = u32::MAX;

/// First and last key and the lengths of the two arrays.
#[derive(Clone, Copy, Debug)]
pub struct Ask {
    first: u32,
    last: u32,
    keys: usize,
    payloads: usize,
}

/// An answer with every entry of both arrays.
#[derive(Clone, Debug, PartialEq, Eq)]
pub struct Given {
    answer: Stretched,
    keys: Vec<u32>,
    payloads: Vec<u32>,
}

/// Two arrays filled with words that tell their array and index.
fn lent(ask: Ask) -> Given {
    let filled = |base: u32, length| (base..).take(length).collect();
    Given {
        answer: Stretched::default(),
        keys: filled(0xaaaa_0000, ask.keys),
        payloads: filled(0xbbbb_0000, ask.payloads),
    }
}

/// What the plain implementation gives.
fn plain(words: &[u32], ask: Ask) -> Given {
    let mut given = lent(ask);
    let (keys, payloads) = (&mut given.keys, &mut given.payloads);
    given.answer = calls::stretch(words, ask.first, ask.last, keys, payloads);
    given
}

/// What is to come of these records, of which `more` says if others follow.
fn listed(ask: Ask, records: &[(u32, u32)], more: bool) -> Given {
    let mut given = lent(ask);
    for (index, &(key, payload)) in records.iter().enumerate() {
        given.keys[index] = key;
        given.payloads[index] = payload;
    }
    given.answer.written = records.len() as u32;
    given.answer.more = more;
    given
}

/// Both give the right thing.
fn right(words: &[u32], ask: Ask, right: &Given) -> Checked {
    for given in [plain(words, ask), by_fast(words, ask)] {
        if given != *right {
            return Err(format!("{ask:?}: {given:?}, not {right:?}"));
        }
    }
    Ok(())
}

/// Both list these records, from first to last, in arrays of these lengths.
fn lists(
    words: &[u32],
    (first, last): (u32, u32),
    (keys, payloads): (usize, usize),
    records: &[(u32, u32)],
    more: bool,
) -> Checked {
    let ask = Ask {
        first,
        last,
        keys,
        payloads,
    };
    assert_eq!(check(words), 0);
    right(words, ask, &listed(ask, records, more))
}

/// Geometry A with tests of three days, 100 to 103, 200 to 203 and 300 to 303, the
/// payloads telling level 0 (key) or level 1 (1000 + key).
fn days() -> Vec<u32> {
    let zero = sets(&[101, 200, 203, 301, 303], 0);
    let one = [sets(&[100, 102, 103, 201], 1), sets(&[202, 300, 302], 1)];
    build(A, &zero, &[&one])
}

#[test]
fn a_day_out_of_several() -> Checked {
    let words = days();
    let day = [(200, 200), (201, 1201), (202, 1202), (203, 203)];
    lists(&words, (200, 299), (9, 9), &day, false)?;
    lists(&words, (200, 203), (9, 9), &day, false)?;
    lists(&words, (104, 299), (9, 9), &day, false)?;
    let other = [(100, 1100), (101, 101), (102, 1102), (103, 1103)];
    lists(&words, (100, 199), (9, 9), &other, false)?;
    let other = [(300, 1300), (301, 301), (302, 1302), (303, 303)];
    lists(&words, (300, 399), (9, 9), &other, false)?;
    lists(&words, (0, 99), (9, 9), &[], false)?;
    lists(&words, (204, 299), (9, 9), &[], false)?;
    lists(&words, (400, LAST), (9, 9), &[], false)?;
    let across = [(103, 1103), (200, 200), (201, 1201)];
    lists(&words, (103, 201), (9, 9), &across, false)
}

/// "A first key above the last gives zero records", and none follow.
#[test]
fn first_above_last() -> Checked {
    let words = days();
    for (first, last) in [(203, 200), (201, 200), (LAST, 0), (1, 0), (LAST, LAST - 1)] {
        lists(&words, (first, last), (9, 9), &[], false)?;
        lists(&words, (first, last), (0, 0), &[], false)?;
    }
    Ok(())
}

#[test]
fn one_key() -> Checked {
    let words = days();
    lists(&words, (200, 200), (3, 3), &[(200, 200)], false)?;
    lists(&words, (201, 201), (1, 1), &[(201, 1201)], false)?;
    lists(&words, (201, 201), (0, 0), &[], true)?;
    for key in [0, 99, 104, 204, LAST] {
        lists(&words, (key, key), (3, 3), &[], false)?;
        lists(&words, (key, key), (0, 0), &[], false)?;
    }
    Ok(())
}

/// Keys 0 and 2^32 − 1, in level 0 and on flash.
#[test]
fn first_and_last_word() -> Checked {
    let ends = [set(0, 7), set(LAST, 8)];
    let below = [sets(&[5], 1)];
    let all = [(0, 7), (5, 1005), (LAST, 8)];
    let top = build(A, &ends, &[&below]);
    let flash = [vec![ends[0], below[0][0], ends[1]]];
    for words in [top, build(A, &[], &[&flash])] {
        lists(&words, (0, LAST), (3, 3), &all, false)?;
        lists(&words, (0, LAST), (2, 2), &all[..2], true)?;
        lists(&words, (0, LAST - 1), (3, 3), &all[..2], false)?;
        lists(&words, (1, LAST), (3, 3), &all[1..], false)?;
        lists(&words, (0, 0), (3, 3), &all[..1], false)?;
        lists(&words, (LAST, LAST), (3, 3), &all[2..], false)?;
        lists(&words, (LAST, LAST), (0, 0), &[], true)?;
        lists(&words, (LAST, 0), (3, 3), &[], false)?;
    }
    Ok(())
}

/// "If the arrays differ in length, the shorter counts"; the longer one's other
/// entries keep their content.
#[test]
fn arrays_of_different_lengths() -> Checked {
    let words = days();
    let day = [(200, 200), (201, 1201), (202, 1202), (203, 203)];
    for lengths in [(2, 7), (7, 2), (2, 3), (3, 2)] {
        lists(&words, (200, 299), lengths, &day[..2], true)?;
    }
    for lengths in [(4, 7), (7, 4), (6, 9), (9, 6)] {
        lists(&words, (200, 299), lengths, &day, false)?;
    }
    Ok(())
}

/// An array of length 0: nothing is written, and more says if the stretch has a
/// record.
#[test]
fn no_room() -> Checked {
    let words = days();
    for lengths in [(0, 0), (0, 5), (5, 0)] {
        lists(&words, (200, 299), lengths, &[], true)?;
        lists(&words, (203, 203), lengths, &[], true)?;
        lists(&words, (204, 299), lengths, &[], false)?;
        lists(&words, (304, LAST), lengths, &[], false)?;
        lists(&formatted_a(), (0, LAST), lengths, &[], false)?;
    }
    Ok(())
}

/// Arrays that the stretch just fills, one short of it and one longer.
#[test]
fn exactly_full() -> Checked {
    let words = days();
    let day = [(200, 200), (201, 1201), (202, 1202), (203, 203)];
    lists(&words, (200, 299), (3, 3), &day[..3], true)?;
    lists(&words, (200, 299), (4, 4), &day, false)?;
    lists(&words, (200, 299), (5, 5), &day, false)?;
    // The first record behind is not the stretch's.
    lists(&words, (200, 202), (3, 3), &day[..3], false)?;
    lists(&words, (200, 300), (4, 4), &day, true)
}

/// An empty store of geometry A.
fn formatted_a() -> Vec<u32> {
    formatted(Geometry::new(A).expect("a legal geometry"))
}

/// "A mark or no record is absent": tombstones of each upper level over live
/// records below, and for keys that exist nowhere.
#[test]
fn tombstones() -> Checked {
    let zero = [tomb(1), tomb(20), tomb(30), set(40, 4)];
    let one = [vec![tomb(10), tomb(11), set(20, 2), tomb(40)]];
    let two = [sets(&[10, 12, 20], 2), sets(&[30, 31], 2)];
    let words = build(TWO, &zero, &[&one, &two]);
    let all = [(12, 2012), (31, 2031), (40, 4)];
    lists(&words, (0, LAST), (9, 9), &all, false)?;
    lists(&words, (1, 11), (9, 9), &[], false)?;
    lists(&words, (1, 11), (0, 0), &[], false)?;
    lists(&words, (10, 31), (2, 2), &all[..2], false)?;
    // What is left of the stretch are tombstones and what they stand over.
    lists(&words, (10, 30), (1, 1), &all[..1], false)?;
    lists(&words, (20, 20), (1, 1), &[], false)?;
    lists(&words, (20, 31), (0, 0), &[], true)?;
    let marks: Vec<Record> = (1..=8).map(tomb).collect();
    lists(&build(A, &marks, &[]), (0, LAST), (9, 9), &[], false)
}

/// "The first level from 0 down that has k decides": of each key the newest record,
/// once.
#[test]
fn older_records_of_a_key() -> Checked {
    let zero = sets(&[10, 50], 0);
    let one = [sets(&[10, 20, 50, 60], 1)];
    let two = [sets(&[10, 20, 30, 60], 2)];
    let three = [sets(&[10, 20, 30, 40], 3), sets(&[50, 60, 70], 3)];
    let words = build(THREE, &zero, &[&one, &two, &three]);
    let all = [
        (10, 10),
        (20, 1020),
        (30, 2030),
        (40, 3040),
        (50, 50),
        (60, 1060),
        (70, 3070),
    ];
    lists(&words, (0, LAST), (9, 9), &all, false)?;
    lists(&words, (10, 70), (7, 7), &all, false)?;
    lists(&words, (11, 69), (9, 9), &all[1..6], false)?;
    for length in 0..7 {
        lists(&words, (0, LAST), (length, 9), &all[..length], true)?;
        lists(&words, (0, 69), (9, length), &all[..length], length < 6)?;
    }
    Ok(())
}

/// A level without a level above it, and an empty one between two others.
#[test]
fn empty_levels() -> Checked {
    lists(&formatted_a(), (0, LAST), (3, 3), &[], false)?;
    let lone = [sets(&[1], 1)];
    let words = build(A, &[], &[&lone]);
    lists(&words, (0, LAST), (3, 3), &[(1, 1001)], false)?;
    let words = build(A, &[set(1, 5)], &[]);
    lists(&words, (0, LAST), (3, 3), &[(1, 5)], false)?;
    let (one, three) = ([sets(&[2, 4], 1)], [sets(&[1, 3, 5], 3)]);
    let words = build(THREE, &[], &[&one, &[], &three]);
    let all = [(1, 3001), (2, 1002), (3, 3003), (4, 1004), (5, 3005)];
    lists(&words, (0, LAST), (9, 9), &all, false)?;
    lists(&words, (2, 4), (3, 3), &all[1..4], false)?;
    // Level h is empty, and the one above it has tombstones.
    let first = vec![tomb(10), set(11, 1), set(12, 2), tomb(13)];
    let words = build(TWO, &[set(15, 5)], &[&[first, vec![tomb(20), set(21, 6)]]]);
    let all = [(11, 1), (12, 2), (15, 5), (21, 6)];
    lists(&words, (0, LAST), (9, 9), &all, false)?;
    lists(&words, (12, 20), (9, 9), &all[1..3], false)?;
    lists(&words, (12, 21), (2, 2), &all[1..3], true)?;
    lists(&words, (13, 14), (0, 0), &[], false)
}

/// The starred puts of geometry A, then some deletes: level 0 and places.
#[test]
fn figures_of_geometry_a() -> Checked {
    let mut words = formatted_a();
    for key in (10..=90).step_by(10) {
        put(&mut words, key, key + 1);
    }
    let tens = |keys: &[u32]| -> Vec<_> { keys.iter().map(|&key| (key, key + 1)).collect() };
    lists(
        &words,
        (30, 70),
        (9, 9),
        &tens(&[30, 40, 50, 60, 70]),
        false,
    )?;
    delete(&mut words, 40);
    delete(&mut words, 60);
    lists(&words, (30, 70), (9, 9), &tens(&[30, 50, 70]), false)?;
    lists(&words, (30, 70), (2, 2), &tens(&[30, 50]), true)?;
    lists(&words, (51, 70), (2, 2), &tens(&[70]), false)
}

/// Refusals 1 to 4, before the keys are compared: the number, 0 written, no more,
/// both arrays unchanged.
#[test]
fn refused_stores() -> Checked {
    let sound = days();
    let mut broken = sound.clone();
    broken[0] = 1;
    let mut live = sound.clone();
    live[6] += 1;
    let stores = [
        (&sound[..11], 1),
        (&sound[..0], 1),
        (&broken[..], 2),
        (&sound[..437], 3),
        (&[&sound[..], &[0]].concat(), 3),
        (&live, 4),
    ];
    for (words, refusal) in stores {
        for (first, last) in [(0, LAST), (200, 299), (299, 200), (LAST, LAST)] {
            for (keys, payloads) in [(9, 9), (2, 7), (0, 3), (0, 0)] {
                let ask = Ask {
                    first,
                    last,
                    keys,
                    payloads,
                };
                let mut refused = lent(ask);
                refused.answer.refusal = refusal;
                right(words, ask, &refused)?;
            }
        }
    }
    Ok(())
}

/// All hand-written cases.
pub const CASES: [fn() -> Checked; 12] = [
    a_day_out_of_several,
    first_above_last,
    one_key,
    first_and_last_word,
    arrays_of_different_lengths,
    no_room,
    exactly_full,
    tombstones,
    older_records_of_a_key,
    empty_levels,
    figures_of_geometry_a,
    refused_stores,
];

/// The map of a store that passes the form check, level by level from h up.
fn map(words: &[u32]) -> BTreeMap<u32, u32> {
    let Ok(view) = checked(words) else {
        return BTreeMap::new();
    };
    let mut newest: BTreeMap<u32, Record> = BTreeMap::new();
    for level in (1..=view.geometry.levels()).rev() {
        for &slot in view.list(level) {
            let records = view.slot(slot).records();
            newest.extend(records.map(|record| (record.key, record)));
        }
    }
    let zero = (0..view.count(0)).map(|index| view.zero_record(index));
    newest.extend(zero.map(|record| (record.key, record)));
    newest.retain(|_, record| !record.tombstone);
    let payloads = newest.into_iter();
    payloads
        .map(|(key, record)| (key, record.payload))
        .collect()
}

/// What a refused call gives: the number and untouched arrays.
fn refused(words: &[u32], ask: Ask) -> Option<Given> {
    let mut given = lent(ask);
    given.answer.refusal = check(words);
    (given.answer.refusal > 0).then_some(given)
}

/// A way to say what a stretch is to give.
pub type Other = fn(&[u32], Ask) -> Given;

/// "The list is the map's stretch cut at that length."
pub fn by_the_map(words: &[u32], ask: Ask) -> Given {
    if let Some(given) = refused(words, ask) {
        return given;
    }
    let inside = |key: &u32| (ask.first..=ask.last).contains(key);
    let map = map(words).into_iter();
    let mut records: Vec<_> = map.filter(|(key, _)| inside(key)).collect();
    let all = records.len();
    records.truncate(ask.keys.min(ask.payloads));
    listed(ask, &records, records.len() < all)
}

/// What repeated next gives.
pub fn by_next(words: &[u32], ask: Ask) -> Given {
    if let Some(given) = refused(words, ask) {
        return given;
    }
    let mut records = Vec::new();
    let mut from = Some(ask.first);
    while let Some(key) = from {
        let answer = next(words, key);
        if !answer.found || answer.key > ask.last {
            break;
        }
        if records.len() == ask.keys.min(ask.payloads) {
            return listed(ask, &records, true);
        }
        records.push((answer.key, answer.payload));
        from = answer.key.checked_add(1);
    }
    listed(ask, &records, false)
}

/// What the one written for speed gives.
pub fn by_fast(words: &[u32], ask: Ask) -> Given {
    let mut given = lent(ask);
    let (keys, payloads) = (&mut given.keys, &mut given.payloads);
    given.answer = fast::stretch(words, ask.first, ask.last, keys, payloads);
    given
}

/// The plain implementation against another way.
pub fn agrees(words: &[u32], ask: Ask, other: Other) -> Checked {
    let (given, expected) = (plain(words, ask), other(words, ask));
    if given == expected {
        return Ok(());
    }
    Err(format!("{ask:?}: {given:?}, not {expected:?}"))
}

/// A random stretch with arrays of random lengths: around keys of the store, around
/// any of its words, at the ends; sometimes a first key above the last.
pub fn random_ask(random: &mut Random, words: &[u32], live: &[u32]) -> Ask {
    let mut end = || {
        let key = match random.below(8) {
            0 => random.pick(&[0, LAST]),
            1 => random.word() >> random.below(32),
            2 if words.len() > 12 => random.pick(&words[12..]),
            _ if !live.is_empty() => random.pick(live),
            _ => random.word(),
        };
        key.wrapping_add(random.pick(&[0, 0, 1, LAST]))
    };
    let (mut first, mut last) = (end(), end());
    if first > last && !random.one_in(8) {
        (first, last) = (last, first);
    }
    let inside = live.iter().filter(|key| (first..=last).contains(key));
    let near = (inside.count() + 1).saturating_sub(random.below(3));
    let keys = random.pick(&[near, near, 0, 1, 3, 40]);
    let payloads = random.pick(&[keys, keys, near, keys + 2, 0]);
    Ask {
        first,
        last,
        keys,
        payloads,
    }
}

/// Some random stretches of a store: plain, fast, map and next agree. How many
/// were cut, and how many written in full with something in them.
fn some_stretches(random: &mut Random, words: &[u32], count: usize) -> [usize; 2] {
    let live: Vec<u32> = map(words).into_keys().collect();
    let mut met = [0; 2];
    for _ in 0..count {
        let ask = random_ask(random, words, &live);
        for other in [by_the_map, by_next, by_fast] {
            agrees(words, ask, other).unwrap_or_else(|text| panic!("{text}"));
        }
        let answer = by_fast(words, ask).answer;
        met[0] += usize::from(answer.more);
        met[1] += usize::from(!answer.more && answer.written > 0);
    }
    met
}

/// "Where something was written and more follow, a walk resumed one key above the
/// last written goes on with the rest, cut the same way": with other lengths for
/// each call, the calls together give the whole stretch, each record once.
fn resumed(random: &mut Random, words: &[u32]) -> usize {
    let map = map(words);
    let live: Vec<u32> = map.keys().copied().collect();
    let Ask { first, last, .. } = random_ask(random, words, &live);
    let mut all = Vec::new();
    let (mut from, mut calls) = (first, 0);
    loop {
        let keys = random.between(1, live.len() / 3 + 1);
        let payloads = random.pick(&[keys, keys + 1, keys.max(2) - 1]);
        let ask = Ask {
            first: from,
            last,
            keys,
            payloads,
        };
        let given = plain(words, ask);
        assert_eq!(given, by_fast(words, ask));
        calls += 1;
        let written = given.answer.written as usize;
        all.extend(given.keys.into_iter().zip(given.payloads).take(written));
        if !given.answer.more {
            break;
        }
        let &(key, _) = all.last().expect("something was written");
        assert!(key < last);
        from = key + 1;
    }
    let stretch = map
        .into_iter()
        .filter(|(key, _)| (first..=last).contains(key));
    assert_eq!(all, stretch.collect::<Vec<_>>());
    calls
}

/// Histories from formatted stores.
#[test]
fn over_histories() {
    let mut random = Random::new(seed() ^ 0x7777);
    let choices = Choices::new(2500);
    let (mut met, mut most) = ([0; 2], 0);
    for _ in 0..150 {
        let geometry = choices.pick(&mut random);
        let mut words = formatted(geometry);
        let mut stream = Stream::new(&mut random, geometry, Vec::new());
        for _ in 0..(3 * geometry.key_limit() + 60).min(400) {
            match stream.call(&mut random) {
                Line::Put(key, payload) => drop(fast::put(&mut words, key, payload)),
                Line::Delete(key) => drop(fast::delete(&mut words, key)),
                _ => {}
            }
            if random.one_in(6) {
                let more = some_stretches(&mut random, &words, 1);
                met = [met[0] + more[0], met[1] + more[1]];
            }
        }
        most = most.max(resumed(&mut random, &words));
    }
    println!("cut, whole {met:?}; most resumed calls {most}");
    assert!(met.iter().all(|&met| met > 500) && most > 3);
}

/// Stores that no call list reaches, some of them large.
#[test]
fn over_unreachable_stores() {
    let mut random = Random::new(seed() ^ 0x8888);
    let choices = [Choices::new(4000), Choices::new(100_000)];
    let (mut met, mut most) = ([0; 2], 0);
    for round in 0..1000 {
        let large = round % 100 == 0;
        let geometry = choices[usize::from(large)].pick(&mut random);
        let words = unreachable::store(&mut random, geometry);
        let more = some_stretches(&mut random, &words, if large { 1 } else { 3 });
        met = [met[0] + more[0], met[1] + more[1]];
        most = most.max(resumed(&mut random, &words));
    }
    println!("cut, whole {met:?}; most resumed calls {most}");
    assert!(met.iter().all(|&met| met > 500) && most > 5);
}

/// Stores with each clause of the form check broken, with any word changed, cut
/// and made longer, and at the borders of the rules.
#[test]
fn over_damaged_stores() {
    let mut random = Random::new(seed() ^ 0x9999);
    let choices = Choices::new(2500);
    let mut stores = borders(&mut random);
    for breach in Breach::ALL {
        for _ in 0..10 {
            let geometry = choices.pick(&mut random);
            stores.extend(damaged(&mut random, geometry, breach));
        }
    }
    for round in 0..1000 {
        let geometry = choices.pick(&mut random);
        let mut words = unreachable::store(&mut random, geometry);
        match round % 8 {
            0 => words.truncate(random.below(13)),
            1 => words.truncate(random.below(words.len())),
            2 => words.push(random.word()),
            3 => words[random.below(6)] = random.word() >> random.below(32),
            _ => words = one_word(&mut random, &words),
        }
        stores.push(words);
    }
    let mut reasons = [0; 5];
    for words in stores {
        reasons[check(&words) as usize] += 1;
        some_stretches(&mut random, &words, 2);
    }
    println!("reasons {reasons:?}");
    assert!(reasons.iter().all(|&stores| stores > 0));
}
