//! Forecasts, document 02's card 5: the reason that a put or delete would be turned down
//! with, and the number of merges into level 1 that it would make.

use super::checker::Checked;
use super::lists::formatted;
use super::{build, seed, set, sets, tomb};
use crate::block::Record;
use crate::borders::borders;
use crate::breach::Breach;
use crate::calls::{self, check, Changed, Forecast};
use crate::cascade::Cascade;
use crate::damage::damaged;
use crate::fast;
use crate::generate::{Choices, Stream};
use crate::geometry::Geometry;
use crate::layout::LIVE;
use crate::level::View;
use crate::random::Random;
use crate::readings::{one_word, records};
use crate::script::Line;
use crate::unreachable;
use crate::work::Merge;
use std::collections::BTreeMap;

/// Level 0 holds 8 records, and N is 17.
const A: [u32; 6] = [4, 1, 2, 4, 1, 40];
/// Level 0 holds 16 records.
const WIDE: [u32; 6] = [4, 2, 2, 4, 1, 72];
/// Level 0 holds 8 records, and N is 25.
const TWO: [u32; 6] = [4, 1, 2, 3, 2, 104];
/// Card 13's: level 0 holds 4 records.
const SMALL: [u32; 6] = [2, 1, 2, 4, 1, 40];

/// A way to say what the forecast of a put or delete is.
pub type Other = fn(&[u32], Line) -> Forecast;

/// What the plain implementation foretells.
fn plain(words: &[u32], line: Line) -> Forecast {
    match line {
        Line::Put(key, _) => calls::will_put_merge(words, key),
        Line::Delete(key) => calls::will_delete_merge(words, key),
        _ => Forecast::default(),
    }
}

/// What the implementation written for speed foretells.
pub fn by_fast(words: &[u32], line: Line) -> Forecast {
    match line {
        Line::Put(key, _) => fast::will_put_merge(words, key),
        Line::Delete(key) => fast::will_delete_merge(words, key),
        _ => Forecast::default(),
    }
}

/// What the call itself then answers.
pub fn by_call(words: &[u32], line: Line) -> Forecast {
    let mut words = words.to_vec();
    let answer = match line {
        Line::Put(key, payload) => calls::put(&mut words, key, payload),
        Line::Delete(key) => calls::delete(&mut words, key),
        _ => Changed::default(),
    };
    Forecast {
        reason: answer.refusal,
        merges: answer.levels[0].merges,
    }
}

/// The plain forecast is the other way's, and no word changes.
pub fn agrees(words: &[u32], line: Line, other: Other) -> Checked {
    let lent = words.to_vec();
    let (given, right) = (plain(&lent, line), other(&lent, line));
    if given != right {
        return Err(format!("{line:?}: {given:?}, not {right:?}"));
    }
    match lent == words {
        true => Ok(()),
        false => Err(format!("{line:?}: other words")),
    }
}

/// The merges of a call, on a copy of the store.
fn merges_of(words: &[u32], line: Line) -> Vec<Merge> {
    let mut words = words.to_vec();
    match line {
        Line::Put(key, payload) => calls::put_listed(&mut words, key, payload).1,
        Line::Delete(key) => calls::delete_listed(&mut words, key).1,
        _ => Vec::new(),
    }
}

/// The list of the call's merges keeps the forecast: it is empty exactly if none is
/// foretold (the card's reading 4); the first is out of level 0 and no later one is; the
/// first writes at most w × (G + 1) blocks: w, and for its overlap W(1) = w × G at most.
fn list_kept(geometry: Geometry, forecast: Forecast, merges: &[Merge]) -> Checked {
    let Some((first, later)) = merges.split_first() else {
        return match forecast.merges {
            0 => Ok(()),
            _ => Err(format!("{forecast:?}, and no merge")),
        };
    };
    let kept = forecast.merges == 1
        && first.upper == 0
        && later.iter().all(|merge| merge.upper > 0)
        && first.writes() <= most_writes(geometry);
    match kept {
        true => Ok(()),
        false => Err(format!("{forecast:?}: {merges:?}")),
    }
}

/// w × (G + 1).
fn most_writes(geometry: Geometry) -> usize {
    geometry.window(0) * (geometry.growth() + 1)
}

/// One call on a store: both forecasts are what the call then does, and its list of merges
/// keeps them. Answers the forecast and the list.
fn kept(words: &[u32], line: Line) -> Result<(Forecast, Vec<Merge>), String> {
    agrees(words, line, by_call)?;
    agrees(words, line, by_fast)?;
    let (forecast, merges) = (plain(words, line), merges_of(words, line));
    if let Ok(view) = View::of(words) {
        list_kept(view.geometry, forecast, &merges)?;
    }
    Ok((forecast, merges))
}

/// Reason and merges of a put and of a delete of a key, whoever is asked.
fn foretells(words: &[u32], key: u32, put: [u32; 2], delete: [u32; 2]) -> Checked {
    for (line, right) in [(Line::Put(key, 7), put), (Line::Delete(key), delete)] {
        let [reason, merges] = right;
        for (name, given) in [
            ("plain", plain(words, line)),
            ("fast", by_fast(words, line)),
        ] {
            if given != (Forecast { reason, merges }) {
                return Err(format!("{name} {line:?}: {given:?}, not {right:?}"));
            }
        }
        kept(words, line)?;
    }
    Ok(())
}

/// No reason and no merge.
const NONE: [u32; 2] = [0, 0];
/// One merge.
const ONE: [u32; 2] = [0, 1];
/// The key is one too many.
const LIMIT: [u32; 2] = [5, 0];

/// The store after a put.
fn after_put(mut words: Vec<u32>, key: u32) -> Vec<u32> {
    calls::put(&mut words, key, key);
    words
}

/// A formatted store.
fn empty(numbers: [u32; 6]) -> Vec<u32> {
    formatted(Geometry::new(numbers).expect("a legal geometry"))
}

/// The bench figures of geometry A: of the puts up to live = N, 90, 45 and 49 merge, each
/// of which finds 8 records; then level 0 holds 5, "Put 100 gets 5; put 49 doesn't."
#[test]
fn figures_of_geometry_a() -> Checked {
    let mut words = empty(A);
    let steps: [(&[u32], u32); 3] = [
        (&[10, 20, 30, 40, 50, 60, 70, 80], 90),
        (&[15, 25, 35], 45),
        (&[46, 47, 48], 49),
    ];
    for (room, merging) in steps {
        for &key in room {
            foretells(&words, key, NONE, NONE)?;
            words = after_put(words, key);
        }
        foretells(&words, merging, ONE, NONE)?;
        words = after_put(words, merging);
    }
    foretells(&words, 100, LIMIT, NONE)?;
    foretells(&words, 49, NONE, NONE)?;
    // 10 went down with the first merge; there is room for it, or for its mark.
    foretells(&words, 10, NONE, NONE)
}

/// Card 13: after puts of 1 to 4, "puts of 5, 6 and 1 make two merges": 5 finds level 0
/// full and takes 1 and 2 down, 6 fills it again, and 1 is no longer there.
#[test]
fn figures_of_card_13() -> Checked {
    let mut words = empty(SMALL);
    for (key, right) in [(1, NONE), (2, NONE), (3, NONE), (4, NONE), (5, ONE)] {
        foretells(&words, key, right, NONE)?;
        words = after_put(words, key);
    }
    foretells(&words, 6, NONE, NONE)?;
    foretells(&words, 1, NONE, NONE)?;
    words = after_put(words, 6);
    foretells(&words, 1, ONE, ONE)?;
    foretells(&words, 6, NONE, NONE)?;
    foretells(&words, 7, ONE, NONE)
}

/// Level 0 with room for one record, above one block: no key merges.
#[test]
fn room() -> Checked {
    let one = [sets(&[15, 25, 35, 45], 1)];
    let zero = sets(&[10, 20, 30, 40, 50, 60, 70], 0);
    let marks: Vec<Record> = (1..=7).map(tomb).collect();
    let wide: Vec<u32> = (1..=15).collect();
    for words in [
        build(A, &zero, &[&one]),
        build(A, &marks, &[&one]),
        build(WIDE, &sets(&wide, 0), &[&one]),
    ] {
        for key in [0, 1, 10, 15, 16, 80, u32::MAX] {
            foretells(&words, key, NONE, NONE)?;
        }
    }
    Ok(())
}

/// A full level 0, of 8 records and of 16: a put merges unless the key is among them; a
/// delete only of a key that is live and not among them.
#[test]
fn full() -> Checked {
    let one = [sets(&[15, 20, 35, 45], 1), sets(&[55, 60, 75], 1)];
    let eight: Vec<u32> = (1..=8).map(|number| 10 * number).collect();
    let sixteen: Vec<u32> = (1..=16).map(|number| 10 * number).collect();
    for (numbers, keys) in [(A, eight), (WIDE, sixteen)] {
        let words = build(numbers, &sets(&keys, 0), &[&one]);
        // Live in level 0, 20 and 60 over an older record below.
        for &key in &keys {
            foretells(&words, key, NONE, NONE)?;
        }
        // Live below.
        for key in [15, 45, 55, 75] {
            foretells(&words, key, ONE, ONE)?;
        }
        // Absent: below, between and above all others.
        for key in [0, 9, 16, 25, 85, 161, u32::MAX] {
            foretells(&words, key, ONE, NONE)?;
        }
    }
    Ok(())
}

/// Tombstones are records of level 0: they fill it, and their keys are among them, over a
/// record below and over nothing. Such a key is not live: a delete of it makes no merge.
#[test]
fn tombstones_in_level_0() -> Checked {
    let zero = [
        set(10, 1),
        tomb(15),
        set(20, 1),
        tomb(30),
        set(40, 1),
        tomb(45),
        set(50, 1),
        tomb(60),
    ];
    let one = [sets(&[15, 25, 35, 45], 1)];
    let words = build(A, &zero, &[&one]);
    for key in [15, 45, 30, 60] {
        foretells(&words, key, NONE, NONE)?;
    }
    foretells(&words, 10, NONE, NONE)?;
    foretells(&words, 25, ONE, ONE)?;
    foretells(&words, 26, ONE, NONE)?;
    // Nothing but tombstones.
    let marks: Vec<Record> = (21..=28).map(tomb).collect();
    let words = build(A, &marks, &[&one]);
    foretells(&words, 21, NONE, NONE)?;
    foretells(&words, 25, NONE, NONE)?;
    foretells(&words, 15, ONE, ONE)?;
    foretells(&words, 20, ONE, NONE)
}

/// Full level 0 over two levels: a tombstone of level 1 makes a key of level 2 absent, but
/// is not among level 0's records.
#[test]
fn two_levels() -> Checked {
    let zero = sets(&[10, 20, 30, 40, 50, 60, 70, 80], 0);
    let one = [vec![set(11, 1), tomb(12), tomb(13), set(20, 1)]];
    let two = [sets(&[12, 14, 20, 30], 2)];
    let words = build(TWO, &zero, &[&one, &two]);
    foretells(&words, 11, ONE, ONE)?;
    foretells(&words, 14, ONE, ONE)?;
    foretells(&words, 12, ONE, NONE)?;
    foretells(&words, 13, ONE, NONE)?;
    foretells(&words, 15, ONE, NONE)?;
    foretells(&words, 20, NONE, NONE)?;
    foretells(&words, 30, NONE, NONE)
}

/// live = N = 17 and level 0 full: a new key is refused and makes no merge, one that is
/// live below is taken and makes one, one of level 0 makes none.
#[test]
fn full_at_the_limit() -> Checked {
    let zero = sets(&[10, 20, 30, 40, 50, 60, 70, 80], 0);
    let nine = [
        sets(&[11, 21, 31, 41], 1),
        sets(&[51, 61, 71, 81], 1),
        sets(&[91], 1),
    ];
    let words = build(A, &zero, &[&nine]);
    assert_eq!(words[LIVE], 17);
    for key in [0, 12, 100, u32::MAX] {
        foretells(&words, key, LIMIT, NONE)?;
    }
    for key in [11, 51, 81, 91] {
        foretells(&words, key, ONE, ONE)?;
    }
    for key in [10, 80] {
        foretells(&words, key, NONE, NONE)?;
    }
    // One key less, and the new key is taken.
    let words = build(A, &zero, &[&nine[..2]]);
    assert_eq!(words[LIVE], 16);
    foretells(&words, 100, ONE, NONE)?;
    foretells(&words, 91, ONE, NONE)?;
    foretells(&words, 81, ONE, ONE)
}

/// live = N with tombstones: the key of one is refused, though level 0 has it (document
/// 01's reading 18), full or with room.
#[test]
fn tombstones_at_the_limit() -> Checked {
    let zero = [
        sets(&[10], 0),
        vec![tomb(11)],
        sets(&[20, 30, 40, 50], 0),
        vec![tomb(55)],
        sets(&[60], 0),
    ]
    .concat();
    let below = [
        sets(&[11, 21, 31, 41], 1),
        sets(&[51, 61, 71, 81], 1),
        sets(&[91, 92, 93, 94], 1),
    ];
    let words = build(A, &zero, &[&below]);
    assert_eq!(words[LIVE], 17);
    for key in [11, 55, 12] {
        foretells(&words, key, LIMIT, NONE)?;
    }
    foretells(&words, 21, ONE, ONE)?;
    foretells(&words, 20, NONE, NONE)?;
    // 60 goes from level 0 to level 1: room for one record.
    let below = [&below[..], &[sets(&[95], 1)]].concat();
    let words = build(A, &zero[..7], &[&below]);
    assert_eq!(words[LIVE], 17);
    for key in [11, 55, 12] {
        foretells(&words, key, LIMIT, NONE)?;
    }
    for key in [21, 20, 95] {
        foretells(&words, key, NONE, NONE)?;
    }
    Ok(())
}

/// Reasons 1 to 4, in stores whose next new key would merge, or be refused with 5.
#[test]
fn refused_stores() -> Checked {
    let zero = sets(&[10, 20, 30, 40, 50, 60, 70, 80], 0);
    let nine = [
        sets(&[11, 21, 31, 41], 1),
        sets(&[51, 61, 71, 81], 1),
        sets(&[91], 1),
    ];
    for blocks in [&nine[..2], &nine] {
        let sound = build(A, &zero, &[blocks]);
        let with = |at: usize, word: u32| {
            let mut words = sound.clone();
            words[at] = word;
            words
        };
        let listed = Geometry::new(A).expect("A is legal").slot_at(5);
        let stores = [
            (sound[..0].to_vec(), 1),
            (sound[..11].to_vec(), 1),
            (sound[..12].to_vec(), 3),
            (with(0, 1), 2),
            (with(5, 39)[..20].to_vec(), 2),
            (sound[..437].to_vec(), 3),
            ([&sound[..], &[0]].concat(), 3),
            (with(LIVE, 15), 4),
            (with(LIVE, 18), 4),
            (with(listed, 5), 4),
            (with(listed + 2, 30), 4),
        ];
        for (words, reason) in stores {
            for key in [0, 10, 11, 91, 100, u32::MAX] {
                foretells(&words, key, [reason, 0], [reason, 0])?;
            }
        }
    }
    Ok(())
}

/// One merge into level 1, however many the call makes in all: five or six here.
#[test]
fn cascades() -> Checked {
    for (round, cascade) in Cascade::ALL.into_iter().enumerate() {
        let words = cascade.store(&mut Random::new(round as u64));
        foretells(&words, 0, ONE, NONE)?;
        assert_eq!(merges_of(&words, Line::Put(0, 7)).len(), cascade.merges);
    }
    Ok(())
}

/// The hand-written cases.
pub const CASES: [fn() -> Checked; 10] = [
    figures_of_geometry_a,
    figures_of_card_13,
    room,
    full,
    tombstones_in_level_0,
    two_levels,
    full_at_the_limit,
    tombstones_at_the_limit,
    refused_stores,
    cascades,
];

/// Where the key of a call stands.
#[derive(Clone, Copy, Debug, PartialEq, Eq, PartialOrd, Ord)]
enum Stands {
    LiveInZero,
    TombstoneInZero,
    LiveBelow,
    /// No level has it, or the first below level 0 that does has a tombstone.
    Absent,
}

/// All of a sound store and a call that its forecast depends on.
#[derive(Clone, Copy, Debug, PartialEq, Eq, PartialOrd, Ord)]
struct Kind {
    put: bool,
    full: bool,
    limited: bool,
    stands: Stands,
}

/// Calls on sound stores by kind and forecast, reason and merges, and of those that
/// merge the ones with several merges and the ones whose first writes w × (G + 1) blocks.
#[derive(Default)]
struct Seen {
    calls: BTreeMap<(Kind, [u32; 2]), usize>,
    several: usize,
    most: usize,
}

/// The kind of a call on a sound store, told from the words and the map.
fn kind(words: &[u32], line: Line) -> Kind {
    let view = View::of(words).expect("a store");
    let (Line::Put(key, _) | Line::Delete(key)) = line else {
        panic!("{line:?} is no put and no delete");
    };
    let zero = records(view, 0);
    let stands = match zero.iter().find(|record| record.key == key) {
        Some(record) if record.tombstone => Stands::TombstoneInZero,
        Some(_) => Stands::LiveInZero,
        None if unreachable::map(words).contains_key(&key) => Stands::LiveBelow,
        None => Stands::Absent,
    };
    Kind {
        put: matches!(line, Line::Put(..)),
        full: zero.len() == view.geometry.level_zero_records(),
        limited: view.live() == view.geometry.key_limit(),
        stands,
    }
}

impl Seen {
    /// One call on a sound store, before it is made.
    fn call(&mut self, words: &[u32], line: Line) -> Checked {
        let (forecast, merges) = kept(words, line)?;
        let answer = [forecast.reason, forecast.merges];
        *self.calls.entry((kind(words, line), answer)).or_insert(0) += 1;
        self.several += usize::from(merges.len() > 1);
        if let (Some(first), Ok(view)) = (merges.first(), View::of(words)) {
            self.most += usize::from(first.writes() == most_writes(view.geometry));
        }
        Ok(())
    }

    /// Each of the 32 kinds came often and had one forecast only. Five of them merge: with
    /// level 0 full and the key not in it, puts of live keys, at the limit or not, puts of
    /// absent ones below the limit, and deletes of live ones, at the limit or not. Four are
    /// refused: at the limit, puts of absent keys and of tombstones in level 0, full or not.
    fn met(&self) {
        for ((kind, answer), calls) in &self.calls {
            println!("{answer:?} {calls:6} {kind:?}");
        }
        let (several, most) = (self.several, self.most);
        println!("several merges {several}, w × (G + 1) writes {most}");
        let kinds = |right: [u32; 2]| {
            let answers = self.calls.keys().filter(|(_, answer)| *answer == right);
            answers.count()
        };
        assert_eq!([NONE, ONE, LIMIT].map(kinds), [23, 5, 4]);
        assert_eq!(self.calls.len(), 32);
        assert!(self.calls.values().all(|&calls| calls > 50));
        assert!(several > 100 && most > 10);
    }
}

/// A put or a delete of a key that some level of a sound store has, half of them level 0,
/// or of the next one.
pub fn random_line(random: &mut Random, words: &[u32]) -> Line {
    let view = View::of(words).expect("a store");
    let level = random.below(2) * random.between(1, view.geometry.levels());
    let records = records(view, level);
    let key = match records.is_empty() {
        true => random.word(),
        false => random
            .pick(&records)
            .key
            .wrapping_add(random.pick(&[0, 0, 1])),
    };
    match random.one_in(2) {
        true => Line::Put(key, random.word()),
        false => Line::Delete(key),
    }
}

/// So many random calls on a store, and beside each another one that is only foretold.
fn calls_kept(
    random: &mut Random,
    mut words: Vec<u32>,
    geometry: Geometry,
    calls: usize,
    seen: &mut Seen,
) -> Checked {
    let keys = unreachable::map(&words).into_keys().collect();
    let mut stream = Stream::new(random, geometry, keys);
    for _ in 0..calls {
        seen.call(&words, random_line(random, &words))?;
        let line = stream.call(random);
        match line {
            Line::Put(key, payload) => {
                seen.call(&words, line)?;
                fast::put(&mut words, key, payload);
            }
            Line::Delete(key) => {
                seen.call(&words, line)?;
                fast::delete(&mut words, key);
            }
            _ => {}
        }
    }
    Ok(())
}

/// Calls on formatted stores and on stores that no call list reaches.
#[test]
fn kept_over_histories() {
    let mut random = Random::new(seed() ^ 0x8a);
    let choices = [Choices::new(2500), Choices::new(16384)];
    let mut seen = Seen::default();
    for round in 0..1500 {
        let geometry = choices[usize::from(round % 8 == 0)].pick(&mut random);
        let (words, calls) = match round % 4 {
            1 => {
                let calls = (2 * geometry.key_limit() + 40).min(300);
                (formatted(geometry), calls)
            }
            _ => (unreachable::store(&mut random, geometry), 20),
        };
        calls_kept(&mut random, words, geometry, calls, &mut seen)
            .unwrap_or_else(|text| panic!("{round} {:?}: {text}", geometry.numbers()));
    }
    seen.met();
}

/// Stores with each clause of the form check broken, with any word changed, cut and made
/// longer, and at the borders of the rules.
fn damaged_stores(random: &mut Random) -> Vec<Vec<u32>> {
    let choices = Choices::new(2500);
    let mut stores = borders(random);
    for breach in Breach::ALL {
        for _ in 0..20 {
            let geometry = choices.pick(random);
            stores.extend(damaged(random, geometry, breach));
        }
    }
    for round in 0..1500 {
        let geometry = choices.pick(random);
        let mut words = unreachable::store(random, geometry);
        match round % 8 {
            0 => words.truncate(random.below(13)),
            1 => words.truncate(random.below(words.len())),
            2 => words.push(random.word()),
            3 => words[random.below(6)] = random.word() >> random.below(32),
            _ => words = one_word(random, &words),
        }
        stores.push(words);
    }
    stores
}

/// Damaged stores: the forecast's reason is check's, and then no merge is foretold, also
/// where the size words tell of a full level 0; where check has none, it is 0 or 5.
#[test]
fn over_damaged_stores() {
    let mut random = Random::new(seed() ^ 0x8b);
    let (mut reasons, mut full) = ([0; 6], 0);
    for words in damaged_stores(&mut random) {
        let reason = check(&words);
        let any = words.get(12..).filter(|words| !words.is_empty());
        let key = any.map_or(5, |words| random.pick(words));
        for line in [Line::Put(key, 5), Line::Delete(key), Line::Put(key ^ 1, 5)] {
            let (forecast, _) = kept(&words, line).unwrap_or_else(|text| panic!("{text}"));
            let right = match reason {
                0 => forecast.reason == 0 || forecast.reason == 5,
                _ => forecast == Forecast { reason, merges: 0 },
            };
            assert!(right, "{forecast:?}, and check says {reason}");
            reasons[forecast.reason as usize] += 1;
        }
        if let (Ok(view), 4) = (View::of(&words), reason) {
            full += usize::from(view.count(0) == view.geometry.level_zero_records());
        }
    }
    println!("reasons {reasons:?}, damaged stores with a full level 0 {full}");
    assert!(reasons.iter().all(|&calls| calls > 20) && full > 100);
}
