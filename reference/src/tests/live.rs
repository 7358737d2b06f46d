//! The fast implementation's count of live keys against a plain map over the levels, on
//! stores with a record of every kind that its comparisons of whole rows could get wrong.

use super::{build, seed, set, tomb};
use crate::block::Record;
use crate::calls;
use crate::fast;
use crate::form::needs_compaction;
use crate::generate::legal_geometries;
use crate::geometry::Geometry;
use crate::layout::{COUNTS, LIVE};
use crate::random::Random;
use std::collections::BTreeMap;

/// The records of one level: for each key whether it is a tombstone.
type Level = BTreeMap<u32, bool>;

/// The live keys by a plain map: what stands above decides.
fn live(levels: &[Level]) -> usize {
    let mut newest = Level::new();
    for level in levels.iter().rev() {
        newest.extend(level);
    }
    newest.values().filter(|&&tombstone| !tombstone).count()
}

/// The blocks of a level: full ones after a first one of `first` records, if the waste
/// rules allow it.
fn blocks(b: usize, records: &[Record], first: usize) -> Vec<Vec<Record>> {
    let (head, rest) = records.split_at(first.min(records.len()));
    let count = 1 + rest.len().div_ceil(b);
    let wasteful = needs_compaction(b, count, records.len());
    if head.is_empty() || head.len() == b || wasteful {
        return records.chunks(b).map(Vec::from).collect();
    }
    let rest = rest.chunks(b).map(Vec::from);
    [head.to_vec()].into_iter().chain(rest).collect()
}

/// A store with these levels, whose first blocks have `first` records each.
fn store(geometry: Geometry, levels: &[Level], first: usize) -> Vec<u32> {
    let record = |(&key, &tombstone): (&u32, &bool)| match tombstone {
        true => tomb(key),
        false => set(key, key ^ 1),
    };
    let records = |level: &Level| level.iter().map(record).collect::<Vec<_>>();
    let below: Vec<_> = levels[1..]
        .iter()
        .map(|level| blocks(geometry.block(), &records(level), first))
        .collect();
    let below: Vec<&[Vec<Record>]> = below.iter().map(Vec::as_slice).collect();
    build(geometry.numbers(), &records(&levels[0]), &below)
}

/// The fast check takes a formed store with the map's count of live keys, and with no
/// other count.
fn counted(geometry: Geometry, levels: &[Level], first: usize) -> Vec<u32> {
    let mut words = store(geometry, levels, first);
    let right = live(levels) as u32;
    let numbers = geometry.numbers();
    for (count, reason) in [(right, 0), (right + 1, 4), (right.wrapping_sub(1), 4)] {
        words[LIVE] = count;
        assert_eq!(calls::check(&words), reason, "plain {numbers:?} {count}");
        assert_eq!(
            fast::check(&words),
            reason,
            "{numbers:?} {count} {levels:?}"
        );
    }
    words
}

/// How the keys of the levels lie.
#[derive(Clone, Copy, Debug, PartialEq)]
enum Lie {
    /// Those of all levels in one narrow range, so that many stand in several levels.
    Mixed,
    /// Each level in a range of its own, the deeper the lower or the higher.
    Apart { falling: bool },
    /// Any words.
    Wide,
}

/// Random levels; a `thin` level h has few records.
fn levels(random: &mut Random, geometry: Geometry, lie: Lie, thin: bool) -> Vec<Level> {
    let (b, h) = (geometry.block(), geometry.levels());
    let all: usize = (0..=h).map(|level| geometry.capacity(level) * b).sum();
    let tombstones = random.pick(&[0, 30, 100]);
    let extremes = random.pick(&[0, 2, 3]);
    let one = |level: usize| {
        let room = geometry.capacity(level) * b;
        // A first block that is not full takes one block more.
        let most = match level {
            0 => room,
            _ if level < h => room - b,
            _ if thin => random.between(1, b),
            _ => 4 * room / 5,
        };
        let most = random.pick(&[0, most / 3, most, most, most]);
        let start = if matches!(lie, Lie::Apart { falling: true }) {
            h - level
        } else {
            level
        };
        let key = |random: &mut Random| match (random.below(8) < extremes, lie) {
            (true, _) => random.pick(&[0, 0, 1, u32::MAX, u32::MAX - 1]),
            (_, Lie::Mixed) => random.below(all) as u32,
            (_, Lie::Apart { .. }) => (start * 2 * all + random.below(2 * all)) as u32,
            (_, Lie::Wide) => random.word(),
        };
        (0..most)
            .map(|_| (key(random), level < h && random.below(100) < tombstones))
            .collect()
    };
    let mut levels: Vec<Level> = (0..=h).map(one).collect();
    while live(&levels) > geometry.key_limit() {
        for _ in geometry.key_limit()..live(&levels) {
            let level = &mut levels[random.below(h + 1)];
            let key = level.keys().nth(random.below(level.len())).copied();
            key.map(|key| level.remove(&key));
        }
    }
    levels
}

/// How many levels have a key.
fn with(levels: &[Level], key: u32) -> usize {
    levels
        .iter()
        .filter(|level| level.contains_key(&key))
        .count()
}

/// A few thousand random stores of every B.
#[test]
fn same_as_a_map() {
    let mut random = Random::new(seed() ^ 0x5555);
    let all = legal_geometries(12_500);
    let mut seen = BTreeMap::new();
    for round in 0..3000 {
        let (b, h) = (2 + round % 15, 1 + round / 15 % 3);
        let fits = |geometry: &&Geometry| (geometry.block(), geometry.levels()) == (b, h);
        let choices: Vec<Geometry> = all.iter().filter(fits).copied().collect();
        let geometry = random.pick(&choices);
        let falling = random.one_in(2);
        let lie = random.pick(&[Lie::Mixed, Lie::Mixed, Lie::Apart { falling }, Lie::Wide]);
        let thin = random.one_in(3);
        let levels = levels(&mut random, geometry, lie, thin);
        let words = counted(geometry, &levels, random.between(1, b));
        let chunks = |level: usize| match level {
            0 => words[COUNTS].div_ceil(b as u32),
            _ => words[COUNTS + level],
        };
        let buried = |(key, &tombstone): (&u32, &bool)| tombstone && levels[h].contains_key(key);
        let kinds = [
            ("key 0 in several levels", with(&levels, 0) > 1),
            ("key 2^32 - 1 in several", with(&levels, u32::MAX) > 1),
            ("an empty level", levels.iter().any(Level::is_empty)),
            (
                "a tombstone hides",
                levels[..h].iter().flatten().any(buried),
            ),
            ("levels apart", matches!(lie, Lie::Apart { .. })),
            (
                "fewer below",
                (1..=h).any(|i| (1..chunks(i - 1)).contains(&chunks(i))),
            ),
            ("over 64 blocks", chunks(h) > 64),
            ("three levels", h == 3),
        ];
        for (kind, here) in kinds {
            *seen.entry(kind).or_insert(0) += usize::from(here);
        }
    }
    println!("{seen:?}");
    assert!(seen.values().all(|&stores| stores > 50), "{seen:?}");
}

/// Levels from lists of keys; those below 0 stand for tombstones.
fn given(keys: &[&[i64]]) -> Vec<Level> {
    let record = |&key: &i64| (key.unsigned_abs() as u32, key < 0);
    keys.iter()
        .map(|level| level.iter().map(record).collect())
        .collect()
}

/// Unused words are no keys: key 0 in one level, none in another whose first block has
/// room left, either way round.
#[test]
fn unused_words_are_no_keys() {
    for b in Geometry::BLOCK {
        let geometry = Geometry::new([b as u32, 2, 2, 4, 2, 360]).expect("a legal geometry");
        let rest: Vec<i64> = (1..=9 * b as i64).collect();
        let zero = counted(geometry, &given(&[&[], &[0], &rest]), b - 1);
        let below = counted(geometry, &given(&[&[], &rest, &[0]]), b - 1);
        assert!(zero[COUNTS + 2] > zero[COUNTS + 1]);
        assert!(below[COUNTS + 2] < below[COUNTS + 1]);
        counted(geometry, &given(&[&[0], &rest, &[0, 700]]), b - 1);
        counted(geometry, &given(&[&rest[..1], &[0], &[700]]), b - 1);
    }
}

/// A key counts once, in whatever levels it stands, and a tombstone hides all below.
#[test]
fn a_key_counts_once() {
    for b in Geometry::BLOCK {
        let geometry = Geometry::new([b as u32, 1, 2, 4, 3, 680]).expect("a legal geometry");
        let last = i64::from(u32::MAX);
        counted(
            geometry,
            &given(&[&[7, last], &[7, last], &[7, last], &[7, last]]),
            b,
        );
        counted(geometry, &given(&[&[-7], &[7], &[7, 8], &[7, last]]), b);
        counted(
            geometry,
            &given(&[&[7], &[-7, -last], &[7], &[7, 8, last]]),
            b,
        );
        counted(geometry, &given(&[&[], &[], &[-7], &[7]]), b);
    }
}
