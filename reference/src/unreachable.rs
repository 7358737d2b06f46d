//! Random stores that pass the form check but that no call list reaches: random
//! levels, blocks and slots, tombstones for keys that exist nowhere, old words in
//! free slots, a random allocation cursor.

use crate::block::{write_slot, Record};
use crate::form::needs_compaction;
use crate::geometry::Geometry;
use crate::layout::{COUNTS, CURSOR, LIVE};
use crate::level::View;
use crate::random::Random;
use std::collections::BTreeMap;

/// The records of one level by key.
type Level = BTreeMap<u32, Record>;

/// A random store of this geometry that passes the form check.
pub fn store(random: &mut Random, geometry: Geometry) -> Vec<u32> {
    let mut levels = random_levels(random, geometry);
    let limit = geometry.key_limit();
    let most = if random.one_in(4) {
        limit
    } else {
        random.between(limit / 2, limit)
    };
    while live_keys(&levels).len() > most {
        drop_some(random, &mut levels);
    }
    let mut words = vec![0; geometry.length()];
    for word in &mut words[geometry.slots_at()..] {
        *word = random.word() >> random.below(32);
    }
    words[..6].copy_from_slice(&geometry.numbers());
    words[LIVE] = live_keys(&levels).len() as u32;
    words[CURSOR] = random.below(geometry.slots()) as u32;
    write_zero(geometry, &mut words, &levels[0]);
    let mut slots = shuffled(random, geometry.slots());
    for (level, records) in levels.iter().enumerate().skip(1) {
        write_level(random, geometry, &mut words, level, records, &mut slots);
    }
    words
}

/// The keys of a store that passes the form check with their payloads: its map.
pub fn map(words: &[u32]) -> BTreeMap<u32, u32> {
    let Ok(view) = View::of(words) else {
        return BTreeMap::new();
    };
    let newest = view.newest_from(0).filter(|record| !record.tombstone);
    newest.map(|record| (record.key, record.payload)).collect()
}

/// How the keys of a random store are drawn.
#[derive(Clone, Copy)]
enum Source {
    /// From a range of words, so many from a base on.
    Range { base: usize, range: usize },
    /// Groups of B neighbouring keys, those of one level between those of the
    /// others; some levels have single keys of such groups.
    Comb {
        b: usize,
        groups: usize,
        group: usize,
        whole: bool,
    },
    /// Every level evenly spread, those on flash in groups of B keys and all above
    /// level h tombstones: each run overlaps many blocks that can be reused, so
    /// that a level below grows far and merges more than once in a call.
    Even { b: usize },
}

impl Source {
    /// A random source for a store of this geometry.
    fn new(random: &mut Random, geometry: Geometry) -> Source {
        let (b, h) = (geometry.block(), geometry.levels());
        let blocks: usize = (0..=h).map(|level| geometry.capacity(level)).sum();
        let range = random.pick(&[blocks * b, 3 * blocks * b, 1 << 32]);
        let base = random.pick(&[0, 0, (1 << 32) - range]);
        let groups = geometry.capacity(h) * random.pick(&[1, 1, 2, 4]);
        match random.below(5) {
            0 | 1 => Source::Range { base, range },
            2 | 3 => Source::Comb {
                b,
                groups,
                group: 0,
                whole: false,
            },
            _ => Source::Even { b },
        }
    }

    /// Chosen anew for each level: whole groups or single keys of a comb.
    fn begin(&mut self, random: &mut Random, level: usize) {
        if let Source::Comb { whole, .. } = self {
            *whole = level > 0 && !random.one_in(3);
        }
    }

    /// A key of this level for the draw of this number, of about `count` draws.
    fn key(&mut self, random: &mut Random, level: usize, number: usize, count: usize) -> u32 {
        let key = match self {
            Source::Range { base, range } => *base + random.below(*range),
            Source::Comb {
                b,
                groups,
                group,
                whole,
            } => {
                if !*whole || number.is_multiple_of(*b) {
                    *group = random.below(*groups);
                }
                let at = if *whole {
                    number % *b
                } else {
                    random.below(*b)
                };
                *group * 4 * *b + (3 - level) * *b + at
            }
            Source::Even { b } => {
                let step = (1 << 30) / count;
                let start = if level == 0 {
                    number
                } else {
                    number - number % *b
                };
                let at = if level == 0 {
                    random.below(16)
                } else {
                    number % *b
                };
                start * step + 64 * level + at
            }
        };
        key as u32
    }

    /// How many of 100 records above level h are tombstones.
    fn tombstones(self, random: &mut Random) -> usize {
        match self {
            Source::Even { .. } => 100,
            _ => random.pick(&[0, 20, 60, 100]),
        }
    }

    /// How many records a level gets, and how many of 100 keys of it are taken from
    /// deeper levels. Level h holds what N and all that lies above allow.
    fn shares(self, random: &mut Random, geometry: Geometry, level: usize) -> (usize, usize) {
        let room = geometry.capacity(level) * geometry.block();
        let bottom = level == geometry.levels();
        if let Source::Even { .. } = self {
            let most = if bottom {
                geometry.key_limit() / random.pick(&[1, 2, 3])
            } else {
                room
            };
            return (most, 0);
        }
        let most = if bottom { 4 * room / 5 } else { room };
        let share = random.pick(&[100, 100, 99, 95, 90, 85, 80, 80, 80, 70, 50, 10, 0]);
        let share = if level == 0 && random.one_in(2) {
            100
        } else {
            share
        };
        (most * share / 100, random.pick(&[0, 0, 30, 90]))
    }
}

/// Random records for levels 0 to h that fit the capacity of their level; live may
/// still be above N.
fn random_levels(random: &mut Random, geometry: Geometry) -> Vec<Level> {
    let h = geometry.levels();
    let mut source = Source::new(random, geometry);
    let tombstones = source.tombstones(random);
    let mut levels = vec![Level::new(); h + 1];
    let mut known = Vec::new();
    for level in (0..=h).rev() {
        let (count, shared) = source.shares(random, geometry, level);
        source.begin(random, level);
        for number in 0..6 * count {
            if levels[level].len() == count {
                break;
            }
            let again = !known.is_empty() && random.below(100) < shared;
            let fresh = source.key(random, level, number, count);
            let key = if again { random.pick(&known) } else { fresh };
            let tombstone = level < h && random.below(100) < tombstones;
            let payload = if tombstone { 0 } else { random.word() };
            levels[level].insert(
                key,
                Record {
                    key,
                    payload,
                    tombstone,
                },
            );
        }
        known.extend(levels[level].keys().copied());
    }
    levels
}

/// The keys of the map: "the first level from 0 down that has k decides".
fn live_keys(levels: &[Level]) -> Vec<u32> {
    let mut newest = Level::new();
    for level in levels.iter().rev() {
        newest.extend(level.iter().map(|(&key, &record)| (key, record)));
    }
    newest
        .values()
        .filter(|record| !record.tombstone)
        .map(|record| record.key)
        .collect()
}

/// Brings live down, mostly without making levels shorter: puts above level h
/// become tombstones, for their own key or for one of level h. Now and then level
/// h loses records, so that this comes to an end.
fn drop_some(random: &mut Random, levels: &mut [Level]) {
    let h = levels.len() - 1;
    let bottom: Vec<u32> = levels[h].keys().copied().collect();
    for level in &mut levels[..h] {
        let keys: Vec<u32> = level.keys().copied().collect();
        for key in keys {
            if !random.one_in(3) {
                continue;
            }
            let aimed = !bottom.is_empty() && random.one_in(2);
            let target = if aimed { random.pick(&bottom) } else { key };
            if target == key || !level.contains_key(&target) {
                level.remove(&key);
                level.insert(
                    target,
                    Record {
                        key: target,
                        payload: 0,
                        tombstone: true,
                    },
                );
            }
        }
    }
    if !bottom.is_empty() && random.one_in(4) {
        for _ in 0..bottom.len() / 20 + 1 {
            levels[h].remove(&random.pick(&bottom));
        }
    }
}

/// Writes level 0.
fn write_zero(geometry: Geometry, words: &mut [u32], level: &Level) {
    let b = geometry.block();
    words[COUNTS] = level.len() as u32;
    for (index, record) in level.values().enumerate() {
        let bit = u32::from(record.tombstone) << (index % b);
        words[geometry.tombstones_at() + index / b] |= bit;
        words[geometry.keys_at() + index] = record.key;
        words[geometry.payloads_at() + index] = record.payload;
    }
}

/// Writes a level on flash in random blocks at random slots.
fn write_level(
    random: &mut Random,
    geometry: Geometry,
    words: &mut [u32],
    level: usize,
    records: &Level,
    slots: &mut Vec<u32>,
) {
    let (most, window) = (geometry.capacity(level), geometry.window(level));
    let sizes = block_sizes(random, geometry.block(), most, window, records.len());
    let records: Vec<Record> = records.values().copied().collect();
    words[COUNTS + level] = sizes.len() as u32;
    let mut start = 0;
    for (index, size) in sizes.into_iter().enumerate() {
        let slot = slots.pop().unwrap_or(0);
        write_slot(geometry, words, slot, &records[start..start + size]);
        words[geometry.list_at(level) + index] = slot;
        start += size;
    }
}

/// Random block sizes for `records` records in at most `most` blocks of 1 to B
/// records that keep both waste rules.
fn block_sizes(
    random: &mut Random,
    b: usize,
    most: usize,
    window: usize,
    records: usize,
) -> Vec<usize> {
    let fewest = records.div_ceil(b);
    let kept = |&blocks: &usize| blocks <= records && !needs_compaction(b, blocks, records);
    let last = (fewest..=most).rev().find(kept).unwrap_or(fewest);
    let blocks = if random.one_in(2) {
        last
    } else {
        random.between(fewest, last)
    };
    let mut sizes = vec![b; blocks];
    let mut empty = blocks * b - records;
    if random.one_in(2) {
        // Small blocks just a window apart: step 2 can join two of them.
        let first = random.below(window + 1);
        for at in (first..blocks).step_by(window + 1) {
            shrink(&mut sizes, b, at, b, &mut empty);
        }
    }
    let by = random.pick(&[1, b]);
    for _ in 0..40 * blocks {
        let at = random.below(blocks);
        shrink(&mut sizes, b, at, by, &mut empty);
    }
    if empty > 0 {
        return alternating(b, blocks, records);
    }
    sizes
}

/// Takes up to `by` records from a block, as far as the pair rule allows.
fn shrink(sizes: &mut [usize], b: usize, at: usize, by: usize, empty: &mut usize) {
    for _ in 0..by {
        if *empty > 0 && may_shrink(sizes, b, at) {
            sizes[at] -= 1;
            *empty -= 1;
        }
    }
}

/// Whether a block can lose a record under the pair rule.
fn may_shrink(sizes: &[usize], b: usize, at: usize) -> bool {
    let neighbours = [at.checked_sub(1), Some(at + 1)];
    let mut sums = neighbours
        .into_iter()
        .flatten()
        .filter_map(|n| sizes.get(n));
    sizes[at] > 1 && sums.all(|size| sizes[at] + size > b + 1)
}

/// Sizes in which only every other block is not full.
fn alternating(b: usize, blocks: usize, records: usize) -> Vec<usize> {
    let mut sizes = vec![b; blocks];
    let mut empty = blocks * b - records;
    for size in sizes.iter_mut().step_by(2) {
        let less = empty.min(b - 1);
        *size -= less;
        empty -= less;
    }
    sizes
}

/// All slots in random order.
pub fn shuffled(random: &mut Random, slots: usize) -> Vec<u32> {
    let mut order: Vec<u32> = (0..slots as u32).collect();
    for index in (1..order.len()).rev() {
        order.swap(index, random.below(index + 1));
    }
    order
}
