//! Damage done to the words of a store.

use reference::breach;
use reference::geometry::Geometry;
use reference::layout::{COUNTS, HEADER, LIVE};
use reference::random::Random;

/// One damage, so that it can be told and repeated.
#[derive(Clone, Copy, Debug, PartialEq, Eq)]
pub enum Harm {
    /// A bit turned over.
    Bit { at: usize, bit: u32 },
    /// A word set.
    Set { at: usize, value: u32 },
    /// Two words that changed their places.
    Swap { one: usize, other: usize },
    /// The store cut to so many words.
    Cut { words: usize },
    /// So many words more, each of this value.
    More { words: usize, value: u32 },
    /// live set to the number of live keys of the damaged store.
    Live { value: u32 },
}

impl Harm {
    /// Does it.
    pub fn apply(self, words: &mut Vec<u32>) {
        match self {
            Harm::Bit { at, bit } => words[at] ^= 1 << bit,
            Harm::Set { at, value } => words[at] = value,
            Harm::Swap { one, other } => words.swap(one, other),
            Harm::Cut { words: left } => words.truncate(left),
            Harm::More { words: more, value } => words.resize(words.len() + more, value),
            Harm::Live { value } => words[LIVE] = value,
        }
    }
}

/// Damages a store of this geometry at random, which it was sound in before; each
/// damage goes to `harms`.
pub fn damage(
    random: &mut Random,
    geometry: Geometry,
    words: &mut Vec<u32>,
    harms: &mut Vec<Harm>,
) {
    let times = random.pick(&[1, 1, 1, 1, 2, 2, 3, 8]);
    for _ in 0..times {
        let harm = word_harm(random, geometry, words);
        harm.apply(words);
        harms.push(harm);
    }
    if random.one_in(12) && Geometry::new(numbers(words)) == Some(geometry) {
        let value = breach::live_keys(words) as u32;
        let harm = Harm::Live { value };
        harm.apply(words);
        harms.push(harm);
    }
    if random.one_in(16) {
        let harm = length_harm(random, geometry, words.len());
        harm.apply(words);
        harms.push(harm);
    }
}

/// The first six words.
fn numbers(words: &[u32]) -> [u32; 6] {
    [0, 1, 2, 3, 4, 5].map(|at| words[at])
}

/// A damage to one or two words.
fn word_harm(random: &mut Random, geometry: Geometry, words: &[u32]) -> Harm {
    let at = place(random, geometry, words);
    match random.below(8) {
        0..=2 => Harm::Bit {
            at,
            bit: random.below(32) as u32,
        },
        3 => Harm::Swap {
            one: at,
            other: place(random, geometry, words),
        },
        4 => Harm::Set {
            at,
            value: words[place(random, geometry, words)],
        },
        5 => Harm::Set {
            at,
            value: random.pick(&[0, u32::MAX, 1, 1 << 31, u32::MAX - 1, 0xffff, 0x1_0000]),
        },
        6 => Harm::Set {
            at,
            value: near_limit(random, geometry),
        },
        _ => Harm::Set {
            at,
            value: random.pick(&[words[at].wrapping_add(1), words[at].wrapping_sub(1)]),
        },
    }
}

/// A limit of the geometry or a neighbour of one.
fn near_limit(random: &mut Random, geometry: Geometry) -> u32 {
    let level = random.below(geometry.levels() + 1);
    let limit = random.pick(&[
        geometry.block(),
        geometry.slots(),
        geometry.capacity(level),
        geometry.window(level),
        geometry.level_zero_records(),
        geometry.key_limit(),
        geometry.levels(),
        8192,
        1024,
        16,
        10,
    ]);
    (limit + 1 - random.below(3)) as u32
}

/// A word to damage, mostly one that the form check reads.
fn place(random: &mut Random, geometry: Geometry, words: &[u32]) -> usize {
    let (first, last) = match random.below(12) {
        0 => (0, 6),
        1 | 2 => (LIVE, HEADER),
        3 => (HEADER, geometry.keys_at()),
        4 | 5 => (HEADER, geometry.list_at(1)),
        6 => (geometry.list_at(1), geometry.slots_at()),
        7 => (0, words.len()),
        _ => listed_block(random, geometry, words),
    };
    random.between(first, last - 1)
}

/// The words of a listed block or of some of them, or those of any slot if the
/// list is damaged or empty.
fn listed_block(random: &mut Random, geometry: Geometry, words: &[u32]) -> (usize, usize) {
    let level = random.between(1, geometry.levels());
    let count = (words[COUNTS + level] as usize).min(geometry.capacity(level));
    let entry = geometry.list_at(level) + random.below(count);
    let slot = (words[entry] as usize).min(geometry.slots() - 1);
    let at = geometry.slot_at(slot);
    match random.below(4) {
        0 => (at, at + 2),
        1 => (at, at + 2 + geometry.block()),
        _ => (at, at + geometry.slot_words()),
    }
}

/// A store that is too short or too long.
fn length_harm(random: &mut Random, geometry: Geometry, length: usize) -> Harm {
    let value = random.pick(&[0, 0, u32::MAX, 7]);
    match random.below(6) {
        0 => Harm::Cut {
            words: random.below(HEADER + 2),
        },
        1 => Harm::Cut {
            words: random.below(length),
        },
        2 => Harm::Cut { words: length - 1 },
        3 => Harm::Cut {
            words: length - geometry.slot_words(),
        },
        4 => Harm::More { words: 1, value },
        _ => Harm::More {
            words: random.between(1, 2 * geometry.slot_words()),
            value,
        },
    }
}
