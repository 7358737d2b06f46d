//! The form check of document 01 clause by clause: which of them a store breaks.
//! `form` answers only whether there is a breach; this says which, so that the
//! generated readings can be counted by kind. Written apart from `form`, and the
//! tests hold the two against each other.

use crate::geometry::Geometry;
use crate::layout::{COUNTS, CURSOR, LIVE, MOST_LEVELS};
use crate::level::View;
use std::collections::BTreeMap;

/// A clause of the form check; `Top` is level 0.
#[derive(Clone, Copy, Debug, PartialEq, Eq, PartialOrd, Ord)]
pub enum Breach {
    /// live differs from the number of keys of the map.
    Live,
    /// live is above N.
    Limit,
    /// hand is not below P.
    Hand,
    /// c is above K(0)×B.
    TopCount,
    /// The block count of a level 1 to h is above K(i).
    Count,
    /// The block count of a level above h is not 0.
    CountAbove,
    /// A listed place is not below P.
    Place,
    /// A place is listed twice.
    PlaceTwice,
    /// A listed block has no record.
    NoRecord,
    /// A listed block has more than B records.
    TooManyRecords,
    /// Keys don't rise strictly in level 0.
    TopRise,
    /// Keys don't rise strictly within a block.
    BlockRise,
    /// Keys don't rise strictly from one block to the next.
    AcrossRise,
    /// Level h has a mark.
    BottomMark,
    TopUnusedKey,
    TopUnusedPayload,
    /// A bit below B of a record from c on.
    TopUnusedBit,
    /// A bit from B on of a mark word of level 0.
    TopHighBit,
    BlockUnusedKey,
    BlockUnusedPayload,
    /// A bit below B of a record from the block's count on.
    BlockUnusedBit,
    /// A bit from B on of a block's mark word.
    BlockHighBit,
    /// A list entry from the level's count on is not 0.
    UnusedEntry,
    /// A mark of level 0 has a payload.
    TopMarkPayload,
    /// A mark of a block has a payload.
    BlockMarkPayload,
    /// Two neighbouring blocks hold B records or fewer together.
    Pair,
    /// A level needs compacting.
    Level,
}

impl Breach {
    /// Every clause.
    pub const ALL: [Breach; 27] = {
        use Breach::*;
        [
            Live,
            Limit,
            Hand,
            TopCount,
            Count,
            CountAbove,
            Place,
            PlaceTwice,
            NoRecord,
            TooManyRecords,
            TopRise,
            BlockRise,
            AcrossRise,
            BottomMark,
            TopUnusedKey,
            TopUnusedPayload,
            TopUnusedBit,
            TopHighBit,
            BlockUnusedKey,
            BlockUnusedPayload,
            BlockUnusedBit,
            BlockHighBit,
            UnusedEntry,
            TopMarkPayload,
            BlockMarkPayload,
            Pair,
            Level,
        ]
    };
}

/// The clauses that a store breaks, each once, in the order above; none of a store
/// that reasons 1 to 3 turn down. A count too large is taken as the greatest legal
/// one, and a place that is not there as no block, so that the other clauses can
/// still be looked at.
pub fn breaches(words: &[u32]) -> Vec<Breach> {
    let Ok(view) = View::of(words) else {
        return Vec::new();
    };
    let mut found = Found {
        geometry: view.geometry,
        words,
        broken: Vec::new(),
        map: BTreeMap::new(),
    };
    found.header();
    found.top();
    found.lists();
    for level in 1..=view.geometry.levels() {
        found.level(level);
    }
    found.live();
    found.broken.sort();
    found.broken.dedup();
    found.broken
}

/// The number of keys of the map, as far as the words tell.
pub fn live_keys(words: &[u32]) -> usize {
    let Ok(view) = View::of(words) else {
        return 0;
    };
    let mut found = Found {
        geometry: view.geometry,
        words,
        broken: Vec::new(),
        map: BTreeMap::new(),
    };
    found.top();
    for level in 1..=view.geometry.levels() {
        found.level(level);
    }
    found.map.values().filter(|&&live| live).count()
}

/// The clauses found broken so far, and for each key whether its newest record is
/// a put.
struct Found<'a> {
    geometry: Geometry,
    words: &'a [u32],
    broken: Vec<Breach>,
    map: BTreeMap<u32, bool>,
}

impl Found<'_> {
    /// Notes a clause unless it is kept.
    fn keep(&mut self, kept: bool, breach: Breach) {
        if !kept {
            self.broken.push(breach);
        }
    }

    /// The header word of a count.
    fn count(&self, level: usize) -> usize {
        self.words[COUNTS + level] as usize
    }

    /// The blocks of a level that can be looked at, as the starts of their words.
    fn blocks(&self, level: usize) -> Vec<usize> {
        let count = self.count(level).min(self.geometry.capacity(level));
        let at = self.geometry.list_at(level);
        let places = self.words[at..at + count].iter().map(|&p| p as usize);
        places
            .filter(|&place| place < self.geometry.slots())
            .map(|place| self.geometry.slot_at(place))
            .collect()
    }

    /// Hand and the counts.
    fn header(&mut self) {
        let (words, geometry) = (self.words, self.geometry);
        self.keep((words[CURSOR] as usize) < geometry.slots(), Breach::Hand);
        let room = geometry.capacity(0) * geometry.block();
        self.keep(self.count(0) <= room, Breach::TopCount);
        for level in 1..=MOST_LEVELS {
            if level <= geometry.levels() {
                let kept = self.count(level) <= geometry.capacity(level);
                self.keep(kept, Breach::Count);
            } else {
                self.keep(self.count(level) == 0, Breach::CountAbove);
            }
        }
    }

    /// Level 0, record by record.
    fn top(&mut self) {
        let (words, geometry) = (self.words, self.geometry);
        let b = geometry.block();
        let room = geometry.capacity(0) * b;
        let c = self.count(0).min(room);
        let mut before: Option<u32> = None;
        for index in 0..room {
            let bit = words[geometry.tombstones_at() + index / b] >> (index % b) & 1;
            let key = words[geometry.keys_at() + index];
            let payload = words[geometry.payloads_at() + index];
            if index < c {
                self.keep(before.is_none_or(|last| last < key), Breach::TopRise);
                self.keep(bit == 0 || payload == 0, Breach::TopMarkPayload);
                self.map.entry(key).or_insert(bit == 0);
                before = Some(key);
            } else {
                self.keep(key == 0, Breach::TopUnusedKey);
                self.keep(payload == 0, Breach::TopUnusedPayload);
                self.keep(bit == 0, Breach::TopUnusedBit);
            }
        }
        for page in 0..geometry.capacity(0) {
            let bits = words[geometry.tombstones_at() + page];
            self.keep(bits >> b == 0, Breach::TopHighBit);
        }
    }

    /// The place lists.
    fn lists(&mut self) {
        let geometry = self.geometry;
        let mut listed = Vec::new();
        for level in 1..=geometry.levels() {
            for index in 0..geometry.capacity(level) {
                let entry = self.words[geometry.list_at(level) + index];
                if index < self.count(level) {
                    self.keep((entry as usize) < geometry.slots(), Breach::Place);
                    self.keep(!listed.contains(&entry), Breach::PlaceTwice);
                    listed.push(entry);
                } else {
                    self.keep(entry == 0, Breach::UnusedEntry);
                }
            }
        }
    }

    /// The blocks of a level, record by record, and the waste rules.
    fn level(&mut self, level: usize) {
        let b = self.geometry.block();
        let blocks = self.blocks(level);
        let mut sizes = Vec::new();
        let mut last: Option<u32> = None;
        for &at in &blocks {
            let words = &self.words[at..at + 2 + 2 * b];
            let count = words[0] as usize;
            self.keep(count > 0, Breach::NoRecord);
            self.keep(count <= b, Breach::TooManyRecords);
            self.keep(words[1] >> b == 0, Breach::BlockHighBit);
            let count = count.min(b);
            for index in 0..b {
                let (key, payload) = (words[2 + index], words[2 + b + index]);
                let bit = words[1] >> index & 1;
                if index >= count {
                    self.keep(key == 0, Breach::BlockUnusedKey);
                    self.keep(payload == 0, Breach::BlockUnusedPayload);
                    self.keep(bit == 0, Breach::BlockUnusedBit);
                    continue;
                }
                let rises = last.is_none_or(|last| last < key);
                let breach = if index == 0 {
                    Breach::AcrossRise
                } else {
                    Breach::BlockRise
                };
                self.keep(rises, breach);
                self.keep(bit == 0 || payload == 0, Breach::BlockMarkPayload);
                let bottom = level == self.geometry.levels();
                self.keep(bit == 0 || !bottom, Breach::BottomMark);
                self.map.entry(key).or_insert(bit == 0);
                last = Some(key);
            }
            sizes.push(count);
        }
        let pairs = sizes.windows(2).all(|pair| pair[0] + pair[1] > b);
        self.keep(pairs, Breach::Pair);
        let records: usize = sizes.iter().sum();
        let wasted = 5 * (sizes.len() * b - records) > sizes.len() * b;
        let needless = sizes.len() > records.div_ceil(b);
        self.keep(!(wasted && needless), Breach::Level);
    }

    /// live.
    fn live(&mut self) {
        let live = self.words[LIVE] as usize;
        let keys = self.map.values().filter(|&&live| live).count();
        self.keep(live == keys, Breach::Live);
        self.keep(live <= self.geometry.key_limit(), Breach::Limit);
    }
}
