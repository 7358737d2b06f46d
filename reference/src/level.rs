//! Reading the levels of a lent store: level 0, the lists of slots, searches and
//! walks in key order.

use crate::block::{Record, Slot, Span};
use crate::geometry::Geometry;
use crate::layout::{COUNTS, CURSOR, HEADER, LIVE};

/// A lent store of legal geometry and right length.
#[derive(Clone, Copy)]
pub struct View<'a> {
    pub geometry: Geometry,
    pub words: &'a [u32],
}

impl<'a> View<'a> {
    /// The store, or the first of the reasons 1 to 3 that turns it down.
    pub fn of(words: &'a [u32]) -> Result<View<'a>, u32> {
        if words.len() < HEADER {
            return Err(1);
        }
        let mut numbers = [0; 6];
        numbers.copy_from_slice(&words[..6]);
        let geometry = Geometry::new(numbers).ok_or(2u32)?;
        if words.len() != geometry.length() {
            return Err(3);
        }
        Ok(View { geometry, words })
    }

    /// live: "number of keys in the map".
    pub fn live(self) -> usize {
        self.words[LIVE] as usize
    }

    /// The allocation cursor (document 01: hand).
    pub fn cursor(self) -> usize {
        self.words[CURSOR] as usize
    }

    /// Word c for level 0, the block count for levels 1 to 3.
    pub fn count(self, level: usize) -> usize {
        self.words[COUNTS + level] as usize
    }

    /// The keys of level 0, unused ones too.
    pub fn zero_keys(self) -> &'a [u32] {
        let at = self.geometry.keys_at();
        &self.words[at..at + self.geometry.level_zero_records()]
    }

    /// The payloads of level 0, unused ones too.
    pub fn zero_payloads(self) -> &'a [u32] {
        let at = self.geometry.payloads_at();
        &self.words[at..at + self.geometry.level_zero_records()]
    }

    /// "Bit j of mark word p, bit 0 the lowest, belongs to record p×B + j."
    pub fn zero_tombstone(self, index: usize) -> bool {
        let b = self.geometry.block();
        self.words[self.geometry.tombstones_at() + index / b] >> (index % b) & 1 == 1
    }

    /// Record number `index` of level 0, below c.
    pub fn zero_record(self, index: usize) -> Record {
        Record {
            key: self.zero_keys()[index],
            payload: self.zero_payloads()[index],
            tombstone: self.zero_tombstone(index),
        }
    }

    /// Where level 0 has the key, or else where it would go in.
    pub fn zero_search(self, key: u32) -> Result<usize, usize> {
        self.zero_keys()[..self.count(0)].binary_search(&key)
    }

    /// The K(i) list entries of level i, unused ones too.
    pub fn entries(self, level: usize) -> &'a [u32] {
        let at = self.geometry.list_at(level);
        &self.words[at..at + self.geometry.capacity(level)]
    }

    /// The slots of the blocks of level i in key order.
    pub fn list(self, level: usize) -> &'a [u32] {
        &self.entries(level)[..self.count(level)]
    }

    /// The words of a slot.
    pub fn slot(self, slot: u32) -> Slot<'a> {
        Slot::of(self.geometry, self.words, slot)
    }

    /// First and last key of the block in a slot.
    pub fn span(self, slot: u32) -> Span {
        self.slot(slot).span()
    }

    /// The number of the first block of level i whose last key isn't below `key`.
    pub fn first_block(self, level: usize, key: u32) -> usize {
        self.list(level)
            .partition_point(|&slot| self.span(slot).last < key)
    }

    /// The record of level i with this key.
    pub fn find(self, level: usize, key: u32) -> Option<Record> {
        if level == 0 {
            return self
                .zero_search(key)
                .ok()
                .map(|index| self.zero_record(index));
        }
        let &slot = self.list(level).get(self.first_block(level, key))?;
        let slot = self.slot(slot);
        let index = slot.keys()[..slot.count()].binary_search(&key).ok()?;
        Some(slot.record(index))
    }

    /// "Look up k: the first level from 0 down that has k decides; a mark or no
    /// record is absent."
    pub fn look_up(self, key: u32) -> Option<u32> {
        let levels = 0..=self.geometry.levels();
        let record = levels.into_iter().find_map(|level| self.find(level, key))?;
        (!record.tombstone).then_some(record.payload)
    }

    /// The newest record of every key from `key` on, rising, tombstones too.
    pub fn newest_from(self, key: u32) -> Newest<'a> {
        let levels = 0..=self.geometry.levels();
        Newest {
            readers: levels.map(|level| Reader::from(self, level, key)).collect(),
        }
    }

    /// The number of keys of the map that the levels stand for.
    pub fn count_live(self) -> usize {
        self.newest_from(0)
            .filter(|record| !record.tombstone)
            .count()
    }
}

/// A walk over the records of one level in key order.
struct Reader<'a> {
    view: View<'a>,
    level: usize,
    block: usize,
    index: usize,
    head: Option<Record>,
}

impl<'a> Reader<'a> {
    /// Starts at the first record of the level whose key isn't below `key`.
    fn from(view: View<'a>, level: usize, key: u32) -> Reader<'a> {
        let mut reader = Reader {
            view,
            level,
            block: 0,
            index: 0,
            head: None,
        };
        if level == 0 {
            reader.index = view.zero_search(key).unwrap_or_else(|at| at);
        } else {
            reader.block = view.first_block(level, key);
            if let Some(&slot) = view.list(level).get(reader.block) {
                let slot = view.slot(slot);
                reader.index = slot.keys()[..slot.count()].partition_point(|&k| k < key);
            }
        }
        reader.load();
        reader
    }

    /// Reads the record that the walk stands at.
    fn load(&mut self) {
        if self.level == 0 {
            let inside = self.index < self.view.count(0);
            self.head = inside.then(|| self.view.zero_record(self.index));
            return;
        }
        let list = self.view.list(self.level);
        if let Some(&slot) = list.get(self.block) {
            if self.index == self.view.slot(slot).count() {
                self.block += 1;
                self.index = 0;
            }
        }
        let slot = list.get(self.block);
        self.head = slot.map(|&slot| self.view.slot(slot).record(self.index));
    }

    /// Moves on by one record.
    fn advance(&mut self) {
        self.index += 1;
        self.load();
    }
}

/// All levels read together in key order: of equal keys the record of the first
/// level from 0 down.
pub struct Newest<'a> {
    readers: Vec<Reader<'a>>,
}

impl Iterator for Newest<'_> {
    type Item = Record;

    /// "The first level from 0 down that has k decides."
    fn next(&mut self) -> Option<Record> {
        let heads = self.readers.iter().filter_map(|reader| reader.head);
        let key = heads.map(|record| record.key).min()?;
        let mut newest = None;
        for reader in &mut self.readers {
            if reader.head.is_some_and(|record| record.key == key) {
                newest = newest.or(reader.head);
                reader.advance();
            }
        }
        newest
    }
}
