//! Records and blocks as a merge handles them, and the words of one slot.

use crate::geometry::Geometry;

/// One record. A tombstone is document 01's delete mark: "A delete mark has
/// payload 0."
#[derive(Clone, Copy, Debug, PartialEq, Eq)]
pub struct Record {
    pub key: u32,
    pub payload: u32,
    pub tombstone: bool,
}

/// A block of a level during a merge. `slot` (document 01: place) is none for a
/// page of level 0, which "has no place and can't be reused", and for a new
/// block that has not been given one yet.
#[derive(Clone, Debug, PartialEq, Eq)]
pub struct Block {
    pub slot: Option<u32>,
    pub records: Vec<Record>,
}

impl Block {
    /// A block that is still to be written.
    pub fn fresh(records: Vec<Record>) -> Block {
        Block {
            slot: None,
            records,
        }
    }

    /// First and last key; blocks are never empty.
    pub fn span(&self) -> Span {
        let first = self.records.first().map_or(0, |record| record.key);
        let last = self.records.last().map_or(0, |record| record.key);
        Span { first, last }
    }

    /// Number of records.
    pub fn len(&self) -> usize {
        self.records.len()
    }

    /// No listed block is empty; only a buffer can be.
    pub fn is_empty(&self) -> bool {
        self.records.is_empty()
    }
}

/// The key range of a block, from its first to its last key.
#[derive(Clone, Copy, Debug, PartialEq, Eq)]
pub struct Span {
    pub first: u32,
    pub last: u32,
}

/// The 2 + 2B words of one slot that holds a block of 1 to B records.
#[derive(Clone, Copy)]
pub struct Slot<'a> {
    words: &'a [u32],
    block: usize,
}

impl<'a> Slot<'a> {
    /// The words of slot number `slot` of a store.
    pub fn of(geometry: Geometry, words: &'a [u32], slot: u32) -> Slot<'a> {
        let at = geometry.slot_at(slot as usize);
        let words = &words[at..at + geometry.slot_words()];
        Slot {
            words,
            block: geometry.block(),
        }
    }

    /// All 2 + 2B words.
    pub fn words(self) -> &'a [u32] {
        self.words
    }

    /// The record count as it stands, which a damaged store may have too large.
    pub fn count(self) -> usize {
        self.words[0] as usize
    }

    /// The tombstone word (document 01: mark word).
    pub fn tombstones(self) -> u32 {
        self.words[1]
    }

    /// All B keys, unused ones too.
    pub fn keys(self) -> &'a [u32] {
        &self.words[2..2 + self.block]
    }

    /// All B payloads, unused ones too.
    pub fn payloads(self) -> &'a [u32] {
        &self.words[2 + self.block..]
    }

    /// First and last key of a block of 1 to B records.
    pub fn span(self) -> Span {
        Span {
            first: self.keys()[0],
            last: self.keys()[self.count() - 1],
        }
    }

    /// Record number `index`, below the count.
    pub fn record(self, index: usize) -> Record {
        Record {
            key: self.keys()[index],
            payload: self.payloads()[index],
            tombstone: self.tombstones() >> index & 1 == 1,
        }
    }

    /// All records in key order.
    pub fn records(self) -> impl Iterator<Item = Record> + 'a {
        (0..self.count()).map(move |index| self.record(index))
    }
}

/// Fills all 2 + 2B words of a slot with a block (reading 13); unused slots and
/// bits are 0.
pub fn write_slot(geometry: Geometry, words: &mut [u32], slot: u32, records: &[Record]) {
    let at = geometry.slot_at(slot as usize);
    let words = &mut words[at..at + geometry.slot_words()];
    words.fill(0);
    words[0] = records.len() as u32;
    for (index, record) in records.iter().enumerate() {
        words[1] |= u32::from(record.tombstone) << index;
        words[2 + index] = record.key;
        words[2 + geometry.block() + index] = record.payload;
    }
}
