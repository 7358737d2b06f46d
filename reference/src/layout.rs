//! "Layout of the lent store" of document 01: where each word lies.

use crate::geometry::Geometry;

/// Words of the header, part 1 of the layout.
pub const HEADER: usize = 12;
/// Header word of live, the number of keys in the map.
pub const LIVE: usize = 6;
/// Header word of the allocation cursor (document 01: hand, the place last
/// written).
pub const CURSOR: usize = 7;
/// Header word of c, the records in level 0; the block count of level i is
/// `COUNTS + i`.
pub const COUNTS: usize = 8;
/// The header has block counts of levels 1 to 3, "zero above h".
pub const MOST_LEVELS: usize = 3;

impl Geometry {
    /// Records that level 0 holds at most: K(0) × B.
    pub fn level_zero_records(self) -> usize {
        self.capacity(0) * self.block()
    }

    /// Part 2: the K(0) tombstone words (document 01: mark words) of level 0.
    pub fn tombstones_at(self) -> usize {
        HEADER
    }

    /// Part 2: the K(0) × B keys of level 0.
    pub fn keys_at(self) -> usize {
        self.tombstones_at() + self.capacity(0)
    }

    /// Part 2: the K(0) × B payloads of level 0.
    pub fn payloads_at(self) -> usize {
        self.keys_at() + self.level_zero_records()
    }

    /// Part 3: the K(i) slot numbers of level i, from 1 to h.
    pub fn list_at(self, level: usize) -> usize {
        let before: usize = (1..level).map(|upper| self.capacity(upper)).sum();
        self.payloads_at() + self.level_zero_records() + before
    }

    /// Part 4: the first of the P slots.
    pub fn slots_at(self) -> usize {
        self.list_at(self.levels() + 1)
    }

    /// "2 + 2B words each: record count, mark word, B keys, B payloads."
    pub fn slot_words(self) -> usize {
        2 + 2 * self.block()
    }

    /// The first word of a slot.
    pub fn slot_at(self, slot: usize) -> usize {
        self.slots_at() + slot * self.slot_words()
    }

    /// The length of the whole layout; any other gets refusal 3.
    pub fn length(self) -> usize {
        self.slot_at(self.slots())
    }
}
