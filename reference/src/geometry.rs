//! "Geometry" of document 01: the six numbers, their limits and what follows
//! from them.

use std::ops::RangeInclusive;

/// The six numbers set by format, within every limit of "Geometry".
#[derive(Clone, Copy, Debug, PartialEq, Eq)]
pub struct Geometry {
    b: usize,
    w: usize,
    d: usize,
    g: usize,
    h: usize,
    p: usize,
}

impl Geometry {
    /// "B records a block, 2 to 16."
    pub const BLOCK: RangeInclusive<usize> = 2..=16;
    /// "w blocks, the window of level 0, 1 to 16."
    pub const WINDOW: RangeInclusive<usize> = 1..=16;
    /// "d windows a level, 2 to 16."
    pub const WINDOWS: RangeInclusive<usize> = 2..=16;
    /// "G growth, 2 to 10."
    pub const GROWTH: RangeInclusive<usize> = 2..=10;
    /// "h levels on flash, 1 to 3."
    pub const LEVELS: RangeInclusive<usize> = 1..=3;
    /// "P places for blocks, at most 8,192."
    pub const MOST_SLOTS: usize = 8192;
    /// "K(h) is at most 1,024."
    pub const MOST_BOTTOM: usize = 1024;

    /// The geometry of `[B, w, d, G, h, P]`, or none if it breaks a limit
    /// (refusal 2). The single ranges come first, so nothing can overflow.
    pub fn new(numbers: [u32; 6]) -> Option<Geometry> {
        let [b, w, d, g, h, p] = numbers.map(|n| n as usize);
        let ranges_kept = Self::BLOCK.contains(&b)
            && Self::WINDOW.contains(&w)
            && Self::WINDOWS.contains(&d)
            && Self::GROWTH.contains(&g)
            && Self::LEVELS.contains(&h)
            && p <= Self::MOST_SLOTS;
        if !ranges_kept {
            return None;
        }
        let geometry = Geometry { b, w, d, g, h, p };
        let kept = geometry.capacity(h) <= Self::MOST_BOTTOM
            && p >= geometry.fewest_slots()
            && geometry.signed_key_limit() >= 1;
        kept.then_some(geometry)
    }

    /// B, the records a block holds at most.
    pub fn block(self) -> usize {
        self.b
    }

    /// h, the number of levels on flash, and the number of the last one.
    pub fn levels(self) -> usize {
        self.h
    }

    /// G, the growth from level to level.
    pub fn growth(self) -> usize {
        self.g
    }

    /// P, the number of slots (document 01: places).
    pub fn slots(self) -> usize {
        self.p
    }

    /// The six numbers as format got them.
    pub fn numbers(self) -> [u32; 6] {
        [self.b, self.w, self.d, self.g, self.h, self.p].map(|n| n as u32)
    }

    /// "Capacity of level i: K(i) = w × d × G^i blocks."
    pub fn capacity(self, level: usize) -> usize {
        self.window(level) * self.d
    }

    /// "Window of level i: W(i) = w × G^i."
    pub fn window(self, level: usize) -> usize {
        self.w * self.g.pow(level as u32)
    }

    /// "S = K(1) + .. + K(h)."
    pub fn flash_capacity(self) -> usize {
        (1..=self.h).map(|level| self.capacity(level)).sum()
    }

    /// "P is at least 4S + 8."
    pub fn fewest_slots(self) -> usize {
        4 * self.flash_capacity() + 8
    }

    /// "Key limit N"; legal geometries have at least 1.
    pub fn key_limit(self) -> usize {
        self.signed_key_limit().max(0) as usize
    }

    /// "N = (4 × B × K(h) divided by 5, rounded down) − B × (K(0) + .. +
    /// K(h−1))", which can fall below 0 before the limits are checked.
    fn signed_key_limit(self) -> i64 {
        let upper: usize = (0..self.h).map(|level| self.capacity(level)).sum();
        (4 * self.b * self.capacity(self.h) / 5) as i64 - (self.b * upper) as i64
    }
}
