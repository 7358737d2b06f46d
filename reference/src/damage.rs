//! Stores with one clause of the form check broken, and no other one where that
//! can be: live is counted anew after the damage.

use crate::borders::{compose, limited, mark, plain, sized};
use crate::breach::{live_keys, Breach};
use crate::geometry::Geometry;
use crate::layout::{COUNTS, CURSOR, LIVE};
use crate::random::Random;
use crate::unreachable;

/// A store of this geometry with this clause broken; none if the store that was
/// drawn has no place for it.
pub fn damaged(random: &mut Random, geometry: Geometry, breach: Breach) -> Option<Vec<u32>> {
    use Breach::*;
    let h = geometry.levels();
    match breach {
        Limit => return Some(limited(random, geometry, 1)),
        Pair | Level => return wasteful(random, geometry, breach),
        Count if h > 1 => return Some(overlong(random, geometry)),
        PlaceTwice if h > 1 => return Some(listed_twice(random, geometry)),
        _ => {}
    }
    let words = unreachable::store(random, geometry);
    let mut damage = Damage {
        random,
        geometry,
        words,
    };
    match breach {
        Live | Limit | Hand | TopCount | Count | CountAbove => damage.header(breach)?,
        Place | PlaceTwice | AcrossRise | UnusedEntry => damage.list(breach)?,
        TopRise | TopMarkPayload => damage.top(breach)?,
        TopUnusedKey | TopUnusedPayload | TopUnusedBit | TopHighBit => damage.top_rest(breach)?,
        NoRecord | TooManyRecords | BlockRise | BlockMarkPayload => damage.block(breach)?,
        BottomMark => damage.bottom_mark()?,
        BlockUnusedKey | BlockUnusedPayload | BlockUnusedBit | BlockHighBit => {
            damage.block_rest(breach)?
        }
        Pair | Level => return None,
    }
    let mut words = damage.words;
    if breach != Live {
        words[LIVE] = live_keys(&words) as u32;
    }
    Some(words)
}

/// A store with a full level above h whose block count is one more.
fn overlong(random: &mut Random, geometry: Geometry) -> Vec<u32> {
    let (b, h) = (geometry.block(), geometry.levels());
    let level = random.between(1, h - 1);
    let mut levels = vec![Vec::new(); h];
    levels[level - 1] = sized(&vec![b; geometry.capacity(level)], 1, 1, mark);
    let mut words = compose(random, geometry, &[], &levels);
    words[COUNTS + level] += 1;
    words
}

/// A store of which level 1 lists a block of level h too.
fn listed_twice(random: &mut Random, geometry: Geometry) -> Vec<u32> {
    let mut words = limited(random, geometry, 0);
    words[COUNTS + 1] = 1;
    words[geometry.list_at(1)] = words[geometry.list_at(geometry.levels())];
    words
}

/// A store that is being damaged. Each method breaks the clause that it is given,
/// or gives none where the store has no place for it.
struct Damage<'a> {
    random: &'a mut Random,
    geometry: Geometry,
    words: Vec<u32>,
}

impl Damage<'_> {
    /// c or a block count.
    fn count(&self, level: usize) -> usize {
        self.words[COUNTS + level] as usize
    }

    /// A number from `low` to below `end`, if there is one.
    fn any(&mut self, low: usize, end: usize) -> Option<usize> {
        (low < end).then(|| self.random.between(low, end - 1))
    }

    /// Some level on flash.
    fn any_level(&mut self) -> usize {
        self.random.between(1, self.geometry.levels())
    }

    /// Where the words of some block of a level start.
    fn any_block(&mut self, level: usize) -> Option<usize> {
        let index = self.any(0, self.count(level))?;
        let place = self.words[self.geometry.list_at(level) + index];
        Some(self.geometry.slot_at(place as usize))
    }

    /// live, hand and the counts.
    fn header(&mut self, breach: Breach) -> Option<()> {
        let (geometry, h) = (self.geometry, self.geometry.levels());
        let level = self.any_level();
        let live = self.words[LIVE];
        let (at, value) = match breach {
            Breach::Live => (LIVE, self.random.pick(&[live + 1, live.checked_sub(1)?])),
            Breach::Hand => (CURSOR, geometry.slots() as u32),
            Breach::TopCount => (COUNTS, geometry.level_zero_records() as u32 + 1),
            Breach::Count => (COUNTS + level, geometry.capacity(level) as u32 + 1),
            _ => (COUNTS + self.any(h + 1, 4)?, 1),
        };
        self.words[at] = value;
        Some(())
    }

    /// The list of a level.
    fn list(&mut self, breach: Breach) -> Option<()> {
        let geometry = self.geometry;
        let level = self.any_level();
        let (list, count) = (geometry.list_at(level), self.count(level));
        match breach {
            Breach::Place => {
                let at = list + self.any(0, count)?;
                self.words[at] = geometry.slots() as u32;
            }
            Breach::PlaceTwice => {
                let at = self.any(1, count)?;
                self.words[list + at] = self.words[list + self.random.below(at)];
            }
            Breach::AcrossRise => {
                let at = list + self.any(1, count)?;
                let before = geometry.slot_at(self.words[at - 1] as usize);
                let after = geometry.slot_at(self.words[at] as usize);
                match self.random.one_in(2) {
                    true => self.words.swap(at - 1, at),
                    false => {
                        let last = before + 1 + self.words[before] as usize;
                        self.words[after + 2] = self.words[last];
                    }
                }
            }
            _ => {
                let at = list + self.any(count, geometry.capacity(level))?;
                self.words[at] = self.random.between(1, geometry.slots()) as u32;
            }
        }
        Some(())
    }

    /// The records of level 0.
    fn top(&mut self, breach: Breach) -> Option<()> {
        let (geometry, b, c) = (self.geometry, self.geometry.block(), self.count(0));
        if breach == Breach::TopRise {
            let at = geometry.keys_at() + self.any(1, c)?;
            self.disorder(at);
            return Some(());
        }
        let bits = &self.words[geometry.tombstones_at()..];
        let at = (0..c).rfind(|&at| bits[at / b] >> (at % b) & 1 == 1)?;
        self.words[geometry.payloads_at() + at] = 1;
        Some(())
    }

    /// The unused part of level 0.
    fn top_rest(&mut self, breach: Breach) -> Option<()> {
        let (geometry, b) = (self.geometry, self.geometry.block());
        if breach == Breach::TopHighBit {
            let page = self.random.below(geometry.capacity(0));
            self.words[geometry.tombstones_at() + page] |= high_bit(self.random, b);
            return Some(());
        }
        let at = self.any(self.count(0), geometry.level_zero_records())?;
        match breach {
            Breach::TopUnusedKey => self.words[geometry.keys_at() + at] = u32::MAX,
            Breach::TopUnusedPayload => self.words[geometry.payloads_at() + at] = 1,
            _ => self.words[geometry.tombstones_at() + at / b] |= 1 << (at % b),
        }
        Some(())
    }

    /// The count and the records of a block.
    fn block(&mut self, breach: Breach) -> Option<()> {
        let (geometry, b) = (self.geometry, self.geometry.block());
        let level = self.any_level();
        let block = self.any_block(level)?;
        let words = &mut self.words[block..block + geometry.slot_words()];
        match breach {
            Breach::NoRecord => words.fill(0),
            Breach::TooManyRecords => words[0] = b as u32 + 1,
            Breach::BlockMarkPayload => {
                let at = (0..b).rfind(|at| words[1] >> at & 1 == 1)?;
                words[2 + b + at] = 1;
            }
            _ => {
                let size = words[0] as usize;
                let at = block + 2 + self.any(1, size)?;
                self.disorder(at);
            }
        }
        Some(())
    }

    /// A mark in level h, its payload 0.
    fn bottom_mark(&mut self) -> Option<()> {
        let (b, h) = (self.geometry.block(), self.geometry.levels());
        let block = self.any_block(h)?;
        let at = self.any(0, self.words[block] as usize)?;
        self.words[block + 1] |= 1 << at;
        self.words[block + 2 + b + at] = 0;
        Some(())
    }

    /// The unused part of a block.
    fn block_rest(&mut self, breach: Breach) -> Option<()> {
        let b = self.geometry.block();
        let level = self.any_level();
        let block = self.any_block(level)?;
        if breach == Breach::BlockHighBit {
            self.words[block + 1] |= high_bit(self.random, b);
            return Some(());
        }
        let at = self.any(self.words[block] as usize, b)?;
        match breach {
            Breach::BlockUnusedKey => self.words[block + 2 + at] = u32::MAX,
            Breach::BlockUnusedPayload => self.words[block + 2 + b + at] = 1,
            _ => self.words[block + 1] |= 1 << at,
        }
        Some(())
    }

    /// Makes a key equal to the one before it, or the two falling.
    fn disorder(&mut self, at: usize) {
        match self.random.one_in(2) {
            true => self.words.swap(at - 1, at),
            false => self.words[at] = self.words[at - 1],
        }
    }
}

/// A bit from B on: the first, the last or any.
fn high_bit(random: &mut Random, b: usize) -> u32 {
    let any = random.between(b, 31);
    1 << random.pick(&[b, any, 31])
}

/// A store with a level that breaks one of the waste rules and not the other, in
/// level h with puts, above it with marks.
fn wasteful(random: &mut Random, geometry: Geometry, breach: Breach) -> Option<Vec<u32>> {
    let (b, h) = (geometry.block(), geometry.levels());
    let level = random.between(1, h);
    let capacity = geometry.capacity(level);
    let sizes = match breach {
        Breach::Pair if capacity >= 5 => {
            let mut sizes = vec![b; random.between(5, capacity)];
            let at = random.between(1, sizes.len() - 1);
            sizes[at] = random.between(1, b - 1);
            sizes[at - 1] = b - sizes[at];
            sizes
        }
        Breach::Level if capacity >= 4 => {
            let blocks = random.between(4, capacity);
            (0..blocks)
                .map(|at| if at % 2 == 0 { b } else { 1 })
                .collect()
        }
        _ => return None,
    };
    if level == h && sizes.iter().sum::<usize>() > geometry.key_limit() {
        return None;
    }
    let mut levels = vec![Vec::new(); h];
    let of = if level == h { plain } else { mark };
    levels[level - 1] = sized(&sizes, random.below(1000) as u32, 7, of);
    Some(compose(random, geometry, &[], &levels))
}
