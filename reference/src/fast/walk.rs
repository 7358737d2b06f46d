//! The levels read side by side: the least key leaves every level that has it, and
//! the uppermost record with it decides.

use super::shape::{Shape, COUNTS, HEADER};
use super::top;

/// Above every key: the next key of a level that is used up.
const END: u64 = 1 << 32;

/// What is left of a level.
#[derive(Clone, Copy)]
pub struct Cursor {
    /// The next key.
    pub key: u64,
    /// The word of the next key, and the one after the last key of its chunk.
    pub at: usize,
    pub end: usize,
    /// The chunk's tombstone bits, the next record's the lowest.
    pub marks: u32,
    /// From the word of a key to that of its payload.
    pub gap: usize,
    /// The next chunk's number, and the number of chunks.
    next: usize,
    chunks: usize,
}

/// All that a cursor reads of a level: level 0 has pages, the others blocks.
pub struct Level<'a> {
    pub s: &'a [u32],
    shape: &'a Shape,
    level: usize,
}

impl Level<'_> {
    /// The level from chunk number `next` on.
    fn from(&self, next: usize) -> Cursor {
        let count = self.s[COUNTS + self.level] as usize;
        let mut cursor = Cursor {
            key: END,
            at: 0,
            end: 0,
            marks: 0,
            gap: self.shape.b,
            next,
            chunks: count,
        };
        if self.level == 0 {
            cursor.gap = self.shape.room;
            cursor.chunks = count.div_ceil(self.shape.b);
        }
        self.refill(&mut cursor);
        cursor
    }

    /// On to the next chunk.
    #[inline]
    fn refill(&self, cursor: &mut Cursor) {
        let (s, shape, chunk) = (self.s, self.shape, cursor.next);
        if chunk >= cursor.chunks {
            cursor.key = END;
            cursor.at = cursor.end;
            return;
        }
        if self.level == 0 {
            cursor.marks = s[HEADER + chunk];
            cursor.at = shape.keys + chunk * shape.b;
            cursor.end = (cursor.at + shape.b).min(shape.keys + s[COUNTS] as usize);
        } else {
            let at = shape.at(s[shape.lists[self.level] + chunk]);
            cursor.marks = s[at + 1];
            cursor.at = at + 2;
            cursor.end = at + 2 + s[at] as usize;
        }
        cursor.key = u64::from(s[cursor.at]);
        cursor.next = chunk + 1;
    }

    /// Past the next record.
    #[inline]
    pub fn step(&self, cursor: &mut Cursor) {
        cursor.at += 1;
        if cursor.at < cursor.end {
            cursor.key = u64::from(self.s[cursor.at]);
            cursor.marks >>= 1;
        } else {
            self.refill(cursor);
        }
    }

    /// Past so many records of the chunk.
    #[inline]
    pub fn skip(&self, cursor: &mut Cursor, count: usize) {
        cursor.at += count;
        if cursor.at < cursor.end {
            cursor.key = u64::from(self.s[cursor.at]);
            cursor.marks >>= count;
        } else {
            self.refill(cursor);
        }
    }

    /// The level from its first key on that isn't below `key`.
    pub fn seek(&self, key: u32) -> Cursor {
        let (s, shape) = (self.s, self.shape);
        let chunk = if self.level == 0 {
            let index = top::locate(s, shape, key).unwrap_or_else(|index| index);
            index / shape.b
        } else {
            let list = shape.list(s, self.level);
            let above = list.partition_point(|&slot| s[shape.at(slot) + 2] <= key);
            above.saturating_sub(1)
        };
        let mut cursor = self.from(chunk);
        while cursor.key < u64::from(key) {
            self.step(&mut cursor);
        }
        cursor
    }
}

/// The levels above a bottom one, level h or the last that has blocks, with stand-ins
/// for those a store lacks, and the bottom one: in level h every record of a key that
/// the others lack is live.
pub struct Levels<'a> {
    pub upper: [Level<'a>; 3],
    pub bottom: Level<'a>,
}

impl<'a> Levels<'a> {
    /// The levels of a store.
    fn of(s: &'a [u32], shape: &'a Shape) -> Levels<'a> {
        Levels::down_to(s, shape, shape.h)
    }

    /// The levels of a store down to one from 1 on.
    pub fn down_to(s: &'a [u32], shape: &'a Shape, bottom: usize) -> Levels<'a> {
        let level = |level| Level { s, shape, level };
        // The bottom level stands in for a missing one; its cursor there is used up.
        let upper = [0, 1, 2].map(|number: usize| level(number.min(bottom)));
        Levels {
            upper,
            bottom: level(bottom),
        }
    }

    /// A cursor for each upper level.
    pub fn cursors(&self, of: impl Fn(&Level) -> Cursor) -> [Cursor; 3] {
        let bottom = self.bottom.level;
        [0, 1, 2].map(|number| {
            let level = &self.upper[number];
            if number < bottom {
                of(level)
            } else {
                level.from(usize::MAX)
            }
        })
    }
}

/// The tombstone bit that decides for the least upper key, and all cursors past it.
#[inline]
fn pass(levels: &[Level; 3], cursors: &mut [Cursor; 3], key: u64) -> u32 {
    let mut marks = 0;
    for (level, cursor) in levels.iter().zip(cursors).rev() {
        if cursor.key == key {
            marks = cursor.marks;
            level.step(cursor);
        }
    }
    marks & 1
}

/// The least next key of three levels.
#[inline]
pub fn least(cursors: &[Cursor; 3]) -> u64 {
    cursors[0].key.min(cursors[1].key).min(cursors[2].key)
}

/// The smallest live key at or above `key` with its payload.
pub fn next(s: &[u32], shape: &Shape, key: u32) -> Option<(u32, u32)> {
    let levels = Levels::of(s, shape);
    let mut upper = levels.cursors(|level| level.seek(key));
    let mut bottom = levels.bottom.seek(key);
    loop {
        let key = least(&upper);
        if bottom.key < key {
            return Some((bottom.key as u32, s[bottom.at + bottom.gap]));
        }
        if key == END {
            return None;
        }
        let found = upper.iter().find(|cursor| cursor.key == key)?;
        if found.marks & 1 == 0 {
            return Some((key as u32, s[found.at + found.gap]));
        }
        pass(&levels.upper, &mut upper, key);
        if bottom.key == key {
            levels.bottom.step(&mut bottom);
        }
    }
}
