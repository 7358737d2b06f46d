//! The live records of a stretch of keys into two lent arrays: one walk over the
//! levels side by side. What the last level that has blocks holds below the next key
//! of all others goes straight out, block by block.

use super::shape::{Shape, COUNTS};
use super::walk::{least, Cursor, Level, Levels};

/// The lent arrays, cut to the shorter one's length.
pub struct Lent<'a> {
    keys: &'a mut [u32],
    payloads: &'a mut [u32],
    written: usize,
}

impl<'a> Lent<'a> {
    /// Two arrays, nothing written yet.
    pub fn of(keys: &'a mut [u32], payloads: &'a mut [u32]) -> Lent<'a> {
        let room = keys.len().min(payloads.len());
        Lent {
            keys: &mut keys[..room],
            payloads: &mut payloads[..room],
            written: 0,
        }
    }

    /// Records written.
    pub fn written(&self) -> usize {
        self.written
    }

    /// The live records from `first` to `last` as far as there is room; whether
    /// more follow.
    pub fn fill(&mut self, s: &[u32], shape: &Shape, first: u32, last: u32) -> bool {
        let filled = |level: &usize| s[COUNTS + level] > 0;
        let bottom = (1..=shape.h).rev().find(filled).unwrap_or(1);
        let levels = Levels::down_to(s, shape, bottom);
        let mut upper = levels.cursors(|level| level.seek(first));
        let mut bottom = levels.bottom.seek(first);
        let past = u64::from(last) + 1;
        loop {
            let key = least(&upper);
            if !self.run(&levels.bottom, &mut bottom, key.min(past)) {
                return true;
            }
            if key >= past {
                return false;
            }
            let record = take(&levels.upper, &mut upper, key);
            if bottom.key == key {
                levels.bottom.step(&mut bottom);
            }
            if let Some(at) = record {
                if !self.write(key as u32, s[at]) {
                    return true;
                }
            }
        }
    }

    /// The live records of the last level below `below`; whether there is room for
    /// all of them.
    #[inline]
    fn run(&mut self, level: &Level, cursor: &mut Cursor, below: u64) -> bool {
        while cursor.key < below {
            if cursor.marks == 0 {
                let count = self.copy(level.s, cursor, below);
                if count == 0 {
                    return false;
                }
                level.skip(cursor, count);
                continue;
            }
            if cursor.marks & 1 == 0 {
                let payload = level.s[cursor.at + cursor.gap];
                if !self.write(cursor.key as u32, payload) {
                    return false;
                }
            }
            level.step(cursor);
        }
        true
    }

    /// The records of a block without tombstones, from the cursor on and below
    /// `below`, as far as there is room; their number.
    #[inline]
    fn copy(&mut self, s: &[u32], cursor: &Cursor, below: u64) -> usize {
        let keys = &s[cursor.at..cursor.end];
        let payloads = &s[cursor.at + cursor.gap..cursor.end + cursor.gap];
        let lent_keys = &mut self.keys[self.written..];
        let lent = lent_keys.iter_mut().zip(&mut self.payloads[self.written..]);
        let mut count = 0;
        for ((&key, &payload), entry) in keys.iter().zip(payloads).zip(lent) {
            if u64::from(key) >= below {
                break;
            }
            (*entry.0, *entry.1) = (key, payload);
            count += 1;
        }
        self.written += count;
        count
    }

    /// One record, if there is room.
    #[inline]
    fn write(&mut self, key: u32, payload: u32) -> bool {
        if self.written == self.keys.len() {
            return false;
        }
        self.keys[self.written] = key;
        self.payloads[self.written] = payload;
        self.written += 1;
        true
    }
}

/// The word of the payload that the uppermost level with the least upper key has, or
/// none for a tombstone, and all cursors past the key.
#[inline]
fn take(levels: &[Level; 3], cursors: &mut [Cursor; 3], key: u64) -> Option<usize> {
    let (mut marks, mut at) = (0, 0);
    for (level, cursor) in levels.iter().zip(cursors).rev() {
        if cursor.key == key {
            (marks, at) = (cursor.marks, cursor.at + cursor.gap);
            level.step(cursor);
        }
    }
    (marks & 1 == 0).then_some(at)
}
