//! The form check: the header, the lists, and one pass over each level.

use super::live;
use super::shape::{Shape, COUNTS, CURSOR, HEADER, LIVE, MOST_SLOTS};

/// The shape of a store, or which of the reasons 1 to 4 turns it down.
pub fn check(s: &[u32]) -> Result<Shape, u32> {
    let shape = Shape::of(s)?;
    let kept = formed(s, &shape) && live::live(s, &shape) == s[LIVE] as usize;
    if kept {
        Ok(shape)
    } else {
        Err(4)
    }
}

/// Every rule but that of live.
fn formed(s: &[u32], shape: &Shape) -> bool {
    header_kept(s, shape)
        && lists_kept(s, shape)
        && top_kept(s, shape)
        && (1..=shape.h).all(|level| level_kept(s, shape, level))
}

/// The size words are within their limits.
fn header_kept(s: &[u32], shape: &Shape) -> bool {
    s[LIVE] as usize <= shape.limit
        && (s[CURSOR] as usize) < shape.p
        && s[COUNTS] as usize <= shape.room
        && (1..4).all(|level| s[COUNTS + level] as usize <= shape.capacity[level])
}

/// Listed slots are below P and none is listed twice; unused entries are 0.
fn lists_kept(s: &[u32], shape: &Shape) -> bool {
    let mut used = [false; MOST_SLOTS];
    for level in 1..=shape.h {
        let start = shape.lists[level];
        let entries = &s[start..start + shape.capacity[level]];
        let (list, rest) = entries.split_at(s[COUNTS + level] as usize);
        for &slot in list {
            match used[..shape.p].get_mut(slot as usize) {
                Some(seen) if !*seen => *seen = true,
                _ => return false,
            }
        }
        if !zero(rest) {
            return false;
        }
    }
    true
}

/// Every rule of level 0.
fn top_kept(s: &[u32], shape: &Shape) -> bool {
    let (b, c) = (shape.b, s[COUNTS] as usize);
    let (keys, unused_keys) = s[shape.keys..shape.pays].split_at(c);
    let (pays, unused_pays) = s[shape.pays..shape.lists[1]].split_at(c);
    if !zero(unused_keys) || !zero(unused_pays) || !rises(keys) {
        return false;
    }
    let mut left = pays;
    for &marks in &s[HEADER..shape.keys] {
        let (page, rest) = left.split_at(b.min(left.len()));
        if !marks_kept(marks, page) {
            return false;
        }
        left = rest;
    }
    true
}

/// Every rule of one level from 1 on.
fn level_kept(s: &[u32], shape: &Shape, level: usize) -> bool {
    let (b, bottom) = (shape.b, level == shape.h);
    let list = shape.list(s, level);
    let (mut before, mut records, mut low) = (b, 0, 0);
    for &slot in list {
        let at = shape.at(slot);
        let block = &s[at..at + shape.width];
        let (n, marks) = (block[0] as usize, block[1]);
        if n < 1 || n > b || before + n <= b || bottom && marks != 0 {
            return false;
        }
        let (keys, pays) = block[2..].split_at(b);
        if u64::from(keys[0]) < low || !rises(&keys[..n]) {
            return false;
        }
        if n < b && !(zero(&keys[n..]) && zero(&pays[n..])) {
            return false;
        }
        if marks != 0 && !marks_kept(marks, &pays[..n]) {
            return false;
        }
        low = u64::from(keys[n - 1]) + 1;
        records += n;
        before = n;
    }
    !wasteful(b, list.len(), records)
}

/// The level half of the waste rules.
#[inline]
pub fn wasteful(b: usize, blocks: usize, records: usize) -> bool {
    blocks > records.div_ceil(b) && 5 * (blocks * b - records) > blocks * b
}

/// No bit past the records, and the payload of a tombstone is 0.
#[inline]
fn marks_kept(marks: u32, pays: &[u32]) -> bool {
    if marks >> pays.len() != 0 {
        return false;
    }
    let mut left = marks;
    while left != 0 {
        if pays[left.trailing_zeros() as usize] != 0 {
            return false;
        }
        left &= left - 1;
    }
    true
}

/// Keys rise strictly. No early end, so that the comparisons run side by side.
#[inline]
fn rises(keys: &[u32]) -> bool {
    let next = keys.iter().skip(1);
    keys.iter().zip(next).fold(true, |ok, (a, b)| ok & (a < b))
}

/// All words are 0.
#[inline]
fn zero(words: &[u32]) -> bool {
    words.iter().fold(0, |all, &word| all | word) == 0
}
