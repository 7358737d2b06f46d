//! Binary searches.

use super::shape::Shape;
use super::top;

/// The payload of a key that is in the map.
pub fn live(s: &[u32], shape: &Shape, key: u32) -> Option<u32> {
    match top::locate(s, shape, key) {
        Ok(index) => (!top::tombstone(s, shape, index)).then(|| s[shape.pays + index]),
        Err(_) => below(s, shape, key),
    }
}

/// The same for a key that level 0 lacks.
#[inline]
pub fn below(s: &[u32], shape: &Shape, key: u32) -> Option<u32> {
    for level in 1..=shape.h {
        let Some(at) = block(s, shape, level, key) else {
            continue;
        };
        let keys = &s[at + 2..at + 2 + s[at] as usize];
        if let Ok(index) = keys.binary_search(&key) {
            let tombstone = s[at + 1] >> index & 1 == 1;
            return (!tombstone).then(|| s[at + 2 + shape.b + index]);
        }
    }
    None
}

/// The first word of the last block of a level whose first key isn't above `key`.
#[inline]
pub fn block(s: &[u32], shape: &Shape, level: usize, key: u32) -> Option<usize> {
    let list = shape.list(s, level);
    let above = list.partition_point(|&slot| s[shape.at(slot) + 2] <= key);
    Some(shape.at(list[above.checked_sub(1)?]))
}
