//! Level 0 in place.

use super::shape::{Shape, COUNTS, HEADER};

/// Where level 0 has the key, or else where it would go in.
#[inline]
pub fn locate(s: &[u32], shape: &Shape, key: u32) -> Result<usize, usize> {
    s[shape.keys..shape.keys + s[COUNTS] as usize].binary_search(&key)
}

/// Whether record number `index` is a tombstone.
#[inline]
pub fn tombstone(s: &[u32], shape: &Shape, index: usize) -> bool {
    s[HEADER + index / shape.b] >> (index % shape.b) & 1 == 1
}

/// A record over record number `index`.
pub fn write(s: &mut [u32], shape: &Shape, index: usize, key: u32, tombstone: u32, payload: u32) {
    s[shape.keys + index] = key;
    s[shape.pays + index] = payload;
    let (marks, bit) = (&mut s[HEADER + index / shape.b], index % shape.b);
    *marks = *marks & !(1 << bit) | tombstone << bit;
}

/// A record into a level 0 with room; those from `index` on move up by one.
pub fn insert(s: &mut [u32], shape: &Shape, index: usize, key: u32, tombstone: u32, payload: u32) {
    let count = s[COUNTS] as usize;
    for start in [shape.keys, shape.pays] {
        s.copy_within(start + index..start + count, start + index + 1);
    }
    let (page, bit) = (index / shape.b, index % shape.b);
    let marks = &mut s[HEADER + page..HEADER + count / shape.b + 1];
    let full = (1u32 << shape.b) - 1;
    // In the page of `index` the bits below it stay.
    let mut low = (1u32 << bit) - 1;
    let mut carried = 0;
    for word in marks {
        let old = *word;
        *word = old & low | (old & !low) << 1 & full | carried;
        carried = old >> (shape.b - 1) & 1;
        low = 0;
    }
    s[COUNTS] += 1;
    write(s, shape, index, key, tombstone, payload);
}

/// Pages leave a full level 0, and the later ones close the gap.
pub fn remove(s: &mut [u32], shape: &Shape, first: usize, pages: usize) {
    let parts = [
        (HEADER, shape.keys, 1),
        (shape.keys, shape.pays, shape.b),
        (shape.pays, shape.lists[1], shape.b),
    ];
    for (start, end, per_page) in parts {
        let part = &mut s[start..end];
        part.copy_within((first + pages) * per_page.., first * per_page);
        let left = part.len() - pages * per_page;
        part[left..].fill(0);
    }
    s[COUNTS] = (shape.room - pages * shape.b) as u32;
}
