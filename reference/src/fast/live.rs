//! The count of live keys: over all levels, the records that are no tombstones and
//! whose key stands in no level above. Which records of a level are hidden is found
//! by the keys of the levels above it. Within a chunk nothing branches on how two keys
//! compare, which no branch predictor can know.

use super::shape::{Shape, COUNTS, HEADER};

/// Chunks of a level at most, and those of a small store, whose arrays are filled
/// sooner.
const MOST: usize = 1024;
const FEW: usize = 64;

/// The number of live keys. The keys of a chunk are read as a row of 4, 8 or 16 words,
/// compared side by side. Such a row has room for B keys and is within the 2B words of
/// keys and payloads; what it has past the chunk's records decides nothing.
pub fn live(s: &[u32], shape: &Shape) -> usize {
    match (shape.b, shape.capacity[shape.h] <= FEW) {
        (..=4, true) => sum::<4, FEW>(s, shape),
        (..=4, false) => sum::<4, MOST>(s, shape),
        (..=8, true) => sum::<8, FEW>(s, shape),
        (..=8, false) => sum::<8, MOST>(s, shape),
        (_, true) => sum::<16, FEW>(s, shape),
        (_, false) => sum::<16, MOST>(s, shape),
    }
}

/// The sum over the levels, for rows of W words and at most N chunks a level.
fn sum<const W: usize, const N: usize>(s: &[u32], shape: &Shape) -> usize {
    let (mut first, mut start, mut shown) = ([0; N], [0; N], [0; N]);
    let mut live = 0;
    for number in 0..=shape.h {
        let lower = Level::of(s, shape, number);
        let mut rows = Rows {
            first: &mut first[..lower.chunks],
            start: &mut start[..lower.chunks],
            shown: &mut shown[..lower.chunks],
        };
        rows.fill(&lower);
        for upper in (0..number).map(|number| Level::of(s, shape, number)) {
            if lower.chunks >= upper.chunks {
                rows.hide::<W>(&upper);
            } else {
                rows.seek::<W>(&lower, &upper);
            }
        }
        live += rows.shown.iter().map(|bits| bits.count_ones()).sum::<u32>();
    }
    live as usize
}

/// A level as chunks of 1 to B records.
struct Level<'a> {
    s: &'a [u32],
    shape: &'a Shape,
    chunks: usize,
    kind: Kind<'a>,
}

/// What the chunks of a level are: the pages of so many records, or the blocks of a list.
enum Kind<'a> {
    Pages(usize),
    Blocks(&'a [u32]),
}

impl<'a> Level<'a> {
    /// A level of a store.
    fn of(s: &'a [u32], shape: &'a Shape, number: usize) -> Level<'a> {
        let (chunks, kind) = if number == 0 {
            let records = s[COUNTS] as usize;
            (records.div_ceil(shape.b), Kind::Pages(records))
        } else {
            let list = shape.list(s, number);
            (list.len(), Kind::Blocks(list))
        };
        Level {
            s,
            shape,
            chunks,
            kind,
        }
    }

    /// The word of a chunk's first key, and the number of its records.
    #[inline]
    fn chunk(&self, chunk: usize) -> (usize, usize) {
        let shape = self.shape;
        match self.kind {
            Kind::Blocks(list) => {
                let at = shape.at(list[chunk]);
                (at + 2, self.s[at] as usize)
            }
            Kind::Pages(records) => {
                let before = chunk * shape.b;
                (shape.keys + before, shape.b.min(records - before))
            }
        }
    }

    /// The tombstone bits of a chunk.
    #[inline]
    fn marks(&self, chunk: usize) -> u32 {
        match self.kind {
            Kind::Blocks(list) => self.s[self.shape.at(list[chunk]) + 1],
            Kind::Pages(_) => self.s[HEADER + chunk],
        }
    }
}

/// For each chunk of a level its first key, the word of that key, and bits: bit k + 1 says
/// that record k is neither a tombstone nor hidden. Bit 0 has no use, but a shift by 0
/// among the others would keep the compiler from comparing a whole row in vectors.
struct Rows<'a> {
    first: &'a mut [u32],
    start: &'a mut [u32],
    shown: &'a mut [u32],
}

impl Rows<'_> {
    /// A level with nothing hidden yet.
    fn fill(&mut self, level: &Level) {
        let fences = self.first.iter_mut().zip(&mut *self.start);
        for (chunk, ((first, start), shown)) in fences.zip(&mut *self.shown).enumerate() {
            let (at, count) = level.chunk(chunk);
            *first = level.s[at];
            *start = at as u32;
            *shown = used(count) & !(level.marks(chunk) << 1);
        }
    }

    /// Hides the keys of a level above with no more chunks.
    fn hide<const W: usize>(&mut self, upper: &Level) {
        let (s, n) = (upper.s, self.first.len());
        let (first, start, shown) = (&*self.first, &self.start[..n], &mut self.shown[..n]);
        let mut passed = 0;
        for chunk in 0..upper.chunks {
            let (at, count) = upper.chunk(chunk);
            let keys = row::<W>(s, at);
            let left = first[passed..].iter().copied();
            let places = places(keys, keys[count - 1], left, &mut passed);
            for (&key, &place) in keys[..count].iter().zip(&places) {
                let row = row::<W>(s, start[place as usize] as usize);
                shown[place as usize] &= !equal(row, key);
            }
        }
    }

    /// The same for one with more chunks: the keys of this level are looked for there.
    fn seek<const W: usize>(&mut self, lower: &Level, upper: &Level) {
        let s = upper.s;
        let mut passed = 0;
        for (chunk, shown) in self.shown.iter_mut().enumerate() {
            let (at, count) = lower.chunk(chunk);
            let keys = row::<W>(s, at);
            let left = (passed..upper.chunks).map(|chunk| s[upper.chunk(chunk).0]);
            let places = places(keys, keys[count - 1], left, &mut passed);
            for (bit, (&key, &place)) in (1..).zip(keys[..count].iter().zip(&places)) {
                let (start, count) = upper.chunk(place as usize);
                let found = equal(row::<W>(s, start), key) & used(count);
                *shown &= !(u32::from(found != 0) << bit);
            }
        }
    }
}

/// The bits of so many records.
#[inline]
fn used(count: usize) -> u32 {
    (2 << count) - 2
}

/// The words from `at` on.
#[inline]
fn row<const W: usize>(s: &[u32], at: usize) -> &[u32; W] {
    s[at..]
        .first_chunk()
        .expect("2B words of keys and payloads")
}

/// The bits of a row's words that are this key.
#[inline]
fn equal<const W: usize>(row: &[u32; W], key: u32) -> u32 {
    let bit = |bits, (&word, at)| bits | u32::from(word == key) << at;
    row.iter().zip(1..).fold(0, bit)
}

/// For each key of a row the only chunk of another level that can have it: the last whose
/// first key is not above it, or chunk 0, where there is none. `left` are the first keys
/// behind those passed, which are not above any key of the row; then those up to `last`
/// are passed too.
#[inline]
fn places<const W: usize>(
    keys: &[u32; W],
    last: u32,
    left: impl Iterator<Item = u32>,
    passed: &mut usize,
) -> [u32; W] {
    // Vectors of signed words are compared in one step.
    let signed = |word: u32| (word ^ 1 << 31) as i32;
    let keys = keys.map(signed);
    let mut above = [0; W];
    for fence in left.take_while(|&fence| fence <= last) {
        *passed += 1;
        for (above, &key) in above.iter_mut().zip(&keys) {
            *above += u32::from(key < signed(fence));
        }
    }
    let passed = *passed as u32;
    above.map(|above| (passed - above).saturating_sub(1))
}
