//! Steps 3 and 4 of a merge: the records of two lists woven into new blocks, with
//! blocks reused as they stand where the rules allow it.

use super::shape::{Shape, MOST_SLOTS};

/// More blocks than any level has within a call.
pub const MOST_BLOCKS: usize = 2048;
/// Above every key: the next key of a list that is used up.
const END: u64 = 1 << 32;

/// One of the two lists of step 3: pages of level 0, or the blocks of a slot list.
pub struct Side<'a> {
    /// The slots; a page has none.
    slots: &'a [u16],
    /// The next page, and the end of the pages.
    page: usize,
    pages: usize,
    /// The next key.
    key: u64,
    /// The word of the next key, and the one after the last key of its block.
    at: usize,
    end: usize,
    /// From the word of a key to that of its payload.
    gap: usize,
    /// The block's tombstone bits, the next record's the lowest.
    marks: u32,
    /// The slot of the block that the next record starts.
    whole: Option<u16>,
}

impl<'a> Side<'a> {
    /// The blocks at these slots.
    pub fn blocks(s: &[u32], shape: &Shape, slots: &'a [u16]) -> Side<'a> {
        let mut side = Side {
            slots,
            page: 0,
            pages: 0,
            key: END,
            at: 0,
            end: 0,
            gap: shape.b,
            marks: 0,
            whole: None,
        };
        side.refill(s, shape);
        side
    }

    /// Pages of a full level 0.
    pub fn pages(s: &[u32], shape: &Shape, first: usize, pages: usize) -> Side<'a> {
        let mut side = Side::blocks(s, shape, &[]);
        side.page = first;
        side.pages = first + pages;
        side.gap = shape.room;
        side.refill(s, shape);
        side
    }

    /// On to the next block or page.
    #[inline]
    fn refill(&mut self, s: &[u32], shape: &Shape) {
        if let Some((&slot, rest)) = self.slots.split_first() {
            let at = shape.at(slot.into());
            self.slots = rest;
            self.whole = Some(slot);
            self.marks = s[at + 1];
            self.at = at + 2;
            self.end = at + 2 + s[at] as usize;
        } else if self.page < self.pages {
            self.marks = s[super::shape::HEADER + self.page];
            self.at = shape.keys + self.page * shape.b;
            self.end = self.at + shape.b;
            self.page += 1;
        } else {
            self.whole = None;
            self.key = END;
            return;
        }
        self.key = u64::from(s[self.at]);
    }

    /// Past the next record.
    #[inline]
    fn step(&mut self, s: &[u32], shape: &Shape) {
        self.at += 1;
        if self.at < self.end {
            self.key = u64::from(s[self.at]);
            self.marks >>= 1;
            self.whole = None;
        } else {
            self.refill(s, shape);
        }
    }
}

/// Records that wait for a block.
struct Buffer {
    keys: [u32; 16],
    pays: [u32; 16],
    marks: u32,
    n: usize,
}

impl Buffer {
    /// No records.
    fn new() -> Buffer {
        Buffer {
            keys: [0; 16],
            pays: [0; 16],
            marks: 0,
            n: 0,
        }
    }

    /// All records of the block at word `at`, after those that wait.
    fn append(&mut self, s: &[u32], b: usize, at: usize) {
        let (n, from) = (s[at] as usize, self.n);
        self.keys[from..from + n].copy_from_slice(&s[at + 2..at + 2 + n]);
        self.pays[from..from + n].copy_from_slice(&s[at + 2 + b..at + 2 + b + n]);
        self.marks |= s[at + 1] << from;
        self.n += n;
    }

    /// All records of the block at word `at`, before those that wait.
    fn prepend(&mut self, s: &[u32], b: usize, at: usize) {
        let (n, count) = (s[at] as usize, self.n);
        self.keys.copy_within(..count, n);
        self.pays.copy_within(..count, n);
        self.keys[..n].copy_from_slice(&s[at + 2..at + 2 + n]);
        self.pays[..n].copy_from_slice(&s[at + 2 + b..at + 2 + b + n]);
        self.marks = self.marks << n | s[at + 1];
        self.n += n;
    }
}

/// New blocks under way in a store: where they go, and their slots in key order.
pub struct Weave<'a> {
    pub s: &'a mut [u32],
    pub shape: &'a Shape,
    /// Slots that are not free.
    pub used: &'a mut [bool; MOST_SLOTS],
    /// The allocation cursor.
    pub cursor: usize,
    /// Blocks written.
    pub writes: usize,
    /// The slots of the blocks placed.
    out: [u16; MOST_BLOCKS],
    m: usize,
    /// Records of the last block placed, B if there is none: then every pair rule
    /// with it holds.
    last: usize,
    buffer: Buffer,
}

impl<'a> Weave<'a> {
    /// Nothing placed.
    pub fn new(
        s: &'a mut [u32],
        shape: &'a Shape,
        used: &'a mut [bool; MOST_SLOTS],
        cursor: usize,
    ) -> Weave<'a> {
        Weave {
            last: shape.b,
            s,
            shape,
            used,
            cursor,
            writes: 0,
            out: [0; MOST_BLOCKS],
            m: 0,
            buffer: Buffer::new(),
        }
    }

    /// The slots of the blocks placed.
    pub fn placed(&self) -> &[u16] {
        &self.out[..self.m]
    }

    /// A block as it stands.
    #[inline]
    pub fn place(&mut self, slot: u16, records: usize) {
        self.out[self.m] = slot;
        self.m += 1;
        self.last = records;
    }

    /// A buffer that is not empty is written at the first free slot after the
    /// cursor, all words of it.
    pub fn flush(&mut self) {
        let n = self.buffer.n;
        if n == 0 {
            return;
        }
        let (b, slot) = (self.shape.b, self.free());
        let at = self.shape.at(slot as u32);
        let block = &mut self.s[at..at + self.shape.width];
        block[0] = n as u32;
        block[1] = self.buffer.marks;
        let (keys, pays) = block[2..].split_at_mut(b);
        keys[..n].copy_from_slice(&self.buffer.keys[..n]);
        keys[n..].fill(0);
        pays[..n].copy_from_slice(&self.buffer.pays[..n]);
        pays[n..].fill(0);
        self.used[slot] = true;
        self.cursor = slot;
        self.writes += 1;
        self.buffer.n = 0;
        self.buffer.marks = 0;
        self.place(slot as u16, n);
    }

    /// The first free slot after the cursor, going round.
    fn free(&self) -> usize {
        let used = &self.used[..self.shape.p];
        let after = self.cursor + 1;
        let free = |slots: &[bool]| slots.iter().position(|&used| !used);
        match free(&used[after..]) {
            Some(steps) => after + steps,
            None => free(used).expect("P ≥ 4S + 8 leaves a free slot"),
        }
    }

    /// One record; a full buffer is written.
    #[inline]
    fn gather(&mut self, key: u32, tombstone: u32, payload: u32) {
        let n = self.buffer.n;
        self.buffer.keys[n] = key;
        self.buffer.pays[n] = payload;
        self.buffer.marks |= tombstone << n;
        self.buffer.n = n + 1;
        if n + 1 == self.shape.b {
            self.flush();
        }
    }

    /// The next record of a side; level h drops tombstones.
    #[inline]
    fn take(&mut self, side: &mut Side, bottom: bool) {
        let tombstone = side.marks & 1;
        if !bottom || tombstone == 0 {
            let payload = self.s[side.at + side.gap];
            self.gather(side.key as u32, tombstone, payload);
        }
        side.step(self.s, self.shape);
    }

    /// Whether the block that the side's next record starts may follow as it
    /// stands, and its records; `other` is the next key of the other side.
    #[inline]
    fn reusable(&self, side: &Side, other: u64, bottom: bool) -> bool {
        let (b, n, size) = (self.shape.b, self.buffer.n, side.end - side.at);
        if u64::from(self.s[side.end - 1]) >= other || bottom && side.marks != 0 {
            return false;
        }
        if n == 0 {
            self.last + size > b
        } else {
            n + size > b && self.last + n > b
        }
    }

    /// The side with the smaller next key: its block is reused, or its records
    /// are gathered as far as they are below `other` and in one block.
    #[inline]
    fn advance(&mut self, side: &mut Side, other: u64, bottom: bool) {
        if let Some(slot) = side.whole {
            if self.reusable(side, other, bottom) {
                let size = side.end - side.at;
                self.flush();
                self.place(slot, size);
                side.refill(self.s, self.shape);
                return;
            }
        }
        loop {
            self.take(side, bottom);
            if side.whole.is_some() || side.key >= other {
                return;
            }
        }
    }

    /// Step 3: both sides in key order.
    pub fn merge(&mut self, x: &mut Side, y: &mut Side, bottom: bool) {
        loop {
            if x.key < y.key {
                self.advance(x, y.key, bottom);
            } else if y.key < x.key {
                self.advance(y, x.key, bottom);
            } else if x.key == END {
                return;
            } else {
                y.step(self.s, self.shape);
                self.take(x, bottom);
            }
        }
    }

    /// Step 4: the leftover joins the last block, then that joins the block after
    /// Y, each if the two hold B or fewer. Says whether the block after Y is gone.
    pub fn close(&mut self, after: Option<u16>) -> bool {
        let b = self.shape.b;
        if self.buffer.n > 0 && self.last + self.buffer.n <= b {
            self.pull();
        }
        let mut joined = false;
        if let Some(slot) = after {
            let at = self.shape.at(slot.into());
            let size = self.s[at] as usize;
            if self.buffer.n == 0 && self.last + size <= b {
                self.pull();
            }
            if self.buffer.n > 0 && self.buffer.n + size <= b {
                self.buffer.append(self.s, b, at);
                joined = true;
            }
        }
        self.flush();
        joined
    }

    /// The last block placed goes back to the front of the buffer.
    fn pull(&mut self) {
        self.m -= 1;
        let at = self.shape.at(self.out[self.m].into());
        self.buffer.prepend(self.s, self.shape.b, at);
    }

    /// Step 5: the records of these blocks anew.
    pub fn compact(&mut self, slots: &[u16]) {
        for &slot in slots {
            let at = self.shape.at(slot.into());
            let (n, marks) = (self.s[at] as usize, self.s[at + 1]);
            for j in 0..n {
                let payload = self.s[at + 2 + self.shape.b + j];
                self.gather(self.s[at + 2 + j], marks >> j & 1, payload);
            }
        }
        self.flush();
    }
}
