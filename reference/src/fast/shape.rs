//! The geometry of a store with every size and offset worked out once.

/// Words of the header.
pub const HEADER: usize = 12;
/// Header word of live.
pub const LIVE: usize = 6;
/// Header word of the allocation cursor (document 01: hand).
pub const CURSOR: usize = 7;
/// Header word of c; the block count of level i is `COUNTS + i`.
pub const COUNTS: usize = 8;
/// Slots (document 01: places) that a store has at most.
pub const MOST_SLOTS: usize = 8192;

/// A legal geometry. Levels below level h have capacity 0.
#[derive(Clone, Copy, Debug)]
pub struct Shape {
    /// B.
    pub b: usize,
    /// h.
    pub h: usize,
    /// P.
    pub p: usize,
    /// N.
    pub limit: usize,
    /// K(i).
    pub capacity: [usize; 4],
    /// W(i).
    pub window: [usize; 4],
    /// Records that level 0 has room for.
    pub room: usize,
    /// The first key of level 0; its tombstone words start at word 12.
    pub keys: usize,
    /// The first payload of level 0.
    pub pays: usize,
    /// The first list entry of levels 1 to 3.
    pub lists: [usize; 4],
    /// The first word of slot 0.
    pub slots: usize,
    /// Words of a slot.
    pub width: usize,
    /// Words of the whole layout.
    pub length: usize,
}

impl Shape {
    /// The shape of a store, or which of the reasons 1 to 3 turns it down.
    pub fn of(s: &[u32]) -> Result<Shape, u32> {
        let Some(numbers) = s.get(..HEADER) else {
            return Err(1);
        };
        let numbers = [0, 1, 2, 3, 4, 5].map(|at| numbers[at]);
        let shape = Shape::new(numbers).ok_or(2u32)?;
        if s.len() != shape.length {
            return Err(3);
        }
        Ok(shape)
    }

    /// The shape of `[B, w, d, G, h, P]`, or none if a limit is broken.
    pub fn new(numbers: [u32; 6]) -> Option<Shape> {
        let [b, w, d, g, h, p] = numbers.map(|n| n as usize);
        let ranged = (2..=16).contains(&b)
            && (1..=16).contains(&w)
            && (2..=16).contains(&d)
            && (2..=10).contains(&g)
            && (1..=3).contains(&h)
            && p <= MOST_SLOTS;
        if !ranged {
            return None;
        }
        let window = [w, w * g, w * g * g, w * g * g * g];
        let mut capacity = window.map(|blocks| blocks * d);
        capacity[h + 1..].fill(0);
        let all: usize = capacity.iter().sum();
        let flash = all - capacity[0];
        let above = all - capacity[h];
        let limit = (4 * b * capacity[h] / 5).checked_sub(b * above)?;
        if capacity[h] > 1024 || p < 4 * flash + 8 || limit < 1 {
            return None;
        }
        Some(Shape::laid_out(b, h, p, limit, capacity, window))
    }

    /// The offsets of the layout.
    fn laid_out(
        b: usize,
        h: usize,
        p: usize,
        limit: usize,
        capacity: [usize; 4],
        window: [usize; 4],
    ) -> Shape {
        let room = capacity[0] * b;
        let keys = HEADER + capacity[0];
        let pays = keys + room;
        let first = pays + room;
        let second = first + capacity[1];
        let third = second + capacity[2];
        let slots = third + capacity[3];
        let width = 2 + 2 * b;
        Shape {
            b,
            h,
            p,
            limit,
            capacity,
            window,
            room,
            keys,
            pays,
            lists: [0, first, second, third],
            slots,
            width,
            length: slots + p * width,
        }
    }

    /// The first word of a slot.
    #[inline]
    pub fn at(&self, slot: u32) -> usize {
        self.slots + slot as usize * self.width
    }

    /// The slots of the blocks of a level from 1 on, in key order.
    #[inline]
    pub fn list<'a>(&self, s: &'a [u32], level: usize) -> &'a [u32] {
        let start = self.lists[level];
        &s[start..start + s[COUNTS + level] as usize]
    }
}
