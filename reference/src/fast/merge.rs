//! The merges of a call: their lists stand in work arrays, since within a call a
//! level can be longer than its K(i) words.

use super::form::wasteful;
use super::shape::{Shape, COUNTS, CURSOR, MOST_SLOTS};
use super::top;
use super::weave::{Side, Weave, MOST_BLOCKS};
use crate::calls::{Counts, Ticket};

/// The slots of one level in key order.
struct List {
    slots: [u16; MOST_BLOCKS],
    n: usize,
}

impl List {
    /// The slots in use.
    fn slots(&self) -> &[u16] {
        &self.slots[..self.n]
    }

    /// Other slots in the place of those from `start` to `end`.
    fn splice(&mut self, start: usize, end: usize, new: &[u16]) {
        self.slots.copy_within(end..self.n, start + new.len());
        self.slots[start..start + new.len()].copy_from_slice(new);
        self.n = self.n - (end - start) + new.len();
    }
}

/// Step 1: the run's first block, and Y, which is where the run's keys would go in
/// if it overlaps nothing.
pub struct Run {
    pub first: usize,
    pub start: usize,
    pub end: usize,
}

impl Run {
    /// How many blocks Y has.
    fn overlap(&self) -> usize {
        self.end - self.start
    }
}

/// A store while its levels merge.
pub struct Work<'a> {
    s: &'a mut [u32],
    shape: &'a Shape,
    /// Level i is at i − 1.
    lists: [List; 3],
    cursor: usize,
    used: [bool; MOST_SLOTS],
}

impl<'a> Work<'a> {
    /// Takes the lists out of a store that has passed the form check.
    pub fn open(s: &'a mut [u32], shape: &'a Shape) -> Work<'a> {
        let lists = [1, 2, 3].map(|level| {
            let mut slots = [0; MOST_BLOCKS];
            let list = shape.list(s, level);
            for (slot, &word) in slots.iter_mut().zip(list) {
                *slot = word as u16;
            }
            List {
                slots,
                n: list.len(),
            }
        });
        let cursor = s[CURSOR] as usize;
        Work {
            s,
            shape,
            lists,
            cursor,
            used: [false; MOST_SLOTS],
        }
    }

    /// All merges of a call that finds level 0 full, with tickets for the first ones.
    pub fn merge_all(mut self, counts: &mut [Counts; 3], tickets: &mut [Ticket]) {
        let mut tickets = tickets.iter_mut();
        let mut level = 0;
        loop {
            let ticket = self.merge(level);
            counts[level].merges += 1;
            counts[level].merge_writes += ticket.written;
            if let Some(lent) = tickets.next() {
                *lent = ticket;
            }
            if level > 0 {
                counts[level - 1].compaction_writes += self.compact(level) as u32;
            }
            counts[level].compaction_writes += self.compact(level + 1) as u32;
            let full = |&i: &usize| self.lists[i - 1].n > self.shape.capacity[i];
            match (1..self.shape.h).rev().find(full) {
                Some(deepest) => level = deepest,
                None => break,
            }
        }
        self.close();
    }

    /// The lists and the cursor back into the words.
    fn close(self) {
        self.s[CURSOR] = self.cursor as u32;
        for level in 1..=self.shape.h {
            let list = self.lists[level - 1].slots();
            let start = self.shape.lists[level];
            let entries = &mut self.s[start..start + self.shape.capacity[level]];
            for (entry, &slot) in entries.iter_mut().zip(list) {
                *entry = slot.into();
            }
            entries[list.len()..].fill(0);
            self.s[COUNTS + level] = list.len() as u32;
        }
    }

    /// The slots that the lists name are in use, and no others.
    fn mark(&mut self) {
        self.used[..self.shape.p].fill(false);
        for list in &self.lists {
            for &slot in list.slots() {
                self.used[slot as usize] = true;
            }
        }
    }

    /// First and last key of a block.
    #[inline]
    fn fences(&self, slot: u16) -> (u32, u32) {
        let at = self.shape.at(slot.into());
        (self.s[at + 2], self.s[at + 1 + self.s[at] as usize])
    }

    /// First and last key of a run of `w` blocks or pages.
    #[inline]
    fn run_fences(&self, upper: usize, first: usize, w: usize) -> (u32, u32) {
        if upper == 0 {
            let keys = &self.s[self.shape.keys..self.shape.pays];
            return (
                keys[first * self.shape.b],
                keys[(first + w) * self.shape.b - 1],
            );
        }
        let slots = &self.lists[upper - 1].slots[first..first + w];
        (self.fences(slots[0]).0, self.fences(slots[w - 1]).1)
    }

    /// Every run with its Y, by going once over both lists: `start` is the number of blocks below
    /// whose last key is below the run's first key, `end` the number of blocks
    /// below whose first key is not above its last. The keys of the runs rise, so neither ever goes back.
    pub fn runs(&self, upper: usize, w: usize) -> impl Iterator<Item = Run> + '_ {
        let below = self.lists[upper].slots();
        let blocks = match upper {
            0 => self.shape.capacity[0],
            _ => self.lists[upper - 1].n,
        };
        let (mut start, mut end) = (0, 0);
        (0..=blocks - w).map(move |first| {
            let (low, high) = self.run_fences(upper, first, w);
            while start < below.len() && self.fences(below[start]).1 < low {
                start += 1;
            }
            while end < below.len() && self.fences(below[end]).0 <= high {
                end += 1;
            }
            Run { first, start, end }
        })
    }

    /// Step 1. A run that overlaps no block ends the choice: no run overlaps fewer.
    fn choose(&self, upper: usize, w: usize) -> Run {
        let mut best = Run {
            first: 0,
            start: 0,
            end: usize::MAX,
        };
        for run in self.runs(upper, w) {
            if run.overlap() < best.overlap() {
                best = run;
            }
            if best.overlap() == 0 {
                break;
            }
        }
        best
    }

    /// Steps 1 to 4 of a merge from level `upper`; answers its ticket.
    fn merge(&mut self, upper: usize) -> Ticket {
        let (shape, w) = (self.shape, self.shape.window[upper]);
        let run = self.choose(upper, w);
        self.mark();
        let joined = self.join_above(upper, run.first, w);
        let (above, below) = self.lists.split_at_mut(upper);
        let lower = &mut below[0];
        let slots = lower.slots();
        let mut weave = Weave::new(self.s, shape, &mut self.used, self.cursor);
        if let Some(&before) = slots[..run.start].last() {
            weave.place(before, weave.s[shape.at(before.into())] as usize);
        }
        let mut x = match above.last() {
            None => Side::pages(weave.s, shape, run.first, w),
            Some(list) => Side::blocks(weave.s, shape, &list.slots()[run.first..run.first + w]),
        };
        let mut y = Side::blocks(weave.s, shape, &slots[run.start..run.end]);
        weave.merge(&mut x, &mut y, upper + 1 == shape.h);
        let gone = weave.close(slots.get(run.end).copied());
        let start = run.start.saturating_sub(1);
        lower.splice(start, run.end + usize::from(gone), weave.placed());
        self.cursor = weave.cursor;
        let written = weave.writes + usize::from(joined.is_some());
        match above.last_mut() {
            None => top::remove(self.s, shape, run.first, w),
            Some(list) => match joined {
                None => list.splice(run.first, run.first + w, &[]),
                Some(slot) => list.splice(run.first - 1, run.first + w + 1, &[slot]),
            },
        }
        Ticket {
            level: upper as u32,
            first: run.first as u32,
            overlap: run.overlap() as u32,
            written: written as u32,
        }
    }

    /// Step 2's new block, if the neighbours of the run hold B or fewer.
    fn join_above(&mut self, upper: usize, first: usize, w: usize) -> Option<u16> {
        let slots = self.lists[upper.checked_sub(1)?].slots();
        let left = *slots[..first].last()?;
        let right = *slots.get(first + w)?;
        let records = |slot: u16| self.s[self.shape.at(slot.into())] as usize;
        let (left_size, right_size) = (records(left), records(right));
        if left_size + right_size > self.shape.b {
            return None;
        }
        let mut weave = Weave::new(self.s, self.shape, &mut self.used, self.cursor);
        weave.place(left, left_size);
        weave.close(Some(right));
        self.cursor = weave.cursor;
        weave.placed().last().copied()
    }

    /// Step 5 for one level; answers the blocks written.
    fn compact(&mut self, level: usize) -> usize {
        let list = &self.lists[level - 1];
        let record_count = |&slot: &u16| self.s[self.shape.at(slot.into())] as usize;
        let records: usize = list.slots().iter().map(record_count).sum();
        if !wasteful(self.shape.b, list.n, records) {
            return 0;
        }
        self.mark();
        let list = &mut self.lists[level - 1];
        let mut weave = Weave::new(self.s, self.shape, &mut self.used, self.cursor);
        weave.compact(list.slots());
        list.splice(0, list.n, weave.placed());
        self.cursor = weave.cursor;
        weave.writes
    }
}
