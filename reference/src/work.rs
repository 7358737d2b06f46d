//! A store while merges run in it: the lists of slots stand apart, since "within
//! a call a level's place list is as long as the level, longer than K(i) if need
//! be". Steps 1 to 6 of a merge with the slots they take.

use crate::block::{write_slot, Block, Record, Slot, Span};
use crate::choose::choose;
use crate::fault::{self, Fault};
use crate::form::needs_compaction;
use crate::geometry::Geometry;
use crate::layout::{COUNTS, CURSOR};
use crate::level::View;
use crate::merge::{join, reach, Weave};
use std::ops::Range;

/// One merge of a call's list ("The merges of a call").
#[derive(Clone, Debug, PartialEq, Eq)]
pub struct Merge {
    /// i, the level the run leaves; it goes to i + 1.
    pub upper: usize,
    /// The number of the run's first block (in level 0, page).
    pub run: usize,
    /// Demand 3's w: W(i).
    pub w: usize,
    /// Demand 3's q: the overlap of the run.
    pub q: usize,
    /// Demand 3's a: the blocks of level i at the start (in level 0, pages).
    pub a: usize,
    /// Demand 3's n: the blocks of level i + 1 at the start.
    pub n: usize,
    /// Slots in use (document 01: places in use) at its start, sorted.
    pub before: Vec<u32>,
    /// Slots in use at its end, with step 4, sorted.
    pub after: Vec<u32>,
    /// The compactings that followed it in step 5, in their order.
    pub compactions: Vec<Compaction>,
}

/// One compaction (document 01: compacting) of step 5.
#[derive(Clone, Debug, PartialEq, Eq)]
pub struct Compaction {
    pub level: usize,
    /// Slots in use at its start, sorted.
    pub before: Vec<u32>,
    /// Slots in use at its end, sorted.
    pub after: Vec<u32>,
}

/// A ticket of document 02's card 3: what one merge did.
#[derive(Clone, Copy, Debug, Default, PartialEq, Eq)]
pub struct Ticket {
    /// "upper level".
    pub level: u32,
    /// "number of the run's first block in that level from 0", at the merge's start,
    /// before X leaves; in level 0 the number of the page.
    pub first: u32,
    /// The overlap of the run.
    pub overlap: u32,
    /// Blocks written, as demand 3 counts them: no compacting is among them.
    pub written: u32,
}

impl Merge {
    /// "Blocks written by a merge are the places in use at its end that were not
    /// in use at its start, step 2's block with them."
    pub fn writes(&self) -> usize {
        newly_in_use(&self.before, &self.after).count()
    }

    /// The merge's ticket.
    pub fn ticket(&self) -> Ticket {
        let (mut first, mut written) = (self.run, self.writes());
        if fault::is(Fault::FirstInWindows) {
            first /= self.w;
        }
        if fault::is(Fault::CompactingOnTicket) {
            let compacted = self.compactions.iter().map(Compaction::writes);
            written += compacted.sum::<usize>();
        }
        Ticket {
            level: self.upper as u32,
            first: first as u32,
            overlap: self.q as u32,
            written: written as u32,
        }
    }
}

impl Compaction {
    /// "the places in use at the end of the compaction that were not in use at
    /// its start."
    pub fn writes(&self) -> usize {
        newly_in_use(&self.before, &self.after).count()
    }
}

/// The slots of `after` that are not in `before`, both sorted.
pub fn newly_in_use<'a>(before: &'a [u32], after: &'a [u32]) -> impl Iterator<Item = u32> + 'a {
    after
        .iter()
        .copied()
        .filter(|slot| before.binary_search(slot).is_err())
}

/// A store that has passed the form check, opened for merging.
pub struct Work<'a> {
    geometry: Geometry,
    words: &'a mut [u32],
    /// The slots of levels 1 to h in key order; entry 0 stays empty.
    lists: Vec<Vec<u32>>,
    /// The allocation cursor (document 01: hand).
    cursor: usize,
}

impl<'a> Work<'a> {
    /// Takes the lists and the cursor out of a store; none if the geometry or
    /// the length is not right. The form check is the caller's.
    pub fn open(words: &'a mut [u32]) -> Option<Work<'a>> {
        let view = View::of(words).ok()?;
        let (geometry, cursor) = (view.geometry, view.cursor());
        let mut lists = vec![Vec::new()];
        lists.extend((1..=geometry.levels()).map(|level| view.list(level).to_vec()));
        Some(Work {
            geometry,
            words,
            lists,
            cursor,
        })
    }

    /// Puts the lists and the cursor back: "at the call's end each fits its K(i)
    /// words again".
    pub fn close(self) {
        self.words[CURSOR] = self.cursor as u32;
        for level in 1..=self.geometry.levels() {
            let (at, list) = (self.geometry.list_at(level), &self.lists[level]);
            let entries = &mut self.words[at..at + self.geometry.capacity(level)];
            entries.fill(0);
            entries[..list.len()].copy_from_slice(list);
            self.words[COUNTS + level] = list.len() as u32;
        }
    }

    /// The whole list of merges of a call that finds level 0 full: the first is
    /// out of level 0, then step 6: "While a level holds more than K blocks, the
    /// deepest such merges next."
    pub fn merge_all(&mut self) -> Vec<Merge> {
        let mut merges = Vec::new();
        let mut upper = Some(0);
        while let Some(level) = upper {
            merges.push(self.merge(level));
            upper = self.deepest_overfull();
        }
        merges
    }

    /// The deepest level above K(i). Level h is none of them after step 5.
    pub fn deepest_overfull(&self) -> Option<usize> {
        let mut levels = (1..self.geometry.levels()).rev();
        levels.find(|&level| self.lists[level].len() > self.geometry.capacity(level))
    }

    /// Steps 1 to 5 of one merge from level `upper`.
    pub fn merge(&mut self, upper: usize) -> Merge {
        let w = self.geometry.window(upper);
        let (above, below) = (self.spans(upper), self.spans(upper + 1));
        // A level merges full or above K(i) ≥ W(i), so there is a run.
        let run = choose(&above, &below, w).expect("a level that merges has a run");
        let mut before = self.slots_in_use();
        let mut used = self.used_flags();
        let x = self.blocks(upper, run.first..run.first + w);
        if fault::is(Fault::SlotsFreeTooSoon) {
            x.iter()
                .filter_map(|block| block.slot)
                .for_each(|slot| used[slot as usize] = false);
        }
        self.leave(upper, run.first..run.first + w, &mut used);
        let mut first = run.first;
        if fault::is(Fault::FirstAfterLeaving) {
            let below = |span: &Span| span.last < x[0].span().first;
            first = self.spans(upper).partition_point(below);
        }
        if fault::is(Fault::JoinNotCounted) {
            before.extend(self.slots_in_use());
            before.sort_unstable();
        }
        let (y, reach) = (run.below.clone(), reach(&run, below.len()));
        self.arrive(upper + 1, &x, y, reach, &mut used);
        let after = self.slots_in_use();
        let compactions = self.compact_after(upper);
        Merge {
            upper,
            run: first,
            w,
            q: run.overlap(),
            a: above.len(),
            n: below.len(),
            before,
            after,
            compactions,
        }
    }

    /// Step 2: X leaves. In level 0 "the later records move up and close the
    /// gap"; elsewhere, if its two neighbours now hold B or fewer together, one
    /// new block replaces them (reading 4).
    fn leave(&mut self, level: usize, run: Range<usize>, used: &mut [bool]) {
        if level == 0 {
            return self.remove_pages(run);
        }
        let first = run.start;
        self.lists[level].drain(run);
        let gap_is_inside = first > 0 && first < self.lists[level].len();
        if !gap_is_inside || fault::is(Fault::NoJoinAbove) {
            return;
        }
        let neighbours = self.blocks(level, first - 1..first + 1);
        if let Some(joined) = join(self.geometry.block(), &neighbours[0], &neighbours[1]) {
            let slot = self.write_new(&joined.records, used);
            self.lists[level].splice(first - 1..=first, [slot]);
        }
    }

    /// Takes whole pages out of a full level 0.
    fn remove_pages(&mut self, run: Range<usize>) {
        let g = self.geometry;
        let gone = run.len() * g.block();
        let arrays = [
            (g.tombstones_at(), g.capacity(0), 1),
            (g.keys_at(), g.level_zero_records(), g.block()),
            (g.payloads_at(), g.level_zero_records(), g.block()),
        ];
        for (at, length, per_page) in arrays {
            let array = &mut self.words[at..at + length];
            array.copy_within(run.end * per_page.., run.start * per_page);
            array[length - run.len() * per_page..].fill(0);
        }
        self.words[COUNTS] -= gone as u32;
    }

    /// Steps 3 and 4: X goes into `level`, over Y; `reach` is Y with the blocks
    /// before and after it. New blocks take their slots in key order.
    fn arrive(
        &mut self,
        level: usize,
        x: &[Block],
        y: Range<usize>,
        reach: Range<usize>,
        used: &mut [bool],
    ) {
        let before = self.blocks(level, reach.start..y.start).pop();
        let after = self.blocks(level, y.end..reach.end).pop();
        let y = self.blocks(level, y);
        let bottom = level == self.geometry.levels();
        let new = Weave::new(self.geometry.block(), bottom, before).run(x, &y, after);
        let mut slots = Vec::with_capacity(new.len());
        for block in new {
            let slot = block
                .slot
                .unwrap_or_else(|| self.write_new(&block.records, used));
            slots.push(slot);
        }
        self.lists[level].splice(reach, slots);
    }

    /// Step 5: "Level i (if i ≥ 1), then i + 1, is compacted if needed."
    fn compact_after(&mut self, upper: usize) -> Vec<Compaction> {
        let skip_upper = upper == 0 || fault::is(Fault::NoCompactionAbove);
        let first = if skip_upper { upper + 1 } else { upper };
        (first..=upper + 1)
            .filter_map(|level| self.compact_if_needed(level))
            .collect()
    }

    /// Step 5 for one level: "all records anew, B to a block, the last with the
    /// rest".
    pub fn compact_if_needed(&mut self, level: usize) -> Option<Compaction> {
        let b = self.geometry.block();
        let list = &self.lists[level];
        let count: usize = list.iter().map(|&slot| self.slot(slot).count()).sum();
        if !needs_compaction(b, list.len(), count) {
            return None;
        }
        let before = self.slots_in_use();
        let mut used = self.used_flags();
        let records: Vec<Record> = self.lists[level]
            .iter()
            .flat_map(|&slot| self.slot(slot).records())
            .collect();
        let new = records
            .chunks(b)
            .map(|records| self.write_new(records, &mut used))
            .collect();
        self.lists[level] = new;
        Some(Compaction {
            level,
            before,
            after: self.slots_in_use(),
        })
    }

    /// Writes a block to the first free slot after the allocation cursor and
    /// moves the cursor there. "Places in use when a merge or a compaction starts
    /// are not free until it ends": `used` has them and the new ones.
    fn write_new(&mut self, records: &[Record], used: &mut [bool]) -> u32 {
        let slot = first_free(self.cursor, used);
        used[slot] = true;
        self.cursor = slot;
        write_slot(self.geometry, self.words, slot as u32, records);
        slot as u32
    }

    /// In-use flags of all P slots: "A place is in use if the place list of any
    /// level in the store names it."
    fn used_flags(&self) -> Vec<bool> {
        let mut used = vec![false; self.geometry.slots()];
        self.lists
            .iter()
            .flatten()
            .for_each(|&slot| used[slot as usize] = true);
        used
    }

    /// The slots in use, sorted.
    pub fn slots_in_use(&self) -> Vec<u32> {
        let mut slots: Vec<u32> = self.lists.iter().flatten().copied().collect();
        slots.sort_unstable();
        slots
    }

    /// The allocation cursor (document 01: hand) as it stands.
    pub fn cursor(&self) -> usize {
        self.cursor
    }

    /// The slots of a level from 1 on, in key order.
    pub fn list(&self, level: usize) -> &[u32] {
        &self.lists[level]
    }

    /// First and last key of each block of a level; level 0 counts as pages.
    pub fn spans(&self, level: usize) -> Vec<Span> {
        if level > 0 {
            return self.lists[level]
                .iter()
                .map(|&slot| self.slot(slot).span())
                .collect();
        }
        let at = self.geometry.keys_at();
        let keys = &self.words[at..at + self.words[COUNTS] as usize];
        let pages = keys.chunks(self.geometry.block());
        pages
            .map(|page| Span {
                first: page[0],
                last: page[page.len() - 1],
            })
            .collect()
    }

    /// Blocks of a level with their records; pages of level 0 have no slot.
    pub fn blocks(&self, level: usize, range: Range<usize>) -> Vec<Block> {
        if level == 0 {
            return range.map(|page| Block::fresh(self.page(page))).collect();
        }
        let slots = self.lists[level][range].iter();
        let block = |&slot| Block {
            slot: Some(slot),
            records: self.slot(slot).records().collect(),
        };
        slots.map(block).collect()
    }

    /// The records of a page of a full level 0.
    fn page(&self, page: usize) -> Vec<Record> {
        let (b, view) = (self.geometry.block(), self.view());
        (page * b..page * b + b)
            .map(|index| view.zero_record(index))
            .collect()
    }

    /// The words of a slot.
    fn slot(&self, slot: u32) -> Slot<'_> {
        Slot::of(self.geometry, self.words, slot)
    }

    /// The words as they stand; their lists are those of the call's entry.
    fn view(&self) -> View<'_> {
        View {
            geometry: self.geometry,
            words: self.words,
        }
    }
}

/// "A new block goes to the first free place after hand, going round"; hand's own
/// slot comes last (reading 12). P ≥ 4S + 8 always leaves a free one.
fn first_free(cursor: usize, used: &[bool]) -> usize {
    let mut order = (cursor + 1..used.len()).chain(0..=cursor);
    order
        .find(|&slot| !used[slot])
        .expect("P ≥ 4S + 8 leaves a free slot")
}
