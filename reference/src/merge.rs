//! Steps 1 to 4 of "A merge from level i to i + 1" over lists of blocks, before
//! any slot is given out: a block with a slot stays there, a block without one
//! is to be written.

use crate::block::{Block, Record, Span};
use crate::choose::{choose, Run};
use crate::fault::{self, Fault};

/// What steps 1 to 4 leave.
#[derive(Clone, Debug, PartialEq, Eq)]
pub struct Merged {
    pub run: Run,
    pub upper: Vec<Block>,
    pub lower: Vec<Block>,
}

impl Merged {
    /// Blocks without a slot, which are to be written.
    pub fn writes(&self) -> usize {
        let all = self.upper.iter().chain(&self.lower);
        all.filter(|block| block.slot.is_none()).count()
    }
}

/// Steps 1 to 4 over just these blocks, upper and lower, with records of B to a
/// block; `bottom` says that the lower level is level h. Used for the bench
/// figures; a store's merge runs the same steps over the blocks concerned.
pub fn merge_lists(
    b: usize,
    bottom: bool,
    window: usize,
    upper: &[Block],
    lower: &[Block],
) -> Option<Merged> {
    let spans = |blocks: &[Block]| -> Vec<Span> { blocks.iter().map(Block::span).collect() };
    let run = choose(&spans(upper), &spans(lower), window)?;
    let end = run.first + window;
    let mut rest = upper[..run.first].to_vec();
    rest.extend_from_slice(&upper[end..]);
    if run.first > 0 && end < upper.len() {
        if let Some(joined) = join(b, &upper[run.first - 1], &upper[end]) {
            rest.splice(run.first - 1..=run.first, [joined]);
        }
    }
    let (y, reach) = (run.below.clone(), reach(&run, lower.len()));
    let before = lower[reach.start..y.start].first().cloned();
    let after = lower[y.end..reach.end].first().cloned();
    let x = &upper[run.first..end];
    let new = Weave::new(b, bottom, before).run(x, &lower[y], after);
    let mut below = lower.to_vec();
    below.splice(reach, new);
    Some(Merged {
        run,
        upper: rest,
        lower: below,
    })
}

/// Y with the block before and the block after it, where there are such (step 1,
/// reading 3).
pub fn reach(run: &Run, blocks_below: usize) -> std::ops::Range<usize> {
    run.below.start.saturating_sub(1)..(run.below.end + 1).min(blocks_below)
}

/// Two neighbours that "hold B or fewer together" in one new block (steps 2 and
/// 4), or none if they hold more.
pub fn join(b: usize, left: &Block, right: &Block) -> Option<Block> {
    if left.len() + right.len() > b {
        return None;
    }
    Some(Block::fresh(
        [&left.records[..], &right.records[..]].concat(),
    ))
}

/// Steps 3 and 4 under way.
pub struct Weave {
    b: usize,
    bottom: bool,
    /// What replaces the block before Y, Y and the block after Y. Its last block
    /// is always e: "the last block placed by this merge, else the block before
    /// Y" (reading 7).
    placed: Vec<Block>,
    buffer: Vec<Record>,
}

impl Weave {
    /// Before the first record: only the block before Y, if there is one.
    pub fn new(b: usize, bottom: bool, before: Option<Block>) -> Weave {
        Weave {
            b,
            bottom,
            placed: before.into_iter().collect(),
            buffer: Vec::new(),
        }
    }

    /// Steps 3 and 4: X and Y read in key order, then the joins at the end.
    /// Answers the blocks in key order, the ones before and after Y with them.
    pub fn run(mut self, x: &[Block], y: &[Block], after: Option<Block>) -> Vec<Block> {
        let (mut x, mut y) = (Input::new(x), Input::new(y));
        loop {
            match (x.key(), y.key()) {
                (None, None) => break,
                (Some(left), Some(right)) if left == right => self.take_equal(&mut x, &mut y),
                (left, None) if left.is_some() => self.take(&mut x, None),
                (Some(left), Some(right)) if left < right => self.take(&mut x, Some(right)),
                (left, _) => self.take(&mut y, left),
            }
        }
        self.finish(after)
    }

    /// "on equal keys X's record stands alone": both lists move on at once. X's
    /// block does not end below the other list's next key, so it is not reused
    /// (reading 5).
    fn take_equal(&mut self, x: &mut Input, y: &mut Input) {
        let (record, beaten) = (x.pop(), y.pop());
        if fault::is(Fault::CancelInMiddle) && record.tombstone && !beaten.tombstone {
            return;
        }
        self.gather(record);
    }

    /// The next record comes from `input`; `other` is the next key of the other
    /// list, none if that is used up.
    fn take(&mut self, input: &mut Input, other: Option<u32>) {
        if let Some(block) = input.whole_block() {
            let ends_below = other.is_none_or(|key| block.span().last < key);
            if ends_below && self.reusable(block) {
                self.write_buffer();
                self.placed.push(block.clone());
                input.skip_block();
                return;
            }
        }
        let record = input.pop();
        self.gather(record);
    }

    /// The tests for reuse in step 3, from "b has a place" on.
    fn reusable(&self, block: &Block) -> bool {
        let tombstones = block.records.iter().any(|record| record.tombstone);
        let dropped = self.bottom && tombstones && !fault::is(Fault::ReuseTombstonesAtBottom);
        if block.slot.is_none() || dropped {
            return false;
        }
        if self.buffer.is_empty() {
            return self.fits_after_e(block.len()) || fault::is(Fault::PairRuleOnlyForBuffer);
        }
        self.buffer.len() + block.len() > self.b && self.fits_after_e(self.buffer.len())
    }

    /// "no e or e + .. hold more than B."
    fn fits_after_e(&self, records: usize) -> bool {
        self.placed
            .last()
            .is_none_or(|e| e.len() + records > self.b)
    }

    /// "Marks stay, except that level h drops them. Records gather in a buffer,
    /// written when it has B."
    fn gather(&mut self, record: Record) {
        if self.bottom && record.tombstone {
            return;
        }
        self.buffer.push(record);
        if self.buffer.len() == self.b {
            self.write_buffer();
        }
    }

    /// A buffer that is not empty becomes the next block placed.
    fn write_buffer(&mut self) {
        if !self.buffer.is_empty() {
            self.placed
                .push(Block::fresh(std::mem::take(&mut self.buffer)));
        }
    }

    /// Step 4: "a leftover that with e holds B or fewer joins it in one new
    /// block. The last block, or if nothing is left over e, joins the block after
    /// Y by the same rule. Joined blocks are written once." (Readings 9, 10.)
    fn finish(mut self, after: Option<Block>) -> Vec<Block> {
        if !self.buffer.is_empty() {
            let leftover = Block::fresh(std::mem::take(&mut self.buffer));
            self.place_joining(leftover);
        }
        if let Some(after) = after {
            self.place_joining(after);
        }
        self.placed
    }

    /// Places a block as the last one, in one new block with e if the two hold B
    /// or fewer.
    fn place_joining(&mut self, block: Block) {
        let joined = self.placed.last().and_then(|e| join(self.b, e, &block));
        if joined.is_some() {
            self.placed.pop();
        }
        self.placed.push(joined.unwrap_or(block));
    }
}

/// One of the two lists of step 3 and how far it has been read.
struct Input<'a> {
    blocks: &'a [Block],
    block: usize,
    index: usize,
}

impl<'a> Input<'a> {
    /// At the first record of the first block.
    fn new(blocks: &'a [Block]) -> Input<'a> {
        Input {
            blocks,
            block: 0,
            index: 0,
        }
    }

    /// The next key, none if the list is used up. A tombstone that level h will
    /// drop counts too (reading 6).
    fn key(&self) -> Option<u32> {
        self.blocks
            .get(self.block)
            .map(|block| block.records[self.index].key)
    }

    /// The block that the next record starts, if it starts one.
    fn whole_block(&self) -> Option<&'a Block> {
        if self.index == 0 {
            self.blocks.get(self.block)
        } else {
            None
        }
    }

    /// The next record, read; only called where there is one.
    fn pop(&mut self) -> Record {
        let block = &self.blocks[self.block];
        let record = block.records[self.index];
        self.index += 1;
        if self.index == block.len() {
            self.skip_block();
        }
        record
    }

    /// On to the first record of the next block.
    fn skip_block(&mut self) {
        self.block += 1;
        self.index = 0;
    }
}
