//! Steps 1 to 4 over random lists of blocks, with a second wording of steps 3 and
//! 4 beside them.

use super::seed;
use crate::block::{Block, Record};
use crate::merge::{merge_lists, Merged};
use crate::random::Random;
use std::collections::BTreeMap;

/// A random level of blocks that keep the pair rule, slots from `from` on.
fn level(random: &mut Random, b: usize, range: usize, tombstones: usize, from: u32) -> Vec<Block> {
    let mut records = BTreeMap::new();
    for _ in 0..random.below(range + 1) {
        let (key, tombstone) = (random.below(range) as u32, random.below(100) < tombstones);
        let payload = if tombstone { 0 } else { from + key };
        records.insert(
            key,
            Record {
                key,
                payload,
                tombstone,
            },
        );
    }
    let records: Vec<Record> = records.into_values().collect();
    let (mut blocks, mut start, mut before) = (Vec::new(), 0, b);
    while start < records.len() {
        let least = (b + 1 - before).max(1);
        let size = if random.one_in(2) {
            random.pick(&[least, b])
        } else {
            random.between(least, b)
        };
        let end = (start + size).min(records.len());
        if end - start < least {
            break;
        }
        let slot = Some(from + blocks.len() as u32);
        blocks.push(Block {
            slot,
            records: records[start..end].to_vec(),
        });
        (before, start) = (end - start, end);
    }
    blocks
}

/// Full pages of level 0, without slots.
fn pages(random: &mut Random, b: usize, range: usize) -> Vec<Block> {
    let blocks = level(random, b, range, 30, 1000);
    let records: Vec<Record> = blocks.into_iter().flat_map(|block| block.records).collect();
    records
        .chunks_exact(b)
        .map(|page| Block::fresh(page.to_vec()))
        .collect()
}

/// Whether a block can be reused as far as its keys, slot and tombstones go: no
/// key of the other list lies within it.
fn free_of(block: &Block, other: &[Block], bottom: bool) -> bool {
    let span = block.span();
    let mut keys = other
        .iter()
        .flat_map(|block| &block.records)
        .map(|record| record.key);
    block.slot.is_some()
        && !keys.any(|key| span.first <= key && key <= span.last)
        && !(bottom && block.records.iter().any(|record| record.tombstone))
}

/// All records of X and Y by key, X's over Y's, each with the block that can be
/// reused from it on, if any.
type Items<'a> = BTreeMap<u32, (Record, Option<&'a Block>)>;

/// The items of step 3.
fn items<'a>(bottom: bool, x: &'a [Block], y: &'a [Block]) -> Items<'a> {
    let mut items = Items::new();
    for (list, other) in [(y, x), (x, y)] {
        for block in list {
            for (index, record) in block.records.iter().enumerate() {
                let whole = index == 0 && free_of(block, other, bottom);
                items.insert(record.key, (*record, whole.then_some(block)));
            }
        }
    }
    items
}

/// Step 3 in other words: one pass over the items. A missing neighbour counts as a
/// full one. Answers the leftover too.
fn plain_step_3(b: usize, bottom: bool, items: Items, out: &mut Vec<Block>) -> Vec<Record> {
    let mut buffer: Vec<Record> = Vec::new();
    let mut skip_to = 0u64;
    for (key, (record, whole)) in items {
        if u64::from(key) < skip_to {
            continue;
        }
        let e = out.last().map_or(b, Block::len);
        if let Some(block) = whole {
            let next_to_e = if buffer.is_empty() {
                block.len()
            } else {
                buffer.len()
            };
            let next_to_b = if buffer.is_empty() { b } else { buffer.len() };
            if e + next_to_e > b && next_to_b + block.len() > b {
                let written = std::mem::take(&mut buffer);
                out.extend((!written.is_empty()).then(|| Block::fresh(written)));
                out.push(block.clone());
                skip_to = u64::from(block.span().last) + 1;
                continue;
            }
        }
        buffer.extend((!(bottom && record.tombstone)).then_some(record));
        if buffer.len() == b {
            out.push(Block::fresh(std::mem::take(&mut buffer)));
        }
    }
    buffer
}

/// Steps 3 and 4 in other words.
fn plain_weave(
    b: usize,
    bottom: bool,
    x: &[Block],
    y: &[Block],
    [before, after]: [Option<Block>; 2],
) -> Vec<Block> {
    let mut out: Vec<Block> = before.into_iter().collect();
    let buffer = plain_step_3(b, bottom, items(bottom, x, y), &mut out);
    let leftover = (!buffer.is_empty()).then(|| Block::fresh(buffer));
    for block in [leftover, after].into_iter().flatten() {
        match out.pop() {
            Some(e) if e.len() + block.len() <= b => {
                out.push(Block::fresh([e.records, block.records].concat()));
            }
            e => out.extend(e.into_iter().chain([block])),
        }
    }
    out
}

/// The whole lower level by the second wording.
fn plain_lower(b: usize, bottom: bool, x: &[Block], lower: &[Block]) -> Vec<Block> {
    let (low, high) = (x[0].span().first, x[x.len() - 1].span().last);
    let below: Vec<Block> = lower
        .iter()
        .filter(|block| block.span().last < low)
        .cloned()
        .collect();
    let above: Vec<Block> = lower
        .iter()
        .filter(|block| block.span().first > high)
        .cloned()
        .collect();
    let y = &lower[below.len()..lower.len() - above.len()];
    let around = [below.last().cloned(), above.first().cloned()];
    let mut out = below[..below.len().saturating_sub(1)].to_vec();
    out.extend(plain_weave(b, bottom, x, y, around));
    out.extend(above.into_iter().skip(1));
    out
}

/// What holds of both levels after steps 1 to 4.
fn sound(
    b: usize,
    window: usize,
    on_flash: bool,
    upper: &[Block],
    lower: &[Block],
    merged: &Merged,
) {
    let (q, a, n) = (merged.run.overlap(), upper.len(), lower.len());
    assert!(q <= n.div_ceil(a / window), "q {q} a {a} n {n} w {window}");
    let levels = if on_flash {
        vec![&merged.upper, &merged.lower]
    } else {
        vec![&merged.lower]
    };
    for level in &levels {
        assert!(level
            .windows(2)
            .all(|pair| pair[0].len() + pair[1].len() > b));
        assert!(level.iter().all(|block| (1..=b).contains(&block.len())));
        assert!(level
            .windows(2)
            .all(|pair| pair[0].span().last < pair[1].span().first));
    }
}

/// Random lists: the second wording agrees, the pair rule and the bounds hold, and
/// w + q + 1 writes are met on flash, w + q out of level 0.
#[test]
fn steps_1_to_4_on_random_lists() {
    let mut random = Random::new(seed() ^ 0x1234);
    let (mut merges, mut at_bound, mut joins) = (0, [0; 2], 0);
    for _ in 0..300_000 {
        let (b, bottom, on_flash) = (random.between(2, 5), random.one_in(2), !random.one_in(4));
        let range = random.between(4, 60);
        let upper = match on_flash {
            true => level(&mut random, b, range, 30, 1000),
            false => pages(&mut random, b, range),
        };
        let marks = if bottom { 0 } else { 30 };
        let lower = level(&mut random, b, range, marks, 2000);
        let window = random.between(1, 3);
        let Some(merged) = merge_lists(b, bottom, window, &upper, &lower) else {
            assert!(upper.len() < window);
            continue;
        };
        merges += 1;
        sound(b, window, on_flash, &upper, &lower, &merged);
        let x = &upper[merged.run.first..merged.run.first + window];
        assert_eq!(merged.lower, plain_lower(b, bottom, x, &lower));
        let new = |blocks: &[Block]| blocks.iter().filter(|block| block.slot.is_none()).count();
        let joined = if on_flash { new(&merged.upper) } else { 0 };
        let writes = joined + new(&merged.lower);
        let bound = window + merged.run.overlap() + usize::from(on_flash);
        assert!(
            writes <= bound,
            "{writes} writes, {bound} allowed: {upper:?} onto {lower:?}"
        );
        at_bound[usize::from(on_flash)] += usize::from(writes == bound);
        joins += joined;
    }
    println!("{merges} merges, {joins} joins above; at the bound {at_bound:?}");
    assert!(at_bound[0] > 0 && at_bound[1] > 0 && joins > 0);
}
