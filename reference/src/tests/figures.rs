//! Every line of "Bench figures" of document 01, in its order.

use super::{build, set, sets, tomb};
use crate::block::{Block, Record};
use crate::calls::{check, delete, format, look_up, put, put_listed, Counts};
use crate::form::needs_compaction;
use crate::geometry::Geometry;
use crate::level::View;
use crate::merge::{merge_lists, Merged};
use crate::work::Work;

/// Geometry A.
const A: [u32; 6] = [4, 1, 2, 4, 1, 40];

/// A formatted store of geometry A.
fn store_a() -> Vec<u32> {
    let mut words = vec![7; 438];
    let answer = format(&mut words, A);
    assert_eq!((answer.refusal, answer.limit), (0, 17));
    words
}

/// "a place for each block": upper slots from 100 on, lower ones from 200 on.
fn placed(blocks: &[Vec<Record>], from: u32) -> Vec<Block> {
    let slots = (from..).map(Some);
    slots
        .zip(blocks)
        .map(|(slot, records)| Block {
            slot,
            records: records.clone(),
        })
        .collect()
}

/// Steps 1 to 4 with B = 4; X is all of the upper blocks if no window is said.
fn merged(upper: &[Vec<Record>], lower: &[Vec<Record>], bottom: bool, window: usize) -> Merged {
    merge_lists(4, bottom, window, &placed(upper, 100), &placed(lower, 200)).expect("a run")
}

/// The keys of each block.
fn keys(blocks: &[Block]) -> Vec<Vec<u32>> {
    let of = |block: &Block| block.records.iter().map(|record| record.key).collect();
    blocks.iter().map(of).collect()
}

/// "A: N = 17; length 438; 437 and 439 get 3; P = 39 gets 2. 4 1 2 3 2 with
/// S = 24: N = 25, P at least 104. 4 1 2 2 3: N below 1, gets 2."
#[test]
fn figure_1_geometry() {
    let a = Geometry::new(A).expect("A is legal");
    assert_eq!((a.key_limit(), a.length()), (17, 438));
    for (length, refusal) in [(437, 3), (438, 0), (439, 3)] {
        assert_eq!(format(&mut vec![0; length], A).refusal, refusal);
        let mut lent = store_a();
        lent.resize(length, 0);
        assert_eq!(check(&lent), refusal);
    }
    for length in [437, 438, 439] {
        assert_eq!(format(&mut vec![0; length], [4, 1, 2, 4, 1, 39]).refusal, 2);
    }
    let two = Geometry::new([4, 1, 2, 3, 2, 104]).expect("104 slots are enough");
    assert_eq!((two.flash_capacity(), two.key_limit()), (24, 25));
    assert!(Geometry::new([4, 1, 2, 3, 2, 103]).is_none());
    for p in [0, 120, 121, 1000, 8192] {
        assert_eq!(format(&mut vec![0; 1000], [4, 1, 2, 2, 3, p]).refusal, 2);
    }
}

/// One merge into level 1 with one write.
const ONE: Counts = Counts {
    merges: 1,
    merge_writes: 1,
    compaction_writes: 0,
};

/// "A, puts 10, 20 .. 80: no merge. Put 90: keys 10 to 40 go to place 0, one
/// write."
#[test]
fn figure_2_first_merge() {
    first_merge();
}

/// The store after the puts 10 to 90.
fn first_merge() -> Vec<u32> {
    let mut words = store_a();
    for key in (10..=80).step_by(10) {
        let (answer, merges) = put_listed(&mut words, key, key + 1);
        assert_eq!((answer.refusal, answer.levels), (0, [Counts::default(); 3]));
        assert!(merges.is_empty());
    }
    let (answer, merges) = put_listed(&mut words, 90, 91);
    assert_eq!(answer.levels, [ONE, Counts::default(), Counts::default()]);
    assert_eq!(
        (merges[0].run, merges[0].q, &merges[0].after[..]),
        (0, 0, &[0][..])
    );
    let view = View::of(&words).expect("a store");
    assert_eq!(view.slot(0).keys(), [10, 20, 30, 40]);
    assert_eq!((view.cursor(), view.list(1)), (0, &[0][..]));
    words
}

/// "Then 15, 25, 35, 45: the fourth merges 60 to 90 (overlap 0, the other page 1),
/// one write."
#[test]
fn figure_2_second_merge() {
    second_merge();
}

/// The store after the puts up to 45.
fn second_merge() -> Vec<u32> {
    let mut words = first_merge();
    for key in [15, 25, 35] {
        assert_eq!(put(&mut words, key, key).levels, [Counts::default(); 3]);
    }
    let (answer, merges) = put_listed(&mut words, 45, 45);
    assert_eq!(answer.levels[0], ONE);
    assert_eq!(
        (merges[0].run, merges[0].q, merges[0].a, merges[0].n),
        (1, 0, 2, 1)
    );
    assert_eq!(
        View::of(&words).expect("a store").slot(1).keys(),
        [60, 70, 80, 90]
    );
    let page = Block {
        slot: None,
        records: sets(&[15, 25, 35, 50], 1),
    };
    let below = placed(&[sets(&[10, 20, 30, 40], 2)], 200);
    assert_eq!(
        merge_lists(4, true, 1, &[page], &below)
            .expect("a run")
            .run
            .overlap(),
        1
    );
    words
}

/// "Then 46, 47, 48, 49: 49 merges 46, 47, 48, 50; live 17. Put 100 gets 5; put 49
/// doesn't."
#[test]
fn figure_2_third_merge() {
    let mut words = second_merge();
    for key in [46, 47, 48] {
        assert_eq!(put(&mut words, key, key).levels, [Counts::default(); 3]);
    }
    assert_eq!(put(&mut words, 49, 49).levels[0], ONE);
    let view = View::of(&words).expect("a store");
    assert_eq!(view.slot(2).keys(), [46, 47, 48, 50]);
    assert_eq!((view.live(), view.list(1)), (17, &[0, 2, 1][..]));

    let full = words.clone();
    let answer = put(&mut words, 100, 1);
    assert_eq!((answer.refusal, answer.live_before), (5, false));
    assert_eq!(words, full);
    let answer = put(&mut words, 49, 2);
    assert_eq!((answer.refusal, answer.live_before), (0, true));
    assert_eq!(look_up(&words, 49).payload, 2);
    assert!(delete(&mut words, 49).live_before);
    assert_eq!(put(&mut words, 100, 1).refusal, 0);
}

/// "B = 4, below 10 20 30 40 and 60 70 80 90, above a block 50 51 52 53: reused,
/// no write."
#[test]
fn figure_3_reuse() {
    let below = [sets(&[10, 20, 30, 40], 2), sets(&[60, 70, 80, 90], 2)];
    for bottom in [false, true] {
        let merged = merged(&[sets(&[50, 51, 52, 53], 1)], &below, bottom, 1);
        let slots: Vec<_> = merged.lower.iter().map(|block| block.slot).collect();
        assert_eq!(slots, [Some(200), Some(100), Some(201)]);
        assert_eq!((merged.writes(), merged.run.overlap()), (0, 0));
        assert!(merged.upper.is_empty());
    }
}

/// "Above 40 50, below 10 20 30 40: two blocks written, key 40 with the upper
/// payload."
#[test]
fn figure_4_equal_key() {
    for bottom in [false, true] {
        let merged = merged(
            &[sets(&[40, 50], 1)],
            &[sets(&[10, 20, 30, 40], 2)],
            bottom,
            1,
        );
        assert_eq!(merged.writes(), 2);
        assert_eq!(keys(&merged.lower), [vec![10, 20, 30, 40], vec![50]]);
        assert_eq!(merged.lower[0].records[3], set(40, 1040));
    }
}

/// "Marks 40 and 50 onto a lone block 40: in level h nothing remains; above h one
/// block of two marks."
#[test]
fn figure_5_marks() {
    let (above, below) = ([vec![tomb(40), tomb(50)]], [sets(&[40], 2)]);
    let bottom = merged(&above, &below, true, 1);
    assert_eq!((bottom.lower.len(), bottom.writes()), (0, 0));
    let middle = merged(&above, &below, false, 1);
    assert_eq!(middle.lower, [Block::fresh(vec![tomb(40), tomb(50)])]);
}

/// "Above 7, below a lone block 5: one block 5 7, one write."
#[test]
fn figure_6_join() {
    let merged = merged(&[sets(&[7], 1)], &[sets(&[5], 2)], true, 1);
    assert_eq!(keys(&merged.lower), [vec![5, 7]]);
    assert_eq!(merged.writes(), 1);
}

/// "B = 4: 5 records in 2 blocks, not compacted; 16 in 5, not; 15 in 5, compacted
/// to 4."
#[test]
fn figure_7_compaction() {
    assert!(!needs_compaction(4, 2, 5));
    assert!(!needs_compaction(4, 5, 16));
    assert!(needs_compaction(4, 5, 15));
    for (sizes, blocks, writes) in [([3, 3, 3, 3, 3], 4, 4), ([3, 3, 3, 3, 4], 5, 0)] {
        let level: Vec<Vec<Record>> = (0..5u32)
            .map(|block| {
                sets(
                    &Vec::from_iter(10 * block..10 * block + sizes[block as usize]),
                    1,
                )
            })
            .collect();
        let mut words = build(A, &[], &[&level]);
        let mut work = Work::open(&mut words).expect("a store");
        let compaction = work.compact_if_needed(1);
        assert_eq!(
            compaction.map_or(0, |compaction| compaction.writes()),
            writes
        );
        assert_eq!(work.list(1).len(), blocks);
        assert_eq!(work.blocks(1, 0..4).iter().map(Block::len).min(), Some(3));
    }
}

/// "Above 1 2 and 9 10, window 1, below one block 2 9: each overlap 1; 1/2 rounded
/// up is 1."
#[test]
fn figure_8_straddling() {
    let (one, two, below) = (sets(&[1, 2], 1), sets(&[9, 10], 1), [sets(&[2, 9], 2)]);
    for single in [&one, &two] {
        assert_eq!(
            merged(std::slice::from_ref(single), &below, true, 1)
                .run
                .overlap(),
            1
        );
    }
    let both = merged(&[one, two], &below, true, 1);
    assert_eq!((both.run.first, both.run.overlap()), (0, 1));
    let (n, a, w) = (1usize, 2usize, 1usize);
    assert_eq!(n.div_ceil(a / w), 1);
}

/// Figures of our own for readings 5, 9 and 10.
#[test]
fn readings_of_steps_3_and_4() {
    // Reading 10: everything vanishes, the block before joins the block after.
    let below = [sets(&[1, 2, 3], 2), sets(&[5, 6], 2), sets(&[9], 2)];
    let all = merged(&[vec![tomb(5), tomb(6)]], &below, true, 1);
    assert_eq!(
        (keys(&all.lower), all.writes()),
        (vec![vec![1, 2, 3, 9]], 1)
    );
    // Reading 9: leftover with e, then with the block after: one write.
    let three = merged(
        &[sets(&[5], 1)],
        &[sets(&[1, 2], 2), sets(&[9], 2)],
        true,
        1,
    );
    assert_eq!(
        (keys(&three.lower), three.writes()),
        (vec![vec![1, 2, 5, 9]], 1)
    );
    // Reading 5: a block of Y whose first record was beaten can't be reused.
    let beaten = merged(&[sets(&[1, 5], 1)], &[sets(&[5, 6, 7, 8], 2)], true, 1);
    assert_eq!(
        (keys(&beaten.lower), beaten.writes()),
        (vec![vec![1, 5, 6, 7], vec![8]], 2)
    );
}

/// Figures of our own for step 2, the pair rule and tombstones in level h.
#[test]
fn joins_and_tombstones() {
    // Step 2: the neighbours of X hold 4 together and become one new block.
    let above = [sets(&[1, 2], 1), sets(&[11, 12, 13], 1), sets(&[21, 22], 1)];
    let below = [sets(&[0, 3, 4, 5], 2), sets(&[20, 23], 2)];
    let joined = merged(&above, &below, true, 1);
    assert_eq!((joined.run.first, joined.run.overlap()), (1, 0));
    assert_eq!(keys(&joined.upper), [vec![1, 2, 21, 22]]);
    assert_eq!((joined.writes(), joined.lower[1].slot), (1, Some(101)));
    // The pair rule for an empty buffer: 5 6 after e = 1 2 is not reused.
    let pair = merged(
        &[sets(&[5, 6], 1)],
        &[sets(&[1, 2], 2), sets(&[8, 9, 10], 2)],
        true,
        1,
    );
    assert_eq!(keys(&pair.lower), [vec![1, 2, 5, 6], vec![8, 9, 10]]);
    // A block with a tombstone is reused above level h and not in it.
    let marked = [vec![tomb(5), set(6, 1), set(7, 1), set(8, 1)]];
    assert_eq!(merged(&marked, &[], false, 1).lower[0].slot, Some(100));
    assert_eq!(
        merged(&marked, &[], true, 1).lower,
        [Block::fresh(marked[0][1..].to_vec())]
    );
}
