//! Stores made for the borders of the rules, sound or just not.

use crate::block::{write_slot, Record};
use crate::breach::live_keys;
use crate::calls;
use crate::generate::with_fewest_slots;
use crate::geometry::Geometry;
use crate::layout::{COUNTS, CURSOR, LIVE};
use crate::random::Random;

/// A store as format leaves it.
pub fn fresh(geometry: Geometry) -> Vec<u32> {
    let mut words = vec![7; geometry.length()];
    calls::format(&mut words, geometry.numbers());
    words
}

/// A put.
fn put(key: u32, payload: u32) -> Record {
    Record {
        key,
        payload,
        tombstone: false,
    }
}

/// A mark.
pub fn mark(key: u32) -> Record {
    Record {
        key,
        payload: 0,
        tombstone: true,
    }
}

/// A store of these records in level 0 and these blocks in the levels from 1 on,
/// at random places, the free places full of old words; live is counted.
pub fn compose(
    random: &mut Random,
    geometry: Geometry,
    zero: &[Record],
    levels: &[Vec<Vec<Record>>],
) -> Vec<u32> {
    let mut words = fresh(geometry);
    for word in &mut words[geometry.slots_at()..] {
        *word = random.word() >> random.below(32);
    }
    words[CURSOR] = random.below(geometry.slots()) as u32;
    words[COUNTS] = zero.len() as u32;
    for (index, record) in zero.iter().enumerate() {
        let (page, bit) = (index / geometry.block(), index % geometry.block());
        words[geometry.tombstones_at() + page] |= u32::from(record.tombstone) << bit;
        words[geometry.keys_at() + index] = record.key;
        words[geometry.payloads_at() + index] = record.payload;
    }
    let mut free: Vec<u32> = (0..geometry.slots() as u32).collect();
    for (level, blocks) in (1..).zip(levels) {
        words[COUNTS + level] = blocks.len() as u32;
        for (index, records) in blocks.iter().enumerate() {
            let slot = free.swap_remove(random.below(free.len()));
            write_slot(geometry, &mut words, slot, records);
            words[geometry.list_at(level) + index] = slot;
        }
    }
    words[LIVE] = live_keys(&words) as u32;
    words
}

/// Blocks of these sizes with keys that rise from `first` in steps of `step`.
pub fn sized(sizes: &[usize], first: u32, step: u32, of: fn(u32) -> Record) -> Vec<Vec<Record>> {
    let mut key = first;
    let mut record = || {
        key += step;
        of(key - step)
    };
    let mut block = |&size: &usize| (0..size).map(|_| record()).collect();
    sizes.iter().map(&mut block).collect()
}

/// A put whose payload tells its key.
pub fn plain(key: u32) -> Record {
    put(key, !key)
}

/// Stores at borders of the rules: the waste rules, N, full and empty levels,
/// levels of marks, the least and the greatest key.
pub fn borders(random: &mut Random) -> Vec<Vec<u32>> {
    let a = Geometry::new([4, 1, 2, 4, 1, 40]).expect("geometry A");
    let two = with_fewest_slots([4, 1, 2, 3, 2]).expect("two levels");
    let three = with_fewest_slots([2, 1, 2, 3, 3]).expect("three levels");
    let mut stores = Vec::new();
    let wasted: [&[usize]; 12] = [
        &[1],
        &[1, 4],
        &[2, 2],
        &[2, 3],
        &[4, 1, 4],
        &[4, 1, 3, 4],
        &[4, 1, 3, 4, 4],
        &[4, 3, 3, 3, 3],
        &[3, 3, 3, 3, 3],
        &[4, 4, 4, 4],
        &[4, 4, 4, 4, 1],
        &[4, 4, 4, 4, 2],
    ];
    for sizes in wasted {
        stores.push(compose(random, a, &[], &[sized(sizes, 3, 3, plain)]));
        let upper = sized(sizes, 3, 3, plain);
        stores.push(compose(random, two, &[], &[upper, Vec::new()]));
    }
    // The least and the greatest key as puts and as marks, above each other.
    let ends = [0, 1, u32::MAX - 1, u32::MAX];
    for zero in [vec![], ends.map(plain).to_vec(), ends.map(mark).to_vec()] {
        let other: Vec<Record> = ends.map(mark).to_vec();
        for upper in [vec![], vec![ends.map(plain).to_vec()], vec![other]] {
            let bottom = vec![vec![put(0, 5), put(9, 6), put(u32::MAX, 7)]];
            stores.push(compose(random, two, &zero, &[upper, bottom]));
        }
    }
    // Levels of marks down to level h, all full.
    let pages: Vec<Record> = sized(&[4], 0, 3, mark).concat();
    let marks = [sized(&[2; 6], 1, 2, mark), sized(&[2; 18], 0, 5, mark)];
    let bottom = sized(&[2; 20], 0, 4, plain);
    let levels = [marks[0].clone(), marks[1].clone(), bottom];
    stores.push(compose(random, three, &pages, &levels));
    let levels = [marks[0].clone(), marks[1].clone(), Vec::new()];
    stores.push(compose(random, three, &pages, &levels));
    stores.push(compose(random, three, &[], &levels));
    // Every level full and the map at its limit; then one mark less for a key of
    // level h, and the map is above it.
    let full = with_fewest_slots([5, 1, 2, 3, 3]).expect("three levels");
    for last in [78, 79] {
        let mut zero = sized(&[10], 60, 2, mark).concat();
        zero[9].key = last;
        let upper = [sized(&[5; 6], 0, 2, mark), sized(&[5; 18], 1, 2, mark)];
        let bottom = sized(&[4; 54], 0, 1, plain);
        let levels = [upper[0].clone(), upper[1].clone(), bottom];
        stores.push(compose(random, full, &zero, &levels));
    }
    // The map at its limit.
    stores.push(limited(random, three, 0));
    stores.push(limited(random, two, 0));
    stores.push(limited(random, a, 0));
    stores
}

/// A store of N keys and so many more, all in level h.
pub fn limited(random: &mut Random, geometry: Geometry, more: usize) -> Vec<u32> {
    let (b, keys) = (geometry.block(), geometry.key_limit() + more);
    let mut sizes = vec![b; keys / b];
    if keys % b > 0 {
        sizes.push(keys % b);
    }
    let mut levels = vec![Vec::new(); geometry.levels() - 1];
    let step = random.between(1, 1000) as u32;
    levels.push(sized(&sizes, random.below(1000) as u32, step, plain));
    compose(random, geometry, &[], &levels)
}
