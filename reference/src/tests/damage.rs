//! Each clause of the form check broken once gives 4.

use super::{build, set, sets, tomb};
use crate::block::Record;
use crate::calls::check;
use crate::geometry::Geometry;
use crate::layout::{COUNTS, CURSOR, LIVE};

const A: [u32; 6] = [4, 1, 2, 4, 1, 40];
const TWO: [u32; 6] = [4, 1, 2, 3, 2, 104];

/// A sound store of two levels: c is 3 of 8; level 1 has slots 5, 6 and a
/// tombstone, level 2 has slots 7, 8, 9.
fn sound() -> Vec<u32> {
    let zero = [set(10, 1), tomb(20), set(30, 3)];
    let one = [vec![set(5, 5), tomb(15), set(25, 6)], sets(&[35, 45], 1)];
    let two = [
        sets(&[1, 2, 3, 4], 2),
        sets(&[15, 20], 2),
        sets(&[50, 60, 70, 80], 2),
    ];
    build(TWO, &zero, &[&one, &two])
}

/// The sound store with one word changed.
fn damaged(at: usize, value: u32) -> Vec<u32> {
    let mut words = sound();
    assert_ne!(words[at], value, "word {at} would not change");
    words[at] = value;
    words
}

/// Each of these words damaged in the sound store gives 4.
fn all_get_4(cases: &[(&str, usize, u32)]) {
    assert_eq!(check(&sound()), 0);
    for &(name, at, value) in cases {
        assert_eq!(check(&damaged(at, value)), 4, "{name}");
    }
}

/// Words of the header.
#[test]
fn header() {
    let live = sound()[LIVE];
    all_get_4(&[
        ("live too small", LIVE, live - 1),
        ("live too large", LIVE, live + 1),
        ("live above N", LIVE, 26),
        ("hand = P", CURSOR, 104),
        ("hand greatest", CURSOR, u32::MAX),
        ("c above K(0)×B", COUNTS, 9),
        ("c greatest", COUNTS, u32::MAX),
        ("c too small", COUNTS, 2),
        ("c too large", COUNTS, 4),
        ("count of level 1 above K(1)", COUNTS + 1, 7),
        ("count of level 2 above K(2)", COUNTS + 2, 19),
        ("count of level 2 greatest", COUNTS + 2, u32::MAX),
        ("count of level 1 too small", COUNTS + 1, 1),
        ("count of level 1 too large", COUNTS + 1, 3),
        ("count above h", COUNTS + 3, 1),
    ]);
}

/// Words of level 0 and of the lists.
#[test]
fn level_zero_and_lists() {
    let g = Geometry::new(TWO).expect("a legal geometry");
    let (marks, keys, payloads) = (g.tombstones_at(), g.keys_at(), g.payloads_at());
    all_get_4(&[
        ("equal keys in level 0", keys + 1, 10),
        ("falling keys in level 0", keys + 1, 9),
        ("unused key of level 0", keys + 3, 40),
        ("last unused key of level 0", keys + 7, 40),
        ("unused payload of level 0", payloads + 3, 1),
        ("last unused payload of level 0", payloads + 7, 1),
        ("unused bit of the page", marks, 0b1010),
        ("bit B of the page", marks, 0b10010),
        ("bit 31 of the page", marks, 0b10 | 1 << 31),
        ("bit of an unused page", marks + 1, 1),
        ("payload of a tombstone in level 0", payloads + 1, 1),
        ("listed slot = P", g.list_at(1), 104),
        ("listed slot greatest", g.list_at(2), u32::MAX),
        ("slot twice in a level", g.list_at(1) + 1, 5),
        ("slot twice over levels", g.list_at(2), 5),
        ("unused list entry", g.list_at(1) + 2, 50),
        ("last unused list entry", g.list_at(2) + 17, 50),
        ("slot of a deeper level", g.list_at(1), 7),
        ("slot that is free", g.list_at(1), 4),
    ]);
}

/// Words of the listed blocks; what free slots hold does not matter.
#[test]
fn blocks() {
    let g = Geometry::new(TWO).expect("a legal geometry");
    let (one, other, bottom) = (g.slot_at(5), g.slot_at(6), g.slot_at(7));
    all_get_4(&[
        ("no record", one, 0),
        ("B + 1 records", one, 5),
        ("greatest count", one, u32::MAX),
        ("count too small", one, 2),
        ("count too large", one, 4),
        ("unused bit", one + 1, 0b1010),
        ("bit B", one + 1, 0b10010),
        ("bit 31", one + 1, 0b10 | 1 << 31),
        ("tombstone in level h", bottom + 1, 1),
        ("equal keys in a block", one + 3, 5),
        ("falling keys in a block", one + 3, 4),
        ("equal keys across blocks", other + 2, 25),
        ("falling keys across blocks", other + 2, 24),
        ("unused key", one + 5, 30),
        ("unused payload", one + 9, 1),
        ("payload of a tombstone", one + 7, 1),
    ]);
    let mut tombstone_below = damaged(bottom + 1, 1);
    tombstone_below[bottom + 6] = 0;
    tombstone_below[LIVE] -= 1;
    assert_eq!(
        check(&tombstone_below),
        4,
        "tombstone in level h, all else right"
    );
    for slot in [0, 4, 10, 103] {
        for at in g.slot_at(slot)..g.slot_at(slot + 1) {
            assert_eq!(check(&damaged(at, u32::MAX)), 0, "free slot {slot}");
        }
    }
}

/// Blocks of these sizes, with rising keys.
fn sized(sizes: &[usize]) -> Vec<Vec<Record>> {
    let mut key = 0;
    let mut block = |&size: &usize| {
        let keys: Vec<u32> = (0..size as u32).map(|index| key + index).collect();
        key += size as u32;
        sets(&keys, 1)
    };
    sizes.iter().map(&mut block).collect()
}

/// The waste rules and N, each at its border, all else right.
#[test]
fn waste_rules_and_limit() {
    let cases: [(&[usize], u32); 12] = [
        (&[], 0),
        (&[1], 0),
        (&[1, 4], 0),
        (&[2, 2], 4),
        (&[2, 3], 0),
        (&[4, 1, 4], 0),
        (&[4, 1, 3, 4], 4),
        (&[4, 3, 3, 3, 3], 0),
        (&[3, 3, 3, 3, 3], 4),
        (&[4, 4, 4, 4], 0),
        (&[4, 4, 4, 4, 1], 0),
        (&[4, 4, 4, 4, 2], 4),
    ];
    for (sizes, answer) in cases {
        let words = build(A, &[], &[&sized(sizes)]);
        assert_eq!(check(&words), answer, "{sizes:?}");
    }
}
