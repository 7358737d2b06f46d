//! About: "the reason, or the six numbers, live, N, the records in level 0 and the
//! blocks of each level."

use super::{build, seed, set, sets, tomb};
use crate::calls::{self, check, delete, format, put, About};
use crate::fast;
use crate::generate::Choices;
use crate::random::Random;
use crate::unreachable;

const A: [u32; 6] = [4, 1, 2, 4, 1, 40];

/// Both implementations say this of a store.
fn says(words: &[u32], right: About) {
    assert_eq!(calls::about(words), right);
    assert_eq!(fast::about(words), right);
}

/// Geometry A with these numbers.
fn says_a(words: &[u32], live: u32, top: u32, blocks: u32) {
    let right = About {
        refusal: 0,
        numbers: A,
        live,
        limit: 17,
        top,
        blocks: [blocks, 0, 0],
    };
    says(words, right);
}

/// The store of the starred puts, then on to its limit and back: the numbers are
/// those that document 01's bench figures tell.
#[test]
fn figures_of_geometry_a() {
    let mut words = vec![7; 438];
    format(&mut words, A);
    says_a(&words, 0, 0, 0);
    for (before, key) in (0..).zip((10..=80).step_by(10)) {
        says_a(&words, before, before, 0);
        put(&mut words, key, 1);
    }
    // "Put 90: keys 10 to 40 go to place 0."
    says_a(&words, 8, 8, 0);
    put(&mut words, 90, 1);
    says_a(&words, 9, 5, 1);
    // "Then 15, 25, 35, 45: the fourth merges 60 to 90."
    for (more, key) in [(1, 15), (2, 25), (3, 35)] {
        put(&mut words, key, 1);
        says_a(&words, 9 + more, 5 + more, 1);
    }
    put(&mut words, 45, 1);
    says_a(&words, 13, 5, 2);
    // "Then 46, 47, 48, 49: 49 merges 46, 47, 48, 50; live 17."
    for key in [46, 47, 48] {
        put(&mut words, key, 1);
    }
    says_a(&words, 16, 8, 2);
    put(&mut words, 49, 1);
    says_a(&words, 17, 5, 3);
    // "Put 100 gets 5; put 49 doesn't."
    assert_eq!(put(&mut words, 100, 1).refusal, 5);
    says_a(&words, 17, 5, 3);
    assert_eq!(put(&mut words, 49, 2).refusal, 0);
    says_a(&words, 17, 5, 3);
    // A key of level 0 becomes a mark there, one of level 1 gets a mark above it.
    delete(&mut words, 49);
    says_a(&words, 16, 5, 3);
    delete(&mut words, 10);
    says_a(&words, 15, 6, 3);
    delete(&mut words, 11);
    says_a(&words, 15, 6, 3);
}

/// Two and three levels, each with its own number of blocks, over the same keys.
#[test]
fn blocks_of_each_level() {
    let blocks = |starts: &[u32], origin| -> Vec<_> {
        let block = |&key: &u32| sets(&[key, key + 1, key + 2, key + 3], origin);
        starts.iter().map(block).collect()
    };
    let zero = [set(5, 1), tomb(10), tomb(900)];
    let (one, two) = (blocks(&[10, 20], 1), blocks(&[10, 20, 30], 2));
    // Keys 5, 11 to 13, 20 to 23, 30 to 33.
    let words = build([4, 1, 2, 3, 2, 104], &zero, &[&one, &two]);
    let right = About {
        refusal: 0,
        numbers: [4, 1, 2, 3, 2, 104],
        live: 12,
        limit: 25,
        top: 3,
        blocks: [2, 3, 0],
    };
    says(&words, right);

    let three = blocks(&[10, 20, 30, 40, 50], 3);
    let numbers = [4, 1, 2, 8, 3, 8192];
    let words = build(numbers, &zero, &[&one, &[], &three]);
    // K(0) to K(3) are 2, 16, 128 and 1,024; N is 3,276 − 4 × 146.
    let right = About {
        refusal: 0,
        numbers,
        live: 20,
        limit: 2692,
        top: 3,
        blocks: [2, 0, 5],
    };
    says(&words, right);
}

/// Stores that no call list reaches: level 0 full of marks for keys that exist
/// nowhere, an empty store with old words in its places, a level without a level
/// above it.
#[test]
fn stores_that_no_call_list_reaches() {
    let marks: Vec<_> = (1..=8).map(tomb).collect();
    says_a(&build(A, &marks, &[]), 0, 8, 0);

    let mut words = build(A, &[], &[]);
    words[38..].fill(9);
    says_a(&words, 0, 0, 0);

    let lone = [sets(&[1], 1)];
    says_a(&build(A, &[], &[&lone]), 1, 0, 1);

    let full = [sets(&[10, 11, 12, 13], 1), sets(&[20, 21, 22, 23], 1)];
    says_a(&build(A, &marks, &[&full]), 8, 8, 2);
}

/// What about says of a store, from the layout's words alone and from its map.
fn counted(words: &[u32]) -> About {
    let mut numbers = [0; 6];
    numbers.copy_from_slice(&words[..6]);
    let [b, w, d, g, h, _] = numbers;
    let capacity = |level| w * d * g.pow(level);
    let above: u32 = (0..h).map(capacity).sum();
    About {
        refusal: 0,
        numbers,
        live: unreachable::map(words).len() as u32,
        limit: 4 * b * capacity(h) / 5 - b * above,
        top: words[8],
        blocks: [words[9], words[10], words[11]],
    }
}

/// Random stores, one in two damaged: the numbers, or the reason of check and zeros.
#[test]
fn random_stores() {
    let mut random = Random::new(seed() ^ 0x6666);
    let choices = Choices::new(6000);
    let (mut reasons, mut levels) = ([0; 5], [0; 3]);
    for round in 0..4000 {
        let geometry = choices.pick(&mut random);
        let mut words = unreachable::store(&mut random, geometry);
        if round % 2 == 1 {
            let reach = random.pick(&[6, 12, geometry.slots_at(), words.len()]);
            let at = random.below(reach);
            words[at] = random.pick(&[words[at] ^ 1, words[at].wrapping_add(1), 0, u32::MAX]);
        }
        match random.below(30) {
            0 => words.truncate(random.below(13)),
            1 => words.truncate(random.below(words.len())),
            2 => words.push(0),
            _ => {}
        }
        let refusal = check(&words);
        reasons[refusal as usize] += 1;
        let right = match refusal {
            0 => counted(&words),
            _ => About {
                refusal,
                ..About::default()
            },
        };
        says(&words, right);
        levels[0] += usize::from(right.blocks[0] > 0);
        levels[1] += usize::from(right.blocks[1] > 0);
        levels[2] += usize::from(right.blocks[2] > 0);
    }
    println!("reasons {reasons:?}, stores with blocks in levels 1, 2, 3: {levels:?}");
    assert!(reasons.iter().all(|&stores| stores > 0));
    assert!(levels.iter().all(|&stores| stores > 100));
}
