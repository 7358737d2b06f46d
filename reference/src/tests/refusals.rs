//! "Why a call is turned down": each number, in order, with every word unchanged.

use super::{seed, sets};
use crate::calls::*;
use crate::generate::Choices;
use crate::layout::LIVE;
use crate::random::Random;
use crate::unreachable;

const A: [u32; 6] = [4, 1, 2, 4, 1, 40];

/// Every call that changes nothing is turned down for this reason, with zeros for
/// answers.
fn reads_refuse(lent: &[u32], key: u32, refusal: u32) {
    assert_eq!(check(lent), refusal);
    let found = Found {
        refusal,
        ..Found::default()
    };
    assert_eq!(look_up(lent, key), found);
    let none = Next {
        refusal,
        ..Next::default()
    };
    assert_eq!(next(lent, key), none);
    let nothing = About {
        refusal,
        ..About::default()
    };
    assert_eq!(about(lent), nothing);
    let (mut keys, mut payloads) = ([8; 3], [9; 2]);
    let unwritten = Stretched {
        refusal,
        ..Stretched::default()
    };
    let stretched = stretch(lent, key, u32::MAX, &mut keys, &mut payloads);
    assert_eq!(stretched, unwritten);
    assert_eq!((keys, payloads), ([8; 3], [9; 2]));
    let (reason, merges) = (refusal, 0);
    assert_eq!(will_put_merge(lent, key), Forecast { reason, merges });
    assert_eq!(will_delete_merge(lent, key), Forecast { reason, merges });
    for level in [0, 1, 2, 3, 4, u32::MAX] {
        assert!(show(lent, level, key).is_empty());
    }
}

/// Every call but format on a lent store is turned down for this reason, with
/// zeros for answers and every word unchanged.
fn all_refuse(words: &[u32], refusal: u32) {
    let mut lent = words.to_vec();
    for key in [0, 1, 10, 20, u32::MAX] {
        reads_refuse(&lent, key, refusal);
        let refused = (
            Changed {
                refusal,
                ..Changed::default()
            },
            Vec::new(),
        );
        assert_eq!(put_listed(&mut lent, key, 5), refused);
        assert_eq!(delete_listed(&mut lent, key), refused);
        assert_eq!(put(&mut lent, key, 5), refused.0);
        assert_eq!(delete(&mut lent, key), refused.0);
    }
    assert_eq!(lent, words);
}

/// A sound store of geometry A with five keys.
fn sound() -> Vec<u32> {
    super::build(
        A,
        &sets(&[10, 30], 0),
        &[&[sets(&[10, 20, 40], 1), sets(&[50, 60], 1)]],
    )
}

/// Refusals 1 to 4 and their order: a store with several faults gets the first.
#[test]
fn one_to_four_in_order() {
    let sound = sound();
    assert_eq!(check(&sound), 0);
    for length in 0..12 {
        all_refuse(&sound[..length], 1);
        all_refuse(&vec![u32::MAX; length], 1);
    }
    let mut broken = sound.clone();
    broken[0] = 1;
    all_refuse(&broken, 2);
    all_refuse(&broken[..12], 2);
    all_refuse(&[0; 12], 2);
    all_refuse(&[u32::MAX; 438], 2);
    broken = sound.clone();
    broken[LIVE] = 16;
    all_refuse(&broken[..437], 3);
    all_refuse(&sound[..12], 3);
    all_refuse(&[&sound[..], &[0]].concat(), 3);
    all_refuse(&broken, 4);
}

/// Format: 1, then 2, then 3, whatever the old words are (reading 17).
#[test]
fn format_in_order() {
    let refuses = |length: usize, numbers, refusal| {
        let mut lent = vec![9; length];
        assert_eq!(format(&mut lent, numbers), Formatted { refusal, limit: 0 });
        assert_eq!(lent, vec![9; length]);
    };
    for length in 0..12 {
        refuses(length, A, 1);
        refuses(length, [0; 6], 1);
    }
    for length in [12, 437, 438, 439] {
        refuses(length, [4, 1, 2, 4, 1, 39], 2);
        refuses(length, [u32::MAX; 6], 2);
        if length != 438 {
            refuses(length, A, 3);
        }
    }
    let mut lent = vec![9; 438];
    assert_eq!(
        format(&mut lent, A),
        Formatted {
            refusal: 0,
            limit: 17
        }
    );
    let mut expected = vec![0; 438];
    expected[..6].copy_from_slice(&A);
    expected[7] = 39;
    assert_eq!(lent, expected);
    assert_eq!(check(&lent), 0);
}

/// Refusal 5: only a put of a key not in the map while live = N, also where level
/// 0 holds the key as a tombstone (reading 18).
#[test]
fn five() {
    let mut words = vec![0; 438];
    format(&mut words, A);
    for key in 0..17 {
        let answer = put(&mut words, key, 1);
        assert_eq!((answer.refusal, answer.live_before), (0, false));
        assert_eq!(
            answer.levels[0].merges,
            u32::from(key == 8 || key == 12 || key == 16)
        );
    }
    let full = words.clone();
    let five = (
        Changed {
            refusal: 5,
            ..Changed::default()
        },
        Vec::new(),
    );
    assert_eq!(put_listed(&mut words, 17, 1), five);
    assert_eq!(put_listed(&mut words, u32::MAX, 1), five);
    assert_eq!(words, full);
    assert!(delete(&mut words, 16).live_before);
    assert_eq!(put(&mut words, 20, 1).refusal, 0);
    let full = words.clone();
    assert_eq!(put_listed(&mut words, 16, 1), five);
    assert_eq!(words, full);
    assert_eq!(
        delete_listed(&mut words, 99),
        (Changed::default(), Vec::new())
    );
    assert_eq!(words, full);
    assert_eq!(put(&mut words, 0, 8).refusal, 0);
    assert_eq!(look_up(&words, 0).payload, 8);
}

/// Show gives the 2 + 2B words of the block as a part of the caller's slice, also
/// for a key between its keys, and is empty elsewhere (reading 20).
#[test]
fn show_is_a_part_of_the_store() {
    let words = sound();
    for (key, slot) in [
        (10, 5),
        (11, 5),
        (20, 5),
        (40, 5),
        (50, 6),
        (55, 6),
        (60, 6),
    ] {
        let part = show(&words, 1, key);
        let at = 438 - (40 - slot) * 10;
        assert!(std::ptr::eq(part, &words[at..at + 10]), "{key}");
    }
    for (level, key) in [
        (1, 9),
        (1, 41),
        (1, 49),
        (1, 61),
        (0, 10),
        (2, 10),
        (u32::MAX, 10),
    ] {
        assert!(show(&words, level, key).is_empty());
    }
}

/// Stores of any length and content: no call panics, and a refusal leaves every
/// word. Random words, then sound stores with one damaged word.
#[test]
fn any_words() {
    let mut random = Random::new(seed());
    let choices = Choices::new(3000);
    let mut found = [0; 5];
    for round in 0..3000 {
        let mut words: Vec<u32>;
        if round % 5 == 0 {
            words = (0..random.below(600))
                .map(|_| random.word() >> random.below(32))
                .collect();
            let some = words.len().min(6);
            words[..some].copy_from_slice(&A[..some]);
        } else {
            let geometry = choices.pick(&mut random);
            words = unreachable::store(&mut random, geometry);
            assert_eq!(check(&words), 0, "{:?}", geometry.numbers());
            let reach = random.pick(&[12, geometry.slots_at(), words.len()]);
            let at = random.below(reach);
            words[at] = match random.below(3) {
                0 => words[at].wrapping_add(1),
                1 => random.below(20) as u32,
                _ => random.word() >> random.below(32),
            };
        }
        let refusal = check(&words);
        found[refusal as usize] += 1;
        if refusal > 0 {
            all_refuse(&words, refusal);
        } else {
            one_of_each(&mut words, &mut random);
        }
    }
    println!("answers of check on damaged stores: {found:?}");
    assert!(found.iter().skip(2).all(|&count| count > 0));
}

/// Every call once on a store that passed the check, which then still passes.
fn one_of_each(words: &mut [u32], random: &mut Random) {
    let key = random.word();
    look_up(words, key);
    next(words, key);
    show(words, 1, key);
    stretch(words, key, u32::MAX, &mut [0; 3], &mut [0; 2]);
    assert_eq!(about(words).live, words[LIVE]);
    put(words, key, 1);
    assert_eq!(check(words), 0);
    delete(words, key);
    assert_eq!(check(words), 0);
}
