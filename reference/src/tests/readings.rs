//! The stored test of the program `readings` has every kind of case: nothing else
//! would tell if a change of the generator lost one.

use super::seed;
use crate::breach::{breaches, Breach};
use crate::calls;
use crate::generate::Choices;
use crate::level::View;
use crate::random::Random;
use crate::readings::{cases, files, one_word, records, Case, Command, Kind, ROOM, STORED};
use crate::unreachable;
use std::collections::BTreeMap;

/// How often each thing was met.
type Counts = BTreeMap<String, usize>;

/// Counts a thing if it was met.
fn note(counts: &mut Counts, met: bool, thing: &str) {
    *counts.entry(thing.to_string()).or_insert(0) += usize::from(met);
}

/// Each of these is not 0.
fn all_met(counts: &Counts) {
    println!("{counts:#?}");
    let lost: Vec<&String> = counts
        .iter()
        .filter(|(_, &count)| count == 0)
        .map(|(thing, _)| thing)
        .collect();
    assert!(lost.is_empty(), "no case has {lost:?}");
}

/// The clauses one by one agree with the form check as a whole, in the cases and
/// in many stores with one word changed.
#[test]
fn clauses_agree_with_the_form_check() {
    let mut random = Random::new(seed());
    let choices = Choices::new(2300);
    let mut stores: Vec<Vec<u32>> = cases(seed()).into_iter().map(|case| case.words).collect();
    for _ in 0..300 {
        let geometry = choices.pick(&mut random);
        let words = unreachable::store(&mut random, geometry);
        stores.extend((0..20).map(|_| one_word(&mut random, &words)));
        stores.push(words);
    }
    for words in stores {
        let refused = calls::check(&words);
        let broken = breaches(&words);
        assert_eq!(refused == 4, !broken.is_empty(), "{refused} {broken:?}");
    }
}

/// Every clause is broken in a case; all but one also in one where no other is: a
/// block with no record breaks a waste rule too.
#[test]
fn every_clause_is_broken() {
    let cases = cases(STORED);
    let mut counts = Counts::new();
    for breach in Breach::ALL {
        let broken = |case: &&Case| breaches(&case.words).contains(&breach);
        let alone = |case: &&Case| breaches(&case.words) == [breach];
        let made = |case: &&Case| case.kind == Kind::Broken(breach);
        note_count(
            &mut counts,
            format!("{breach:?}"),
            cases.iter().filter(broken),
        );
        let made = cases.iter().filter(made).filter(broken);
        note_count(&mut counts, format!("{breach:?} made"), made);
        if breach != Breach::NoRecord {
            let alone = cases.iter().filter(alone);
            note_count(&mut counts, format!("{breach:?} alone"), alone);
        }
    }
    all_met(&counts);
}

/// Notes how many there are.
fn note_count<'a>(counts: &mut Counts, thing: String, cases: impl Iterator<Item = &'a Case>) {
    counts.insert(thing, cases.count());
}

/// Every answer of every call is met, and every kind of store.
#[test]
fn every_answer_is_met() {
    let mut counts = Counts::new();
    let cases = cases(STORED);
    for case in &cases {
        let refusal = calls::check(&case.words);
        for number in 0..=4 {
            note(&mut counts, refusal == number, &format!("check {number}"));
        }
        let kinds = [
            Kind::Refused,
            Kind::Fresh,
            Kind::History,
            Kind::Unreachable,
            Kind::Border,
            Kind::Word,
        ];
        for kind in kinds {
            note(&mut counts, case.kind == kind, &format!("{kind:?}"));
        }
        let sound = case.kind == Kind::Word && refusal == 0;
        note(&mut counts, sound, "a word changed that is not read");
        if let Ok(view) = View::of(&case.words) {
            if refusal == 0 {
                note_store(&mut counts, view);
            }
        }
        let mut words = case.words.clone();
        for &command in &case.commands {
            note_answer(&mut counts, &mut words, command);
        }
        assert!(words.len() <= ROOM);
    }
    all_met(&counts);
    let bytes = 4 * files(&cases).input.len();
    assert!(bytes < 1_000_000, "{bytes} bytes");
}

/// What a sound store is like.
fn note_store(counts: &mut Counts, view: View) {
    let (geometry, h) = (view.geometry, view.geometry.levels());
    for levels in 1..=3 {
        note(counts, h == levels, &format!("h = {levels}"));
    }
    let limit = geometry.key_limit();
    note(counts, view.live() == 0, "live = 0");
    note(counts, view.live() == limit, "live = N");
    note(counts, view.count(0) == 0, "c = 0");
    let full = view.count(0) == geometry.level_zero_records();
    note(counts, full, "level 0 full");
    for level in 0..=h {
        let records = records(view, level);
        let marks = records.iter().filter(|record| record.tombstone).count();
        let all = marks > 0 && marks == records.len();
        if level == 0 {
            note(counts, all, "level 0 all marks");
            continue;
        }
        let blocks = view.count(level);
        note(counts, blocks == 0, &format!("level {level} empty"));
        let full = blocks == geometry.capacity(level);
        note(counts, full, &format!("level {level} full"));
        if level < h {
            note(counts, all, &format!("level {level} all marks"));
            let above = blocks == 0 && view.count(level + 1) > 0;
            note(counts, above, "an empty level above one that is not");
        }
    }
}

/// What a call answers; format changes the words.
fn note_answer(counts: &mut Counts, words: &mut [u32], command: Command) {
    let refusal = calls::check(words);
    match command {
        Command::LookUp(key) => {
            for number in 0..=4 {
                note(counts, refusal == number, &format!("look up {number}"));
            }
            if let (0, Ok(view)) = (refusal, View::of(words)) {
                note_look_up(counts, view, key);
            }
        }
        Command::Next(key) => {
            let answer = calls::next(words, key);
            for number in 0..=4 {
                note(counts, answer.refusal == number, &format!("next {number}"));
            }
            let at = answer.found.then_some(answer.key);
            note(counts, refusal == 0 && at.is_none(), "next none");
            note(counts, at == Some(key), "next is the key itself");
            note(counts, at.is_some_and(|at| at > key), "next is above");
            note(counts, at == Some(0), "next is 0");
            note(counts, at == Some(u32::MAX), "next is the greatest key");
            let last = refusal == 0 && key == u32::MAX && at.is_none();
            note(counts, last, "next of the greatest key is none");
            if let (0, Ok(view)) = (refusal, View::of(words)) {
                let first = view.newest_from(key).next();
                let passed = first.is_some_and(|record| record.tombstone);
                note(counts, passed, "next passes a mark");
            }
        }
        Command::Show(level, key) => note_show(counts, words, level, key),
        Command::Format(numbers) => {
            let answer = calls::format(words, numbers);
            for number in 0..=3 {
                let thing = format!("format {number}");
                note(counts, answer.refusal == number, &thing);
            }
            let mended = refusal == 4 && answer.refusal == 0;
            note(counts, mended, "format of a store with a breach");
        }
        Command::Check | Command::Sum => {}
    }
}

/// Which record decides for a key.
fn note_look_up(counts: &mut Counts, view: View, key: u32) {
    let levels = 0..=view.geometry.levels();
    let found: Vec<usize> = levels
        .filter(|&level| view.find(level, key).is_some())
        .collect();
    let decides = found.first().and_then(|&level| view.find(level, key));
    let mark = decides.is_some_and(|record| record.tombstone);
    let put = decides.is_some_and(|record| !record.tombstone);
    note(counts, decides.is_none(), "look up: no record");
    note(
        counts,
        mark && found.len() > 1,
        "look up: a mark over a record",
    );
    note(
        counts,
        put && found.len() > 1,
        "look up: a put over a record",
    );
    for (name, edge) in [("0", 0), ("greatest key", u32::MAX)] {
        note(counts, put && key == edge, &format!("look up: put {name}"));
        note(
            counts,
            mark && key == edge,
            &format!("look up: mark {name}"),
        );
        let absent = decides.is_none() && key == edge;
        note(counts, absent, &format!("look up: no {name}"));
    }
    for level in 0..=3 {
        let here = found.first() == Some(&level);
        note(
            counts,
            here && put,
            &format!("look up: put in level {level}"),
        );
        if level < 3 {
            let thing = format!("look up: mark in level {level}");
            note(counts, here && mark, &thing);
        }
    }
}

/// What show gives.
fn note_show(counts: &mut Counts, words: &[u32], level: u32, key: u32) {
    let part = calls::show(words, level, key);
    let refusal = calls::check(words);
    for number in 0..=4 {
        note(counts, refusal == number, &format!("show {number}"));
    }
    let (0, Ok(view)) = (refusal, View::of(words)) else {
        return;
    };
    let h = view.geometry.levels() as u32;
    note(counts, level == 0, "show: level 0");
    note(counts, level > h, "show: a level above h");
    if !(1..=h).contains(&level) {
        return;
    }
    for shown in 1..=3 {
        let thing = format!("show: a block of level {shown}");
        note(counts, level == shown && !part.is_empty(), &thing);
    }
    let has = view.find(level as usize, key).is_some();
    note(counts, !part.is_empty() && has, "show: a key of the block");
    note(
        counts,
        !part.is_empty() && !has,
        "show: a key within the block",
    );
    let blocks = view.count(level as usize);
    let next = view.first_block(level as usize, key);
    note(counts, blocks == 0, "show: an empty level");
    let between = part.is_empty() && 0 < next && next < blocks;
    note(counts, between, "show: between two blocks");
    let before = part.is_empty() && blocks > 0 && next == 0;
    note(counts, before, "show: before the first block");
    let after = part.is_empty() && blocks > 0 && next == blocks;
    note(counts, after, "show: after the last block");
}
