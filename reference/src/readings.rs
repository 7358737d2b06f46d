//! Stores and questions about them for the program `readings`, and the answers
//! that this implementation gives: the input of the program in words, and what it
//! has to print. The program's own file says what a command looks like.

use crate::block::Record;
use crate::borders::{borders, fresh};
use crate::breach::{breaches, Breach};
use crate::calls;
use crate::damage::damaged;
use crate::generate::{Choices, Stream};
use crate::geometry::Geometry;
use crate::layout::{HEADER, LIVE};
use crate::level::View;
use crate::random::Random;
use crate::script::Line;
use crate::unreachable;

/// The seed of the stored test.
pub const STORED: u64 = 1;
/// The words that the program has room for.
pub const ROOM: usize = 4096;
/// The words of the longest random store.
const MOST_WORDS: usize = 2300;

/// A question about the store of a case.
#[derive(Clone, Copy, Debug, PartialEq, Eq)]
pub enum Command {
    Check,
    LookUp(u32),
    Next(u32),
    Show(u32, u32),
    Format([u32; 6]),
    Sum,
}

/// Where a store comes from.
#[derive(Clone, Copy, Debug, PartialEq, Eq, PartialOrd, Ord)]
pub enum Kind {
    /// Reasons 1 to 3.
    Refused,
    /// Formatted and then nothing.
    Fresh,
    /// Formatted and then random puts and deletes.
    History,
    /// A store that no call list reaches.
    Unreachable,
    /// Made for a border of the rules, sound or not.
    Border,
    /// A sound store with any one word changed.
    Word,
    /// A sound store with this clause broken.
    Broken(Breach),
}

/// A store and the questions about it.
#[derive(Clone, Debug)]
pub struct Case {
    pub kind: Kind,
    pub words: Vec<u32>,
    pub commands: Vec<Command>,
}

/// The program's input, in words, and its output.
pub struct Files {
    pub input: Vec<u32>,
    pub output: String,
}

/// The files for these cases.
pub fn files(cases: &[Case]) -> Files {
    let mut room = vec![0; ROOM];
    let mut files = Files {
        input: Vec::new(),
        output: String::new(),
    };
    for case in cases {
        load(&mut files.input, &mut room, &case.words);
        for &command in &case.commands {
            ask(&mut files.input, command);
            let line = answer(&mut room[..case.words.len()], command);
            files.output += &line;
            files.output.push('\n');
        }
    }
    files
}

/// Command l, with the words from the first to the last that differ.
fn load(input: &mut Vec<u32>, room: &mut [u32], words: &[u32]) {
    let differs = |&at: &usize| room[at] != words[at];
    let start = (0..words.len()).find(differs).unwrap_or(0);
    let end = (0..words.len()).rfind(differs).map_or(start, |at| at + 1);
    input.extend([b'l'.into(), words.len() as u32, start as u32]);
    input.push((end - start) as u32);
    input.extend(&words[start..end]);
    room[start..end].copy_from_slice(&words[start..end]);
}

/// The words of a command.
fn ask(input: &mut Vec<u32>, command: Command) {
    match command {
        Command::Check => input.push(b'c'.into()),
        Command::LookUp(key) => input.extend([b'g'.into(), key]),
        Command::Next(key) => input.extend([b'n'.into(), key]),
        Command::Show(level, key) => input.extend([b's'.into(), level, key]),
        Command::Format(numbers) => {
            input.push(b'f'.into());
            input.extend(numbers);
        }
        Command::Sum => input.push(b'w'.into()),
    }
}

/// The line that a command prints, without its line end.
fn answer(words: &mut [u32], command: Command) -> String {
    match command {
        Command::Check => line('c', &[calls::check(words)]),
        Command::LookUp(key) => {
            let answer = calls::look_up(words, key);
            let found = u32::from(answer.found);
            line('g', &[answer.refusal, found, answer.payload])
        }
        Command::Next(key) => {
            let answer = calls::next(words, key);
            let found = u32::from(answer.found);
            line('n', &[answer.refusal, found, answer.key, answer.payload])
        }
        Command::Show(level, key) => line('s', calls::show(words, level, key)),
        Command::Format(numbers) => {
            let answer = calls::format(words, numbers);
            line('f', &[answer.refusal, answer.limit])
        }
        Command::Sum => line('w', &[checksum(words)]),
    }
}

/// A letter and numbers.
fn line(letter: char, numbers: &[u32]) -> String {
    let mut line = letter.to_string();
    for number in numbers {
        line += &format!(" {number}");
    }
    line
}

/// A number that every word, their order and their count matter to.
fn checksum(words: &[u32]) -> u32 {
    let step = |sum: u64, &word: &u32| (sum * 31 + u64::from(word)) % 4294967291;
    words.iter().fold(1, step) as u32
}

/// The cases of a seed.
pub fn cases(seed: u64) -> Vec<Case> {
    let mut random = Random::new(seed);
    let choices = Choices::new(MOST_WORDS);
    let mut cases = refused(&mut random);
    for _ in 0..6 {
        let geometry = choices.pick(&mut random);
        let words = fresh(geometry);
        cases.push(whole(&mut random, Kind::Fresh, words));
    }
    for _ in 0..16 {
        let geometry = choices.pick(&mut random);
        let words = history(&mut random, geometry);
        with_words(&mut random, &mut cases, Kind::History, words, 2);
    }
    for _ in 0..24 {
        let geometry = choices.pick(&mut random);
        let words = unreachable::store(&mut random, geometry);
        with_words(&mut random, &mut cases, Kind::Unreachable, words, 2);
    }
    for words in borders(&mut random) {
        cases.push(whole(&mut random, Kind::Border, words));
    }
    for breach in Breach::ALL {
        for _ in 0..2 {
            broken(&mut random, &choices, breach, &mut cases);
        }
    }
    cases
}

/// A store, and then so many times with one word changed.
fn with_words(
    random: &mut Random,
    cases: &mut Vec<Case>,
    kind: Kind,
    words: Vec<u32>,
    times: usize,
) {
    cases.push(whole(random, kind, words.clone()));
    for _ in 0..times {
        let changed = one_word(random, &words);
        cases.push(some(random, Kind::Word, changed));
    }
}

/// A store with many questions, format last.
fn whole(random: &mut Random, kind: Kind, words: Vec<u32>) -> Case {
    let mut commands = vec![Command::Check];
    let mut keys = vec![0, u32::MAX, random.word()];
    let mut levels = vec![0, 4, u32::MAX];
    if let Ok(view) = View::of(&words) {
        if calls::check(&words) == 0 {
            keys.extend(telling_keys(random, view));
        }
        levels = vec![0, view.geometry.levels() as u32 + 1, u32::MAX];
        levels.extend((1..=view.geometry.levels() as u32).flat_map(|level| [level; 3]));
    }
    for &key in &keys {
        commands.extend([Command::LookUp(key), Command::Next(key)]);
    }
    for level in levels {
        commands.push(Command::Show(level, random.pick(&keys)));
        commands.push(Command::Show(level, random.pick(&keys[2..])));
    }
    commands.push(Command::Sum);
    if random.one_in(3) {
        let numbers = format_numbers(random, &words);
        commands.extend([Command::Format(numbers), Command::Check, Command::Sum]);
    }
    Case {
        kind,
        words,
        commands,
    }
}

/// A store with one question of each kind.
fn some(random: &mut Random, kind: Kind, words: Vec<u32>) -> Case {
    let at = random.below(words.len());
    let key = random.pick(&[0, u32::MAX, words[at]]);
    let level = random.between(0, 3) as u32;
    Case {
        kind,
        words,
        commands: vec![
            Command::Check,
            Command::LookUp(key),
            Command::Next(key),
            Command::Show(level, key),
        ],
    }
}

/// Keys of a sound store that tell something: of puts and of marks in each level,
/// their neighbours, and those between two blocks.
fn telling_keys(random: &mut Random, view: View) -> Vec<u32> {
    let mut keys = Vec::new();
    for level in 0..=view.geometry.levels() {
        let records = records(view, level);
        if records.is_empty() {
            continue;
        }
        for tombstone in [false, true] {
            let of_kind: Vec<Record> = records
                .iter()
                .copied()
                .filter(|record| record.tombstone == tombstone)
                .collect();
            if !of_kind.is_empty() {
                keys.push(random.pick(&of_kind).key);
            }
        }
        let near = random.pick(&records).key;
        keys.push(random.pick(&[near.wrapping_add(1), near.wrapping_sub(1)]));
        keys.push(records[records.len() - 1].key);
        keys.push(records[records.len() - 1].key.wrapping_add(1));
        if level > 0 {
            let span = view.span(random.pick(view.list(level)));
            keys.extend([span.first, span.last, span.last.wrapping_add(1)]);
        }
    }
    keys
}

/// The records of a level of a sound store.
pub fn records(view: View, level: usize) -> Vec<Record> {
    if level == 0 {
        return (0..view.count(0)).map(|at| view.zero_record(at)).collect();
    }
    let blocks = view.list(level).iter();
    blocks.flat_map(|&slot| view.slot(slot).records()).collect()
}

/// What a store is formatted with: its own geometry, or one that does not fit it.
fn format_numbers(random: &mut Random, words: &[u32]) -> [u32; 6] {
    let Ok(view) = View::of(words) else {
        return [4, 1, 2, 4, 1, 40];
    };
    let mut numbers = view.geometry.numbers();
    if random.one_in(3) {
        let at = random.below(6);
        numbers[at] = random.pick(&[0, numbers[at] + 1, numbers[at] - 1, u32::MAX]);
    }
    numbers
}

/// A store after random puts and deletes.
fn history(random: &mut Random, geometry: Geometry) -> Vec<u32> {
    let mut words = fresh(geometry);
    let mut stream = Stream::new(random, geometry, Vec::new());
    let most = 4 * geometry.key_limit() + 40;
    for _ in 0..random.between(most / 8, most) {
        match stream.call(random) {
            Line::Put(key, payload) => {
                calls::put(&mut words, key, payload);
            }
            Line::Delete(key) => {
                calls::delete(&mut words, key);
            }
            _ => {}
        }
    }
    words
}

/// Reasons 1 to 3, in stores and in what format is given.
fn refused(random: &mut Random) -> Vec<Case> {
    let geometries = [
        [4, 1, 2, 4, 1, 40],
        [2, 1, 2, 4, 2, 168],
        [2, 1, 2, 3, 3, 320],
    ];
    let mut stores = vec![Vec::new(), vec![4], vec![0; HEADER], vec![u32::MAX; HEADER]];
    for numbers in geometries {
        let geometry = Geometry::new(numbers).expect("a legal geometry");
        let words = fresh(geometry);
        stores.extend([words[..6].to_vec(), words[..11].to_vec()]);
        stores.extend([words[..12].to_vec(), words[..words.len() - 1].to_vec()]);
        stores.push([words.clone(), vec![0]].concat());
        for at in 0..6 {
            for value in [words[at] + 1, words[at] - 1] {
                let mut words = words.clone();
                words[at] = value;
                stores.push(words);
            }
        }
        let mut words = words.clone();
        words[random.below(6)] = random.pick(&[0, u32::MAX]);
        stores.push(words);
    }
    let mut cases = Vec::new();
    for words in stores {
        let mut case = match words.is_empty() {
            true => whole(random, Kind::Refused, words),
            false => some(random, Kind::Refused, words),
        };
        let length = case.words.len();
        if length < 100 || random.one_in(4) {
            let mut numbers = random.pick(&geometries);
            if random.one_in(2) {
                numbers[random.below(6)] = random.word() >> random.below(32);
            }
            let asked = [Command::Sum, Command::Format(numbers), Command::Sum];
            case.commands.extend(asked);
        }
        cases.push(case);
    }
    cases
}

/// The store with any one word changed, mostly one that the form check reads.
pub fn one_word(random: &mut Random, words: &[u32]) -> Vec<u32> {
    let mut words = words.to_vec();
    let Ok(view) = View::of(&words) else {
        return words;
    };
    let geometry = view.geometry;
    let mut areas = vec![(LIVE, HEADER), (HEADER, geometry.list_at(1))];
    areas.push((geometry.list_at(1), geometry.slots_at()));
    for level in 1..=geometry.levels() {
        for &slot in view.list(level) {
            let at = geometry.slot_at(slot as usize);
            areas.push((at, at + geometry.slot_words()));
        }
    }
    if random.one_in(10) {
        areas = vec![(0, words.len())];
    }
    let (start, end) = random.pick(&areas);
    let at = random.between(start, end - 1);
    let old = words[at];
    let other = words[random.below(end)];
    let bit = old ^ 1 << random.below(32);
    let near = [old.wrapping_add(1), old.wrapping_sub(1), other];
    let far = [0, u32::MAX, bit];
    let value = match random.one_in(2) {
        true => random.pick(&near),
        false => random.pick(&far),
    };
    words[at] = if value == old { bit } else { value };
    words
}

/// Adds a store with this clause broken and, if one of many tries has that, no
/// other one.
fn broken(random: &mut Random, choices: &Choices, breach: Breach, cases: &mut Vec<Case>) {
    let mut best: Option<(usize, Vec<u32>)> = None;
    for _ in 0..300 {
        let geometry = choices.pick(random);
        if geometry.length() > 900 && !random.one_in(8) {
            continue;
        }
        let Some(words) = damaged(random, geometry, breach) else {
            continue;
        };
        let found = breaches(&words);
        let better = best.as_ref().is_none_or(|(count, _)| found.len() < *count);
        if found.contains(&breach) && better {
            best = Some((found.len(), words));
            if found.len() == 1 {
                break;
            }
        }
    }
    if let Some((_, words)) = best {
        cases.push(some(random, Kind::Broken(breach), words));
    }
}
