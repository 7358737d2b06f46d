//! Random call lists for the call list program: many geometries, key patterns
//! and phases of filling and emptying, on request with unreadable lines.

use crate::geometry::Geometry;
use crate::random::Random;
use crate::script::{Line, WORDS};
use std::collections::BTreeMap;

/// Every legal `[B, w, d, G, h, P]` with the fewest slots, P = 4S + 8, whose
/// store has at most `most_words` words.
pub fn legal_geometries(most_words: usize) -> Vec<Geometry> {
    let mut legal = Vec::new();
    for b in Geometry::BLOCK {
        for w in Geometry::WINDOW {
            for d in Geometry::WINDOWS {
                for g in Geometry::GROWTH {
                    for h in Geometry::LEVELS {
                        let geometry = with_fewest_slots([b, w, d, g, h]);
                        legal.extend(geometry.filter(|g| g.length() <= most_words));
                    }
                }
            }
        }
    }
    legal
}

/// The geometry with P = 4S + 8, if that is legal.
pub fn with_fewest_slots([b, w, d, g, h]: [usize; 5]) -> Option<Geometry> {
    let s: usize = (1..=h).map(|level| w * d * g.pow(level as u32)).sum();
    Geometry::new([b, w, d, g, h, 4 * s + 8].map(|n| n as u32))
}

/// Legal geometries to choose from, by number of levels, small ones first.
pub struct Choices {
    by_levels: [Vec<Geometry>; 3],
    most_words: usize,
}

impl Choices {
    /// All legal geometries whose store has at most `most_words` words.
    pub fn new(most_words: usize) -> Choices {
        let mut by_levels: [Vec<Geometry>; 3] = Default::default();
        for geometry in legal_geometries(most_words) {
            by_levels[geometry.levels() - 1].push(geometry);
        }
        for list in &mut by_levels {
            list.sort_by_key(|geometry| (geometry.key_limit(), geometry.length()));
        }
        Choices {
            by_levels,
            most_words,
        }
    }

    /// A random geometry, of 1, 2 or 3 levels equally often, more often a small
    /// one, with a random number of slots.
    pub fn pick(&self, random: &mut Random) -> Geometry {
        let list = &self.by_levels[random.below(3)];
        let reach = list.len() / random.pick(&[1, 4, 16, 64]);
        let [b, w, d, g, h, fewest] = list[random.below(reach.max(1))].numbers();
        let words = 2 + 2 * b as usize;
        let rest = self.most_words - list_length([b, w, d, g, h, fewest]);
        let most = (fewest as usize + rest / words).min(Geometry::MOST_SLOTS);
        let p = match random.below(4) {
            0 => most,
            1 => random.between(fewest as usize, most),
            _ => fewest as usize,
        };
        Geometry::new([b, w, d, g, h, p as u32]).unwrap_or(list[0])
    }
}

/// The length of a legal geometry's store.
fn list_length(numbers: [u32; 6]) -> usize {
    Geometry::new(numbers).map_or(0, Geometry::length)
}

/// How new keys are drawn.
#[derive(Clone, Copy, Debug, PartialEq, Eq)]
pub enum Pattern {
    /// From a range little larger than the key limit.
    Dense,
    /// From all words.
    Sparse,
    /// Each above the one before.
    Rising,
    /// Each below the one before.
    Falling,
    /// Around a few centres.
    Clustered,
    /// Near 0 and 4294967295.
    Edges,
}

/// A source of keys of one pattern.
#[derive(Clone, Debug)]
pub struct Keys {
    pattern: Pattern,
    range: usize,
    last: u32,
    centres: [u32; 4],
}

impl Keys {
    /// A random pattern for a store of key limit `limit`.
    pub fn new(random: &mut Random, limit: usize) -> Keys {
        use Pattern::*;
        let pattern = random.pick(&[Dense, Dense, Sparse, Rising, Falling, Clustered, Edges]);
        let range = limit + limit / random.between(1, 3) + 3;
        let centres = [0; 4].map(|_: u32| random.word());
        let last = match pattern {
            Rising => random.below(1000) as u32,
            Falling => u32::MAX - random.below(1000) as u32,
            _ => 0,
        };
        Keys {
            pattern,
            range,
            last,
            centres,
        }
    }

    /// The next key; 0 and 4294967295 come in every pattern.
    pub fn draw(&mut self, random: &mut Random) -> u32 {
        if random.one_in(40) {
            return random.pick(&[0, u32::MAX]);
        }
        match self.pattern {
            Pattern::Dense => random.below(self.range) as u32,
            Pattern::Sparse => random.word(),
            Pattern::Rising => {
                self.last = self.last.wrapping_add(random.between(1, 9) as u32);
                self.last
            }
            Pattern::Falling => {
                self.last = self.last.wrapping_sub(random.between(1, 9) as u32);
                self.last
            }
            Pattern::Clustered => {
                let offset = random.below(self.range / 2 + 2) as u32;
                random.pick(&self.centres).wrapping_add(offset)
            }
            Pattern::Edges => {
                let offset = random.below(self.range) as u32;
                random.pick(&[offset, u32::MAX - offset])
            }
        }
    }
}

/// What a stretch of calls mostly does.
#[derive(Clone, Copy, Debug, PartialEq, Eq)]
enum Phase {
    Fill,
    Churn,
    Empty,
    Overwrite,
}

/// A random stream of calls on one store, which knows the keys in the map.
#[derive(Clone, Debug)]
pub struct Stream {
    limit: usize,
    keys: Keys,
    phase: Phase,
    left: usize,
    live: Vec<u32>,
    at: BTreeMap<u32, usize>,
}

impl Stream {
    /// A stream for a store of this geometry with these keys in its map. An empty
    /// store is filled first.
    pub fn new(random: &mut Random, geometry: Geometry, live: Vec<u32>) -> Stream {
        let limit = geometry.key_limit();
        let keys = Keys::new(random, limit);
        let at = live
            .iter()
            .enumerate()
            .map(|(index, &key)| (key, index))
            .collect();
        let left = if live.is_empty() { 2 * limit + 20 } else { 0 };
        Stream {
            limit,
            keys,
            phase: Phase::Fill,
            left,
            live,
            at,
        }
    }

    /// The next call, a put, delete or look up.
    pub fn call(&mut self, random: &mut Random) -> Line {
        if self.left == 0 {
            self.change_phase(random);
        }
        self.left -= 1;
        let (puts, deletes) = match self.phase {
            Phase::Fill => (90, 4),
            Phase::Churn => (46, 46),
            Phase::Empty => (12, 80),
            Phase::Overwrite => (85, 10),
        };
        let line = match random.below(100) {
            n if n < puts => {
                let known = if self.phase == Phase::Overwrite {
                    90
                } else {
                    12
                };
                Line::Put(self.key(random, known), random.word() >> random.below(32))
            }
            n if n < puts + deletes => Line::Delete(self.key(random, 85)),
            _ => Line::Get(self.key(random, 60)),
        };
        self.note(line);
        line
    }

    /// On to another phase and sometimes another key pattern.
    fn change_phase(&mut self, random: &mut Random) {
        let phases = [Phase::Fill, Phase::Churn, Phase::Empty, Phase::Overwrite];
        self.phase = random.pick(&phases);
        self.left = random.between(1, self.limit + 20);
        if random.one_in(2) {
            self.keys = Keys::new(random, self.limit);
        }
    }

    /// A key of the map in `known` of 100 times, else a drawn one.
    fn key(&mut self, random: &mut Random, known: usize) -> u32 {
        if !self.live.is_empty() && random.below(100) < known {
            return random.pick(&self.live);
        }
        self.keys.draw(random)
    }

    /// Keeps the keys of the map.
    fn note(&mut self, line: Line) {
        match line {
            Line::Put(key, _) if self.live.len() < self.limit && !self.at.contains_key(&key) => {
                self.at.insert(key, self.live.len());
                self.live.push(key);
            }
            Line::Delete(key) => {
                if let Some(index) = self.at.remove(&key) {
                    self.live.swap_remove(index);
                    if let Some(&moved) = self.live.get(index) {
                        self.at.insert(moved, index);
                    }
                }
            }
            _ => {}
        }
    }
}

/// A call list of so many lines; `noise` mixes in unreadable lines and odd but
/// readable ones and may leave out the last line end.
pub fn call_list(seed: u64, lines: usize, noise: bool) -> Vec<u8> {
    let mut random = Random::new(seed);
    let choices = Choices::new(WORDS);
    let mut bytes = Vec::new();
    let mut stream: Option<Stream> = None;
    let mut left = random.below(4);
    for _ in 0..lines {
        if noise && random.one_in(12) {
            bytes.extend(unreadable(&mut random));
        } else if random.one_in(if left == 0 { 3 } else { 200 }) {
            let numbers = refused_format(&mut random);
            print(&mut bytes, Line::Format(numbers), noise, &mut random);
        } else if left == 0 {
            let geometry = choices.pick(&mut random);
            stream = Some(Stream::new(&mut random, geometry, Vec::new()));
            let most = 6 * geometry.key_limit().min(1500) + 60;
            let part = random.pick(&[1, 1, 4, 16]);
            left = random.below(most / part);
            print(
                &mut bytes,
                Line::Format(geometry.numbers()),
                noise,
                &mut random,
            );
        } else {
            left -= 1;
            let line = match &mut stream {
                Some(stream) => stream.call(&mut random),
                None => Line::Put(random.word(), random.word()),
            };
            print(&mut bytes, line, noise, &mut random);
        }
        bytes.push(b'\n');
    }
    if noise && random.one_in(2) {
        bytes.pop();
    }
    bytes
}

/// A call list of these lines.
pub fn printed(lines: &[Line]) -> Vec<u8> {
    let (mut bytes, mut random) = (Vec::new(), Random::new(0));
    for &line in lines {
        print(&mut bytes, line, false, &mut random);
        bytes.push(b'\n');
    }
    bytes
}

/// Prints a readable line; with noise its numbers sometimes have leading zeros.
fn print(bytes: &mut Vec<u8>, line: Line, noise: bool, random: &mut Random) {
    let (letter, numbers) = match line {
        Line::Format(numbers) => (b'f', numbers.to_vec()),
        Line::Put(key, payload) => (b'p', vec![key, payload]),
        Line::Delete(key) => (b'd', vec![key]),
        Line::Get(key) => (b'g', vec![key]),
    };
    bytes.push(letter);
    for number in numbers {
        bytes.push(b' ');
        if noise && random.one_in(20) {
            let most = random.pick(&[3, 12, 300]);
            bytes.extend(vec![b'0'; random.between(1, most)]);
        }
        bytes.extend(number.to_string().into_bytes());
    }
}

/// The numbers of an f line that is refused, mostly: one limit broken, any words,
/// or a legal geometry too large for the program.
fn refused_format(random: &mut Random) -> [u32; 6] {
    let too_large = [
        [16, 1, 2, 4, 1, 600],
        [16, 16, 16, 4, 1, 4104],
        [2, 1, 2, 4, 1, 2726],
        [2, 1, 2, 4, 1, 8192],
        [4, 1, 2, 8, 3, 8192],
        [8, 2, 3, 4, 3, 2100],
    ];
    if random.one_in(3) {
        return random.pick(&too_large);
    }
    let broken = [
        [1, 1, 2, 4, 1, 40],
        [17, 1, 2, 4, 1, 40],
        [4, 0, 2, 4, 1, 40],
        [4, 17, 2, 4, 1, 8192],
        [4, 1, 1, 4, 1, 40],
        [4, 1, 17, 4, 1, 8192],
        [4, 1, 2, 1, 1, 40],
        [4, 1, 2, 11, 1, 400],
        [4, 1, 2, 4, 0, 40],
        [4, 1, 2, 4, 4, 8192],
        [4, 1, 2, 4, 1, 39],
        [4, 1, 2, 4, 1, 8193],
        [4, 1, 2, 2, 3, 200],
        [4, 16, 16, 5, 1, 8192],
        [
            4294967295, 4294967295, 4294967295, 4294967295, 4294967295, 4294967295,
        ],
    ];
    let mut numbers = random.pick(&broken);
    if random.one_in(3) {
        numbers[random.below(6)] = random.word() >> random.below(32);
    }
    numbers
}

/// An unreadable line of one of many kinds, without its line end.
fn unreadable(random: &mut Random) -> Vec<u8> {
    match random.below(5) {
        0 | 1 => wrong_fields(random).into_bytes(),
        2 | 3 => wrong_bytes(random).into_bytes(),
        _ => vec![
            b'g',
            b' ',
            b'1',
            random.pick(&[0x80, 0xff, 0x00, 0x7f, b'/', b':']),
        ],
    }
}

/// A line with too few or too many fields, a wrong letter or wrong spaces.
fn wrong_fields(random: &mut Random) -> String {
    let key = random.word() >> random.below(32);
    match random.below(15) {
        0 => String::new(),
        1 => " ".to_string(),
        2 => random.pick(&["p", "d", "g", "f", "x", "?"]).to_string(),
        3 => random.pick(&["p ", "d ", "g ", "f "]).to_string(),
        4 => format!("p {key}"),
        5 => format!("p {key} 1 1"),
        6 => format!("d {key} 1"),
        7 => format!("g {key} 1"),
        8 => format!(" g {key}"),
        9 => format!("g {key} "),
        10 => format!("g  {key}"),
        11 => format!("p {key}  1"),
        12 => random
            .pick(&["f 4 1 2 4 1", "f 4 1 2 4 1 40 1"])
            .to_string(),
        13 => format!("g{key}"),
        _ => format!(
            "{} {key}",
            random.pick(&["P", "D", "G", "F", "pp", "é", "0"])
        ),
    }
}

/// A line with a byte that no number has, or a number of 2^32 or more.
fn wrong_bytes(random: &mut Random) -> String {
    let key = random.word() >> random.below(32);
    let long = "9".repeat(random.between(10, 400));
    match random.below(10) {
        0 => format!("p\t{key} 1"),
        1 => format!("p {key}\t1"),
        2 => format!("d {key}\r"),
        3 => format!("d {}{key}", random.pick(&["+", "-", "0x", "_"])),
        4 => format!("p {key} {}", (1u64 << 32) + u64::from(key)),
        5 => format!("g {}", random.pick(&["4294967296", "18446744073709551616"])),
        6 => format!("g {long}"),
        7 => format!("g {key}\0"),
        8 => format!("f 4 1 2 4 1 {}", random.pick(&["4294967296", "40.", "-40"])),
        _ => {
            let end = random.pick(&["a", ".", ",5", "é", "\u{b}", "\u{c}", "\u{a0}"]);
            format!("d {key}{end}")
        }
    }
}
