//! Random stores of many geometries, from the smallest to some of the largest.

use crate::calls::{Call, Held, Oracle};
use reference::breach::Breach;
use reference::cascade::Cascade;
use reference::damage::damaged;
use reference::generate::{legal_geometries, Choices, Stream};
use reference::geometry::Geometry;
use reference::random::Random;
use reference::script::Line;
use reference::{calls, unreachable};

/// How large a store is: the large ones are made more seldom and are asked with
/// the fast implementation of the reference.
#[derive(Clone, Copy, Debug, PartialEq, Eq)]
pub enum Size {
    Tiny,
    Small,
    Medium,
    Large,
}

/// Where a store comes from.
#[derive(Clone, Copy, Debug, PartialEq, Eq)]
pub enum Origin {
    /// Formatted, then so many random calls of the reference.
    History(usize),
    /// A store that no call list reaches, then so many random calls.
    Unreachable(usize),
    /// A store with this clause of the form check broken.
    Broken(Breach),
    /// A store whose next new key makes so many merges.
    Cascade(usize),
}

/// A store, before this program damages it.
pub struct Base {
    pub geometry: Geometry,
    pub size: Size,
    pub origin: Origin,
    pub words: Vec<u32>,
}

/// Geometries to choose from.
pub struct Maker {
    tiny: Vec<Geometry>,
    small: Choices,
    medium: Choices,
    large: Choices,
}

/// Some of the largest stores of one to three levels; the second is the longest of
/// all, of 288,524 words.
const LARGEST: [[u32; 6]; 4] = [
    [16, 1, 2, 8, 3, 8192],
    [16, 16, 16, 2, 2, 8192],
    [16, 4, 4, 8, 2, 8192],
    [16, 16, 16, 4, 1, 8192],
];

impl Maker {
    /// All legal geometries.
    pub fn new() -> Maker {
        Maker {
            tiny: legal_geometries(700),
            small: Choices::new(2500),
            medium: Choices::new(16_384),
            large: Choices::new(288_524),
        }
    }

    /// A random geometry.
    pub fn geometry(&self, random: &mut Random) -> (Geometry, Size) {
        match random.below(200) {
            0..=2 => {
                let largest = Geometry::new(random.pick(&LARGEST)).filter(|_| random.one_in(2));
                let geometry = largest.unwrap_or_else(|| self.large.pick(random));
                (geometry, Size::Large)
            }
            3..=20 => (self.medium.pick(random), Size::Medium),
            21..=100 => (self.small.pick(random), Size::Small),
            _ => (random.pick(&self.tiny), Size::Tiny),
        }
    }

    /// A store whose next new key makes five merges or more.
    pub fn cascade(random: &mut Random) -> Base {
        let cascade = random.pick(&Cascade::ALL);
        let geometry = cascade.geometry();
        let size = match geometry.length() {
            ..=16_384 => Size::Medium,
            _ => Size::Large,
        };
        Base {
            geometry,
            size,
            origin: Origin::Cascade(cascade.merges),
            words: cascade.store(random),
        }
    }

    /// A random store.
    pub fn base(&self, random: &mut Random) -> Base {
        if random.one_in(40) {
            return Maker::cascade(random);
        }
        let (geometry, size) = self.geometry(random);
        let (oracle, most) = match size {
            Size::Large => (Oracle::Fast, 3 * geometry.key_limit()),
            Size::Medium => (Oracle::Fast, 2 * geometry.key_limit()),
            _ => (Oracle::Plain, (3 * geometry.key_limit() + 40).min(400)),
        };
        let (words, origin) = match random.below(9) {
            0..=3 => {
                let calls = random.below(most);
                let mut words = vec![0; geometry.length()];
                calls::format(&mut words, geometry.numbers());
                let words = run(random, geometry, words, oracle, calls);
                (words, Origin::History(calls))
            }
            4..=7 => {
                let few = random.below(20);
                let calls = random.pick(&[0, 0, 0, few]);
                let words = unreachable::store(random, geometry);
                let words = run(random, geometry, words, oracle, calls);
                (words, Origin::Unreachable(calls))
            }
            _ => {
                let breach = random.pick(&Breach::ALL);
                match damaged(random, geometry, breach) {
                    Some(words) => (words, Origin::Broken(breach)),
                    None => (unreachable::store(random, geometry), Origin::Unreachable(0)),
                }
            }
        };
        Base {
            geometry,
            size,
            origin,
            words,
        }
    }
}

impl Default for Maker {
    /// All legal geometries.
    fn default() -> Maker {
        Maker::new()
    }
}

/// The words after random calls of the reference on a store.
fn run(
    random: &mut Random,
    geometry: Geometry,
    words: Vec<u32>,
    oracle: Oracle,
    calls: usize,
) -> Vec<u32> {
    let keys = unreachable::map(&words).into_keys().collect();
    let mut stream = Stream::new(random, geometry, keys);
    let mut held = Held::store(words);
    for _ in 0..calls {
        match stream.call(random) {
            Line::Put(key, payload) => oracle.call(&mut held, Call::Put(key, payload)),
            Line::Delete(key) => oracle.call(&mut held, Call::Delete(key)),
            Line::Get(_) | Line::Format(_) => continue,
        };
    }
    held.store
}
