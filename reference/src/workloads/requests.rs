//! The paper's workloads Uniform and Normal: which keys are put and deleted, and in
//! which order.

use crate::geometry::Geometry;
use crate::random::Random;
use std::collections::HashSet;

/// The number of keys: every word is one. The paper has 0 to 10^9.
const KEYS: f64 = 4_294_967_296.0;
/// The paper's σ: the standard deviation of Normal is 0.5 % of the key space.
const SIGMA: f64 = 0.005;
/// The paper's ω, the inserts between two moves of the mean. Its 10,000 are about one
/// level 0 of its Figure 2 (250 blocks of 39 records); so are 64 here, for the
/// geometry in the middle of the tables. All geometries get the same calls.
const OMEGA: usize = 64;

/// How the keys of inserts are drawn.
#[derive(Clone, Copy, Debug, PartialEq, Eq)]
pub enum Keys {
    /// "uniformly at random from keys that are not currently indexed".
    Uniform,
    /// "from a normal distribution (truncated to the key space) whose mean
    /// periodically moves to a location selected uniformly at random".
    Normal,
}

/// What is asked of a store that has been filled.
#[derive(Clone, Copy, Debug, PartialEq, Eq)]
pub enum Mix {
    /// At this many hundredths of N, of every two calls one inserts and one
    /// deletes, in random order. The paper throws a coin for each call; here live
    /// must not run into N.
    Steady(usize),
    /// At N, a delete and then an insert, over and over.
    Renewal,
    /// At N, puts on keys that are live.
    Overwrites,
}

impl Mix {
    /// The number of live keys that the store is filled to.
    pub fn target(self, geometry: Geometry) -> usize {
        match self {
            Mix::Steady(hundredths) => (geometry.key_limit() * hundredths / 100).max(1),
            Mix::Renewal | Mix::Overwrites => geometry.key_limit(),
        }
    }
}

/// One call.
#[derive(Clone, Copy, Debug, PartialEq, Eq)]
pub enum Request {
    /// A put of a key that is not live.
    Insert(u32),
    /// A put of a key that is live.
    Overwrite(u32),
    /// A delete of a key that is live.
    Delete(u32),
}

/// A stream of calls, and the keys that are live after those given out.
pub struct Requests {
    random: Random,
    keys: Keys,
    mix: Mix,
    live: Vec<u32>,
    /// The same keys; only ever asked whether it has one.
    known: HashSet<u32>,
    /// Inserts until the mean moves.
    until_move: usize,
    mean: f64,
    /// The second call of a pair: whether it inserts.
    owed: Option<bool>,
}

impl Requests {
    /// The stream of a seed, with nothing live.
    pub fn new(seed: u64, keys: Keys, mix: Mix) -> Requests {
        Requests {
            random: Random::new(seed),
            keys,
            mix,
            live: Vec::new(),
            known: HashSet::new(),
            until_move: 0,
            mean: 0.0,
            owed: None,
        }
    }

    /// The number of live keys after the calls given out.
    pub fn live(&self) -> usize {
        self.live.len()
    }

    /// A put of a new key: how the store is filled.
    pub fn insert(&mut self) -> Request {
        if self.until_move == 0 {
            self.until_move = OMEGA;
            self.mean = f64::from(self.random.word());
        }
        self.until_move -= 1;
        let key = self.new_key();
        self.live.push(key);
        self.known.insert(key);
        Request::Insert(key)
    }

    /// The next call once the store is filled.
    pub fn next_request(&mut self) -> Request {
        if self.mix == Mix::Overwrites {
            let at = self.random.below(self.live.len());
            return Request::Overwrite(self.live[at]);
        }
        let inserts = match self.owed.take() {
            Some(inserts) => inserts,
            None => {
                let inserts = self.mix != Mix::Renewal && self.random.one_in(2);
                self.owed = Some(!inserts);
                inserts
            }
        };
        if inserts {
            self.insert()
        } else {
            self.delete()
        }
    }

    /// "we draw delete keys uniformly at random from keys that are currently
    /// indexed", in both workloads.
    fn delete(&mut self) -> Request {
        let at = self.random.below(self.live.len());
        let key = self.live.swap_remove(at);
        self.known.remove(&key);
        Request::Delete(key)
    }

    /// A key that is not live, drawn again until it is one.
    fn new_key(&mut self) -> u32 {
        loop {
            let key = match self.keys {
                Keys::Uniform => f64::from(self.random.word()),
                Keys::Normal => self.mean + SIGMA * KEYS * normal(&mut self.random),
            };
            let inside = (0.0..KEYS).contains(&key);
            if inside && !self.known.contains(&(key as u32)) {
                return key as u32;
            }
        }
    }
}

/// A number of the normal distribution with mean 0 and standard deviation 1. This is
/// Karney's algorithm ("Sampling exactly from the normal distribution", 2016): it
/// only adds, multiplies and compares, so every machine gets the same numbers.
pub fn normal(random: &mut Random) -> f64 {
    loop {
        let mut whole = 0;
        while survives(random, 0.5) {
            whole += 1;
        }
        let steps = whole * (whole.max(1) - 1);
        let x = unit(random);
        let slope = x * (f64::from(2 * whole) + x) / f64::from(2 * whole + 2);
        if (0..steps).all(|_| survives(random, 0.5)) && (0..=whole).all(|_| survives(random, slope))
        {
            let size = f64::from(whole) + x;
            return if random.one_in(2) { size } else { -size };
        }
    }
}

/// True with probability e^−t, for t from 0 to 1, after von Neumann: a falling run
/// t > u1 > u2 > .. is even in length just that often.
fn survives(random: &mut Random, t: f64) -> bool {
    let (mut last, mut even) = (t, true);
    loop {
        let u = unit(random);
        if u >= last {
            return even;
        }
        (last, even) = (u, !even);
    }
}

/// A number from 0 on and below 1.
fn unit(random: &mut Random) -> f64 {
    (random.bits() >> 11) as f64 / (1u64 << 53) as f64
}
