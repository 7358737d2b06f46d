//! Cold calls: what a call costs after other work, as on a console that makes one
//! now and then. Other work is 64 MB of other memory gone over, so that the caches
//! hold neither the store nor the library, and a sort of random words, so that the
//! branch predictor has other things to remember.

use crate::calls::{Call, Held};
use crate::measure::{fast, library, Clock, Turn};
use reference::random::Random;
use std::hint::black_box;

/// Cold calls of each kind after each block of rounds.
const CALLS: usize = 3;
/// Words gone over, 64 MB of them, and words sorted.
const SWEPT: usize = 1 << 24;
const SORTED: usize = 1 << 16;

/// The other work.
pub struct Work {
    words: Vec<u32>,
    random: Random,
}

impl Work {
    /// Other memory, and other words to sort.
    pub fn new() -> Work {
        Work {
            words: vec![1; SWEPT],
            random: Random::new(3),
        }
    }

    /// Does it once.
    fn run(&mut self) {
        let sum = self.words.iter().fold(0u32, |sum, &w| sum.wrapping_add(w));
        let mut some: Vec<u32> = (0..SORTED).map(|_| self.random.word()).collect();
        some.sort_unstable();
        black_box((sum, some));
    }
}

/// The cold calls of one geometry, in nanoseconds.
pub struct Cold {
    pub check: Vec<f64>,
    pub fast_check: Vec<f64>,
    pub put: Vec<f64>,
    /// The store that they are made on, and the puts made so far.
    store: Held,
    done: usize,
}

impl Cold {
    /// No call yet.
    pub fn new(store: Vec<u32>) -> Cold {
        Cold {
            check: Vec::new(),
            fast_check: Vec::new(),
            put: Vec::new(),
            store: Held::store(store),
            done: 0,
        }
    }

    /// Some calls of each kind, each after other work; the puts are the next of the
    /// list.
    pub fn calls(&mut self, work: &mut Work, clock: &Clock, puts: &[Turn]) {
        for _ in 0..CALLS {
            let turn = &puts[self.done];
            self.done += 1;
            if let Some(key) = turn.deleted {
                library(&mut self.store, Call::Delete(key));
            }
            let lent = &mut self.store;
            work.run();
            self.check
                .push(clock.timed(|| library(lent, Call::Check)).0);
            work.run();
            self.fast_check
                .push(clock.timed(|| fast(lent, Call::Check)).0);
            work.run();
            self.put
                .push(clock.timed(|| library(lent, Call::Put(turn.put, 0))).0);
        }
    }
}
