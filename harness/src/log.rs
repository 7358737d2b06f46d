//! A store as a log leaves it: each new key is above all others, and when the store is
//! full the oldest one is deleted. Its levels do not interleave: the keys of each stand
//! together in long runs, tombstones above the run of records that they hide.

use crate::calls::{Answer, Call, Held};
use crate::measure::{fast, library, plain_pass, Block, Clock, Subject};
use reference::fast as baseline;
use reference::geometry::Geometry;
use reference::layout::COUNTS;
use std::hint::black_box;

/// Rounds of a block, and puts of a round: check is measured before each.
const ROUNDS: usize = 9;
const PUTS: u32 = 32;

/// A full store of rising keys, and its blocks of rounds.
pub struct Log {
    pub store: Vec<u32>,
    pub blocks: Vec<Block>,
    geometry: Geometry,
    /// The next key; the oldest is N below it.
    next: u32,
}

impl Log {
    /// No round yet. The store is filled, then goes on for as many keys as all levels
    /// have room for. None if level h has no block then.
    pub fn new(geometry: Geometry) -> Option<Log> {
        let h = geometry.levels();
        let room: usize = (0..=h).map(|level| geometry.capacity(level)).sum();
        let next = geometry.key_limit() + room * geometry.block();
        let mut store = vec![0; geometry.length()];
        baseline::format(&mut store, geometry.numbers());
        for key in 0..next as u32 {
            if let Some(oldest) = key.checked_sub(geometry.key_limit() as u32) {
                baseline::delete(&mut store, oldest);
            }
            baseline::put(&mut store, key, !key);
        }
        (store[COUNTS + h] > 0).then_some(Log {
            store,
            blocks: Vec::new(),
            geometry,
            next: next as u32,
        })
    }

    /// A block of rounds. Both implementations must leave the same words.
    pub fn block(&mut self, clock: &Clock) {
        let mut block = Block::default();
        while block.rounds < ROUNDS {
            let words = self.list(&mut block.library, clock, library);
            let right = self.list(&mut block.fast, clock, fast);
            assert!(words == right, "the words differ after the puts");
            block.rounds += 1;
        }
        self.blocks.push(block);
    }

    /// One round of one implementation: the log goes on, with the plain pass and check
    /// before each put; answers the words afterwards.
    fn list(
        &self,
        subject: &mut Subject,
        clock: &Clock,
        call: impl Fn(&mut Held, Call) -> Answer,
    ) -> Vec<u32> {
        let mut lent = Held::store(self.store.clone());
        call(&mut lent, Call::Check);
        for (place, key) in (self.next..self.next + PUTS).enumerate() {
            let pass = clock.timed(|| plain_pass(self.geometry, black_box(&lent.store)));
            subject.pass.add(place, pass.0);
            let (time, answer) = clock.timed(|| call(black_box(&mut lent), Call::Check));
            assert!(answer.reason() == 0, "what check says");
            subject.check.add(place, time);
            call(
                &mut lent,
                Call::Delete(key - self.geometry.key_limit() as u32),
            );
            let answer = call(&mut lent, Call::Put(key, !key));
            assert!(answer.reason() == 0, "a put with room");
        }
        lent.store
    }
}
