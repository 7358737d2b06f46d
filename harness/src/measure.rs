//! The measurements of `bench`. In each round a list of puts runs on a copy of the
//! store, and between them the reading calls on the store as it then stands. So all
//! calls meet the same stores, warm caches and a branch predictor that knows them,
//! and what else the machine does meets all alike. The rounds come in blocks, with
//! those of other geometries and cold calls in between. A figure of a block comes
//! from medians over its rounds; how far the blocks lie apart is the noise.

use crate::calls::{Answer, Call, Held, Library, Oracle, Store, TICKET};
use crate::cold::{Cold, Work};
use crate::log::Log;
use reference::fast as baseline;
use reference::geometry::Geometry;
use reference::layout::COUNTS;
use reference::random::Random;
use std::collections::HashSet;
use std::hint::black_box;
use std::time::{Duration, Instant};

/// Rounds of a block, at least and at most.
const FEWEST: usize = 3;
const MOST: usize = 80;
/// Puts before the measured ones, to get warm.
const WARMING: usize = 64;
/// The reading calls are measured before every so many puts, stretches before
/// every so many.
const APART: usize = 4;
const STRETCHES_APART: usize = 64;
/// Next calls in a row, which stand for as many as there are records.
pub const IN_A_ROW: usize = 8;
/// Tickets that are lent to a put.
pub const TICKETS: usize = 8;

/// A store with N keys and all levels in steady state, and its keys: filled by puts
/// of random keys, then calls that overwrite or replace a key, as many as all levels
/// have room for records.
pub fn full_store(geometry: Geometry) -> (Vec<u32>, Vec<u32>) {
    let mut random = Random::new(1);
    let mut store = vec![0; geometry.length()];
    baseline::format(&mut store, geometry.numbers());
    let mut keys = Vec::new();
    let add = |random: &mut Random, store: &mut [u32]| loop {
        let key = random.word();
        let answer = baseline::put(store, key, !key);
        if answer.refusal == 0 && !answer.live_before {
            return key;
        }
    };
    while keys.len() < geometry.key_limit() {
        keys.push(add(&mut random, &mut store));
    }
    let room: usize = (0..=geometry.levels()).map(|i| geometry.capacity(i)).sum();
    for _ in 0..room * geometry.block() {
        let index = random.below(keys.len());
        if random.one_in(2) {
            baseline::put(&mut store, keys[index], random.word());
        } else {
            baseline::delete(&mut store, keys[index]);
            keys[index] = add(&mut random, &mut store);
        }
    }
    (store, keys)
}

/// The plain pass: the sum of the words that check must read, which are the size
/// words, level 0, the lists and the listed blocks.
pub fn plain_pass(geometry: Geometry, store: &[u32]) -> u32 {
    let sum = |from: u32, words: &[u32]| words.iter().fold(from, |sum, &w| sum.wrapping_add(w));
    let (base, width) = (geometry.slots_at(), geometry.slot_words());
    let mut total = sum(0, &store[..base]);
    for level in 1..=geometry.levels() {
        let at = geometry.list_at(level);
        for &slot in &store[at..at + store[COUNTS + level] as usize] {
            let block = base + slot as usize * width;
            total = sum(total, &store[block..block + width]);
        }
    }
    total
}

/// The words that the plain pass reads.
pub fn words_read(geometry: Geometry, store: &[u32]) -> usize {
    let blocks: u32 = store[COUNTS + 1..COUNTS + 4].iter().sum();
    geometry.slots_at() + blocks as usize * geometry.slot_words()
}

/// The mark word of the last block of level h. With a mark there, check goes over
/// all rules but live before it turns the store down.
fn last_marks(geometry: Geometry, store: &[u32]) -> usize {
    let h = geometry.levels();
    let end = geometry.list_at(h) + store[COUNTS + h] as usize;
    geometry.slot_at(store[end - 1] as usize) + 1
}

/// The middle of some numbers.
pub fn median(mut numbers: Vec<f64>) -> f64 {
    numbers.sort_by(f64::total_cmp);
    numbers[numbers.len() / 2]
}

/// The mean of some numbers, 0 of none.
pub fn mean(numbers: &[f64]) -> f64 {
    numbers.iter().sum::<f64>() / numbers.len().max(1) as f64
}

/// Nanoseconds of the calls of one kind, for each place in the list of puts those
/// of all rounds.
#[derive(Default)]
pub struct Times {
    places: Vec<Vec<f64>>,
}

impl Times {
    /// One more time of a place.
    pub fn add(&mut self, place: usize, time: f64) {
        if self.places.len() <= place {
            self.places.resize(place + 1, Vec::new());
        }
        self.places[place].push(time);
    }

    /// The median over the rounds of each place.
    pub fn medians(&self) -> Vec<f64> {
        self.places.iter().cloned().map(median).collect()
    }

    /// The mean over the places.
    pub fn mean(&self) -> f64 {
        mean(&self.medians())
    }
}

/// The times of one implementation.
#[derive(Default)]
pub struct Subject {
    pub pass: Times,
    pub check: Times,
    /// Check without the count of live keys.
    pub rules: Times,
    pub look_up: Times,
    pub next: Times,
    /// Of a put and of a delete.
    pub forecasts: [Times; 2],
    /// All records at once, the same once more, and one next for each.
    pub stretch: Times,
    pub again: Times,
    pub nexts: Times,
    pub put: Times,
    /// Of live keys.
    pub delete: Times,
    /// The merges of each put.
    pub merges: Vec<u32>,
}

/// A measured put: of a live key, or of a new one for a key that is deleted first.
/// Where all N keys have room in level 0, puts of live keys alone would never merge.
pub struct Turn {
    pub deleted: Option<u32>,
    pub put: u32,
}

/// Puts of both kinds, one after the other, on a store with these keys.
fn turns(random: &mut Random, mut keys: Vec<u32>, count: usize) -> Vec<Turn> {
    let mut known: HashSet<u32> = keys.iter().copied().collect();
    let turn = |number| {
        let index = random.below(keys.len());
        let live = keys[index];
        if number % 2 == 0 {
            return Turn {
                deleted: None,
                put: live,
            };
        }
        while !known.insert(keys[index]) {
            keys[index] = random.word();
        }
        Turn {
            deleted: Some(live),
            put: keys[index],
        }
    };
    (0..count).map(turn).collect()
}

/// The same puts and deletes of the library, without tickets and with.
#[derive(Default)]
pub struct Pairs {
    pub put: [Times; 2],
    pub delete: [Times; 2],
}

/// Some rounds, one after the other: the times of the library and of the fast
/// baseline.
#[derive(Default)]
pub struct Block {
    pub rounds: usize,
    pub library: Subject,
    pub fast: Subject,
    pub pairs: Pairs,
}

/// The blocks of rounds of one geometry, its cold calls, and its log.
pub struct Rounds {
    pub geometry: Geometry,
    pub store: Vec<u32>,
    pub blocks: Vec<Block>,
    pub cold: Cold,
    pub log: Option<Log>,
    /// What the measured puts are, and keys to be asked for.
    puts: Vec<Turn>,
    asked: Vec<u32>,
    clock: Clock,
}

impl Rounds {
    /// No round yet. The list of puts and deletes fills the room that a merge makes in
    /// level 0 some times.
    pub fn new(geometry: Geometry, store: Vec<u32>, keys: &[u32]) -> Rounds {
        let mut random = Random::new(2);
        let room = geometry.window(0) * geometry.block();
        let count = (4 * room).clamp(512, 1024);
        let puts = turns(&mut random, keys.to_vec(), count);
        // Every other key is most likely absent.
        let either = |index| match index / APART % 2 {
            0 => random.pick(keys),
            _ => random.word(),
        };
        let asked = (0..count).map(either).collect();
        Rounds {
            geometry,
            cold: Cold::new(store.clone()),
            log: Log::new(geometry),
            store,
            blocks: Vec::new(),
            puts,
            asked,
            clock: Clock::new(),
        }
    }

    /// A block of rounds for about this time, then some cold calls, then a block of the
    /// log. Both implementations must merge at the same puts and leave the same words.
    pub fn block(&mut self, time: Duration, work: &mut Work) {
        let start = Instant::now();
        let mut block = Block::default();
        while block.rounds < FEWEST || block.rounds < MOST && start.elapsed() < time {
            let words = self.list(&mut block.library, library);
            let right = self.list(&mut block.fast, fast);
            assert!(words == right, "the words differ after the puts");
            assert!(
                block.library.merges == block.fast.merges,
                "other puts merge"
            );
            let both = self.tickets(&mut block.pairs);
            assert!(both == [&words[..]; 2], "the words differ with tickets");
            block.rounds += 1;
        }
        self.blocks.push(block);
        self.cold.calls(work, &self.clock, &self.puts);
        if let Some(log) = &mut self.log {
            log.block(&self.clock);
        }
    }

    /// One round of one implementation: the list of puts with the reading calls
    /// between them; answers the words afterwards.
    fn list(&self, subject: &mut Subject, call: impl Fn(&mut Held, Call) -> Answer) -> Vec<u32> {
        let mut lent = Held {
            store: self.store.clone(),
            keys: vec![0; self.geometry.key_limit()],
            payloads: vec![0; self.geometry.key_limit()],
            tickets: Vec::new(),
        };
        for turn in &self.puts[..WARMING] {
            call(&mut lent, Call::Put(turn.put, 0));
        }
        lent.store.copy_from_slice(&self.store);
        subject.merges.clear();
        for (number, turn) in self.puts.iter().enumerate() {
            if number % APART == 0 {
                self.read(subject, &mut lent, number, &call);
            }
            if number % STRETCHES_APART == 0 {
                self.stretch(subject, &mut lent, number, &call);
            }
            if let Some(key) = turn.deleted {
                let delete = Call::Delete(key);
                let (time, answer) = self.clock.timed(|| call(black_box(&mut lent), delete));
                assert!(answer.reason() == 0, "a delete of a live key");
                subject.delete.add(number / 2, time);
            }
            let put = Call::Put(turn.put, number as u32);
            let (time, answer) = self.clock.timed(|| call(black_box(&mut lent), put));
            assert!(answer.reason() == 0, "a put of a live key or one with room");
            subject.put.add(number, time);
            subject.merges.push(answer.merges());
        }
        lent.store
    }

    /// One round of the puts and deletes without tickets and with, each on a copy of its
    /// own, in turn. Answers the words of both copies afterwards.
    fn tickets(&self, pairs: &mut Pairs) -> [Vec<u32>; 2] {
        let plain = Held::store(self.store.clone());
        let mut ticketed = plain.clone();
        ticketed.tickets = vec![0; TICKETS * TICKET];
        let mut lent = [plain, ticketed];
        for (number, turn) in self.puts.iter().enumerate() {
            // Two turns, one with a delete: without tickets first, and in the next two with.
            let first = number / 2 % 2;
            if let Some(key) = turn.deleted {
                let deletes = [Call::Delete(key), Call::DeleteTickets(key, TICKETS)];
                self.in_turn(&mut lent, deletes, first, number / 2, &mut pairs.delete);
            }
            let (key, payload) = (turn.put, number as u32);
            let puts = [
                Call::Put(key, payload),
                Call::PutTickets(key, payload, TICKETS),
            ];
            self.in_turn(&mut lent, puts, first, number, &mut pairs.put);
        }
        lent.map(|held| held.store)
    }

    /// Two calls, each on its own store: the one of this number first.
    fn in_turn(
        &self,
        lent: &mut [Held; 2],
        calls: [Call; 2],
        first: usize,
        place: usize,
        times: &mut [Times; 2],
    ) {
        for which in [first, 1 - first] {
            let held = &mut lent[which];
            let (time, answer) = self.clock.timed(|| library(black_box(held), calls[which]));
            assert!(answer.reason() == 0, "a live key or one with room");
            times[which].add(place, time);
        }
    }

    /// The reading calls before put `number`.
    fn read(
        &self,
        subject: &mut Subject,
        lent: &mut Held,
        number: usize,
        call: impl Fn(&mut Held, Call) -> Answer,
    ) {
        let (place, key) = (number / APART, self.asked[number]);
        let pass = self
            .clock
            .timed(|| plain_pass(self.geometry, black_box(&lent.store)));
        subject.pass.add(place, pass.0);
        let time = |lent: &mut Held, asked, times: &mut Times| {
            let (time, answer) = self.clock.timed(|| call(black_box(lent), asked));
            times.add(place, time);
            answer.reason()
        };
        let sound = time(lent, Call::Check, &mut subject.check);
        time(lent, Call::LookUp(key), &mut subject.look_up);
        time(lent, Call::Next(key), &mut subject.next);
        let [put, delete] = &mut subject.forecasts;
        time(lent, Call::WillPutMerge(key), put);
        time(lent, Call::WillDeleteMerge(key), delete);
        let marks = last_marks(self.geometry, &lent.store);
        lent.store[marks] = 1;
        let broken = time(lent, Call::Check, &mut subject.rules);
        lent.store[marks] = 0;
        assert!((sound, broken) == (0, 4), "what check says");
    }

    /// All N records before put `number`: by one stretch, after calls of other kinds,
    /// by the same once more, and by next calls, each from one above the key before. Of
    /// those only some in a row are made.
    fn stretch(
        &self,
        subject: &mut Subject,
        lent: &mut Held,
        number: usize,
        call: impl Fn(&mut Held, Call) -> Answer,
    ) {
        let (place, records) = (number / STRETCHES_APART, self.geometry.key_limit());
        let all = Call::Stretch {
            first: 0,
            last: u32::MAX,
            rooms: [records; 2],
        };
        for times in [&mut subject.stretch, &mut subject.again] {
            let (time, answer) = self.clock.timed(|| call(black_box(lent), all));
            let whole = Answer::Stretched([0, records as u32, 0]);
            assert!(answer == whole, "a stretch of all records");
            times.add(place, time);
        }
        let at = self.asked[number] as usize % (records - IN_A_ROW);
        let (first, last) = (lent.keys[at], lent.keys[at + IN_A_ROW - 1]);
        let (time, found) = self.clock.timed(|| {
            (0..IN_A_ROW).fold(first.wrapping_sub(1), |key, _| {
                match call(black_box(lent), Call::Next(key.wrapping_add(1))) {
                    Answer::Nexted([0, 1, found, _]) => found,
                    _ => panic!("there is a further record"),
                }
            })
        });
        assert!(found == last, "the same records");
        let one = time / IN_A_ROW as f64;
        subject.nexts.add(place, one * records as f64);
    }
}

/// A call of the library.
pub fn library(held: &mut Held, call: Call) -> Answer {
    let [keys, payloads, tickets] = call.rooms();
    assert!(keys <= held.keys.len() && payloads <= held.payloads.len());
    assert!(tickets <= held.tickets.len());
    // The words are lent to this call alone, and the arrays have the room that it names.
    unsafe { Library.call(held.lend(), call) }
}

/// A call of the fast baseline.
pub fn fast(held: &mut Held, call: Call) -> Answer {
    Oracle::Fast.call(held, call)
}

/// What times a call.
pub struct Clock {
    /// What reading the clock adds to a measured call.
    cost: f64,
}

impl Clock {
    /// With the cost of reading it, which is measured.
    fn new() -> Clock {
        let empty = |_| {
            let start = Instant::now();
            start.elapsed().as_nanos() as f64
        };
        Clock {
            cost: median((0..2001).map(empty).collect()),
        }
    }

    /// The nanoseconds of a call, and its answer.
    pub fn timed<T>(&self, call: impl FnOnce() -> T) -> (f64, T) {
        let start = Instant::now();
        let answer = black_box(call());
        let time = start.elapsed().as_nanos() as f64;
        ((time - self.cost).max(0.0), answer)
    }
}
