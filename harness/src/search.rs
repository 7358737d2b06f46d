//! The search for a difference: random stores, damaged, all fourteen calls on each.

use crate::calls::{Answer, Call, Oracle, Store};
use crate::compare::{Bench, Difference};
use crate::forecasts::{came_true, forecast, Forecasts};
use crate::harm::{damage, Harm};
use crate::maker::{Base, Maker, Origin, Size};
use crate::stretches::{ends, rooms, Stretches};
use crate::tickets::Tickets;
use reference::layout::{HEADER, LIVE};
use reference::random::Random;
use std::fmt;

/// What was found, and all that is needed to see it again.
#[derive(Debug)]
pub struct Report {
    pub seed: u64,
    pub group: u64,
    pub store: usize,
    pub numbers: [u32; 6],
    pub origin: Origin,
    pub harms: Vec<Harm>,
    pub difference: Difference,
}

impl fmt::Display for Report {
    fn fmt(&self, out: &mut fmt::Formatter) -> fmt::Result {
        writeln!(out, "DIFFERENCE: {}", self.difference)?;
        writeln!(out, "geometry  {:?}, {:?}", self.numbers, self.origin)?;
        writeln!(out, "damage    {:?}", self.harms)?;
        writeln!(
            out,
            "seed      {}, group {}, store {}",
            self.seed, self.group, self.store
        )?;
        write!(
            out,
            "repeat    damage --repeat {} {}",
            self.seed, self.group
        )
    }
}

/// What a search has been through.
#[derive(Clone, Debug, Default)]
pub struct Counts {
    pub groups: u64,
    pub stores: u64,
    pub damaged: u64,
    pub calls: u64,
    /// Stores by the answer of check.
    pub reasons: [u64; 5],
    /// Puts turned down for 5.
    pub full: u64,
    /// Merges of the puts and deletes.
    pub merges: u64,
    pub tickets: Tickets,
    pub stretches: Stretches,
    pub forecasts: Forecasts,
    /// Calls for which both implementations of the reference were asked.
    pub both: u64,
    /// Stores of more than 16,384 words, and the words of the longest.
    pub large: u64,
    pub longest: usize,
}

impl fmt::Display for Counts {
    fn fmt(&self, out: &mut fmt::Formatter) -> fmt::Result {
        writeln!(out, "stores           {:>10}", self.stores)?;
        writeln!(out, "  damaged        {:>10}", self.damaged)?;
        writeln!(out, "  groups         {:>10}", self.groups)?;
        writeln!(out, "  over 16384     {:>10}", self.large)?;
        writeln!(out, "  longest, words {:>10}", self.longest)?;
        for (reason, stores) in self.reasons.iter().enumerate() {
            writeln!(out, "  check says {reason}   {stores:>10}")?;
        }
        writeln!(out, "calls compared   {:>10}", self.calls)?;
        writeln!(out, "{}", self.stretches)?;
        writeln!(out, "{}", self.forecasts)?;
        writeln!(out, "  merges         {:>10}", self.merges)?;
        writeln!(out, "{}", self.tickets)?;
        writeln!(out, "  refused for 5  {:>10}", self.full)?;
        write!(out, "  plain and fast {:>10}", self.both)
    }
}

/// A search under way.
pub struct Search<'a> {
    /// Who is asked, in turn from store to store.
    asked: Vec<&'a dyn Store>,
    seed: u64,
    maker: Maker,
    bench: Bench,
    pub counts: Counts,
}

impl<'a> Search<'a> {
    /// A search with this seed.
    pub fn new(asked: Vec<&'a dyn Store>, seed: u64) -> Search<'a> {
        Search {
            asked,
            seed,
            maker: Maker::new(),
            bench: Bench::new(),
            counts: Counts::default(),
        }
    }

    /// All stores of one group: a store and damaged ones made of it. A group
    /// depends on nothing but the seed and its number.
    pub fn group(&mut self, group: u64) -> Result<(), Box<Report>> {
        let start = Random::new(self.seed.wrapping_add(group.wrapping_mul(0x9e37_79b9))).bits();
        let mut random = Random::new(start);
        let base = self.maker.base(&mut random);
        let stores = match base.size {
            Size::Tiny | Size::Small => 60,
            Size::Medium => 16,
            Size::Large => 6,
        };
        self.counts.groups += 1;
        for store in 0..stores {
            let mut words = base.words.clone();
            let mut harms = Vec::new();
            if store > 0 {
                damage(&mut random, base.geometry, &mut words, &mut harms);
            }
            self.ask_all(&mut random, &base, &words, store, harms.is_empty())
                .map_err(|difference| {
                    Box::new(Report {
                        seed: self.seed,
                        group,
                        store,
                        numbers: base.geometry.numbers(),
                        origin: base.origin,
                        harms,
                        difference,
                    })
                })?;
        }
        Ok(())
    }

    /// All fourteen calls on one store, each on the words as they are; of each put and
    /// delete its forecast first, to which it is held.
    fn ask_all(
        &mut self,
        random: &mut Random,
        base: &Base,
        words: &[u32],
        number: usize,
        sound: bool,
    ) -> Result<(), Difference> {
        self.bench.load(words);
        let (oracle, both) = match base.size {
            Size::Large => (Oracle::Fast, number % 4 == 1),
            Size::Medium => (Oracle::Fast, number % 2 == 1),
            _ => (Oracle::Plain, false),
        };
        let calls = calls(random, base, words);
        let store = self.asked[number % self.asked.len()];
        self.counts.stores += 1;
        self.counts.damaged += u64::from(!sound || matches!(base.origin, Origin::Broken(_)));
        self.counts.large += u64::from(words.len() > 16_384);
        self.counts.longest = self.counts.longest.max(words.len());
        for call in calls {
            let first = forecast(call).map(|first| self.ask(store, first, oracle, both));
            let foretold = first.transpose()?;
            let answer = self.ask(store, call, oracle, both)?;
            if let Some(foretold) = foretold {
                came_true(words, call, foretold, answer)?;
            }
        }
        Ok(())
    }

    /// One call on the words as they are.
    fn ask(
        &mut self,
        store: &dyn Store,
        call: Call,
        oracle: Oracle,
        both: bool,
    ) -> Result<Answer, Difference> {
        let answer = self.bench.ask(store, call, oracle, both)?;
        self.counts.calls += 1;
        self.counts.both += u64::from(both);
        self.counts.merges += u64::from(answer.merges());
        self.counts.tickets.count(call, answer);
        self.counts.stretches.count(answer);
        self.counts.forecasts.count(self.bench.words(), answer);
        match (call, answer) {
            (Call::Check, _) => self.counts.reasons[answer.reason() as usize] += 1,
            (_, Answer::Changed([5, ..])) => self.counts.full += 1,
            _ => {}
        }
        Ok(answer)
    }
}

/// All calls but forecasts, stretch twice, with arguments that fit the store.
fn calls(random: &mut Random, base: &Base, words: &[u32]) -> [Call; 13] {
    let keys: [u32; 11] = std::array::from_fn(|_| key(random, base, words));
    let own = [0, 1, 2, 3, 4, 5].map(|at| words.get(at).copied().unwrap_or(4));
    let mut numbers = match random.below(4) {
        0 => base.geometry.numbers(),
        _ => own,
    };
    if random.one_in(8) {
        let at = random.below(6);
        numbers[at] = random.pick(&[0, u32::MAX, numbers[at] ^ 1, numbers[at].wrapping_add(1)]);
    }
    let live = (base.words[LIVE] as usize).min(base.geometry.key_limit());
    let stretches = [[keys[7], keys[8]], [keys[9], keys[10]]].map(|keys| {
        let (first, last) = ends(random, keys);
        let rooms = rooms(random, live);
        Call::Stretch { first, last, rooms }
    });
    let level = random.pick(&[0, 1, 1, 1, 2, 2, 3, 3, 4, u32::MAX]);
    [
        Call::Words(numbers),
        Call::Check,
        Call::LookUp(keys[0]),
        Call::Next(keys[1]),
        stretches[0],
        stretches[1],
        Call::Show(level, keys[2]),
        Call::About,
        Call::Put(keys[3], random.word()),
        Call::PutTickets(keys[4], 0, random.below(9)),
        Call::Delete(keys[5]),
        Call::DeleteTickets(keys[6], random.below(9)),
        Call::Format(numbers),
    ]
}

/// A key to ask for: one of the store or next to one, an extreme, or any word.
fn key(random: &mut Random, base: &Base, words: &[u32]) -> u32 {
    let geometry = base.geometry;
    let c = base.words[8] as usize;
    let near = random.pick(&[0, 0, 0, 1, u32::MAX]);
    let at = match random.below(10) {
        0 => return random.pick(&[0, 1, u32::MAX, u32::MAX - 1]),
        1 => return random.word() >> random.below(32),
        2 | 3 => geometry.keys_at() + random.below(c.min(geometry.level_zero_records())),
        _ => {
            let level = random.between(1, geometry.levels());
            let count = (base.words[8 + level] as usize).min(geometry.capacity(level));
            let entry = base.words[geometry.list_at(level) + random.below(count)] as usize;
            let slot = geometry.slot_at(entry.min(geometry.slots() - 1));
            let records = (base.words[slot] as usize).min(geometry.block());
            slot + 2 + random.below(records)
        }
    };
    let word = words.get(at.max(HEADER)).copied().unwrap_or(9);
    word.wrapping_add(near)
}
