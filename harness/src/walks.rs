//! Histories: a store that is formatted, or one whose next new key makes many merges,
//! then random puts, deletes and look ups of the library and of the reference side by
//! side, half of the puts and deletes with tickets, with stretches between them. Every
//! put and delete is held to its forecast, asked for before it; there are forecasts of
//! other keys between them too. Beside both stands a plain map that is fed with the
//! accepted puts and deletes, and every stretch is held to it too, and every walk:
//! stretches from a first to a last key, each resumed one above the last key that was
//! written, till none follow.

use crate::calls::{Answer, Call, Oracle, Store};
use crate::compare::{Bench, Difference, Piece};
use crate::forecasts::{came_true, forecast, Forecasts};
use crate::maker::{Base, Maker, Size};
use crate::stretches::{ends, rooms, Stretches};
use crate::tickets::{delete, put, Tickets};
use reference::generate::Stream;
use reference::geometry::Geometry;
use reference::layout::COUNTS;
use reference::random::Random;
use reference::script::Line;
use reference::unreachable;
use std::collections::BTreeMap;
use std::fmt;

/// What was found, and all that is needed to see it again.
#[derive(Debug)]
pub struct Report {
    pub seed: u64,
    pub history: u64,
    pub numbers: [u32; 6],
    /// Puts, deletes and look ups before it.
    pub calls: usize,
    pub difference: Difference,
}

impl fmt::Display for Report {
    fn fmt(&self, out: &mut fmt::Formatter) -> fmt::Result {
        writeln!(out, "DIFFERENCE: {}", self.difference)?;
        writeln!(out, "geometry  {:?}, call {}", self.numbers, self.calls)?;
        writeln!(out, "seed      {}, history {}", self.seed, self.history)?;
        write!(
            out,
            "repeat    walks --repeat {} {}",
            self.seed, self.history
        )
    }
}

/// What all histories have been through.
#[derive(Clone, Debug, Default)]
pub struct Counts {
    pub histories: u64,
    /// Stores of more than 16,384 words.
    pub large: u64,
    /// Puts, deletes and look ups; puts turned down for 5; merges.
    pub calls: u64,
    pub full: u64,
    pub merges: u64,
    pub tickets: Tickets,
    pub stretches: Stretches,
    pub forecasts: Forecasts,
    /// Walks, their stretches and their records.
    pub walks: u64,
    pub steps: u64,
    pub records: u64,
}

impl fmt::Display for Counts {
    fn fmt(&self, out: &mut fmt::Formatter) -> fmt::Result {
        writeln!(out, "histories        {:>10}", self.histories)?;
        writeln!(out, "  over 16384     {:>10}", self.large)?;
        writeln!(out, "  changes, looks {:>10}", self.calls)?;
        writeln!(out, "  merges         {:>10}", self.merges)?;
        writeln!(out, "{}", self.tickets)?;
        writeln!(out, "  refused for 5  {:>10}", self.full)?;
        writeln!(out, "{}", self.stretches)?;
        writeln!(out, "{}", self.forecasts)?;
        writeln!(out, "walks            {:>10}", self.walks)?;
        writeln!(out, "  stretches      {:>10}", self.steps)?;
        write!(out, "  records        {:>10}", self.records)
    }
}

/// Histories under way.
pub struct Walks<'a> {
    /// Who is asked, in turn from history to history.
    asked: Vec<&'a dyn Store>,
    seed: u64,
    maker: Maker,
    bench: Bench,
    pub counts: Counts,
}

impl<'a> Walks<'a> {
    /// Histories with this seed.
    pub fn new(asked: Vec<&'a dyn Store>, seed: u64) -> Walks<'a> {
        Walks {
            asked,
            seed,
            maker: Maker::new(),
            bench: Bench::new(),
            counts: Counts::default(),
        }
    }

    /// One history, which depends on nothing but the seed and its number.
    pub fn history(&mut self, number: u64) -> Result<(), Box<Report>> {
        let seed = self.seed.wrapping_add(number.wrapping_mul(0x9e37_79b9));
        let mut random = Random::new(Random::new(seed).bits());
        let start = random.one_in(25).then(|| Maker::cascade(&mut random));
        let (geometry, size) = match &start {
            Some(base) => (base.geometry, base.size),
            None => self.maker.geometry(&mut random),
        };
        self.counts.histories += 1;
        self.counts.large += u64::from(geometry.length() > 16_384);
        let mut history = History {
            store: self.asked[number as usize % self.asked.len()],
            oracle: match size {
                Size::Medium | Size::Large => Oracle::Fast,
                Size::Tiny | Size::Small => Oracle::Plain,
            },
            bench: &mut self.bench,
            counts: &mut self.counts,
            geometry,
            map: BTreeMap::new(),
            calls: 0,
        };
        let result = history.run(&mut random, start);
        result.map_err(|difference| {
            Box::new(Report {
                seed: self.seed,
                history: number,
                numbers: geometry.numbers(),
                calls: history.calls,
                difference,
            })
        })
    }
}

/// A stretch of a map, cut at this length.
fn cut(map: &BTreeMap<u32, u32>, first: u32, last: u32, room: usize) -> Piece {
    if first > last {
        return (Vec::new(), false);
    }
    let mut rest = map
        .range(first..=last)
        .map(|(&key, &payload)| (key, payload));
    let records = rest.by_ref().take(room).collect();
    (records, rest.next().is_some())
}

/// The records of a stretch, if they are those of the map.
pub fn same(
    map: &BTreeMap<u32, u32>,
    first: u32,
    last: u32,
    rooms: [usize; 2],
    got: Piece,
) -> Result<Piece, Difference> {
    let right = cut(map, first, last, rooms[0].min(rooms[1]));
    if got == right {
        return Ok(got);
    }
    let call = Call::Stretch { first, last, rooms };
    Err(Difference::Map { call, got, right })
}

/// A history under way.
struct History<'a> {
    store: &'a dyn Store,
    oracle: Oracle,
    bench: &'a mut Bench,
    counts: &'a mut Counts,
    geometry: Geometry,
    map: BTreeMap<u32, u32>,
    calls: usize,
}

impl History<'_> {
    /// All of it, from a store that is there or from a formatted one.
    fn run(&mut self, random: &mut Random, start: Option<Base>) -> Result<(), Difference> {
        let geometry = self.geometry;
        let most = match start {
            Some(base) => {
                self.bench.load(&base.words);
                self.map = unreachable::map(&base.words);
                40
            }
            None => {
                self.bench.load(&vec![random.word(); geometry.length()]);
                self.call(Call::Format(geometry.numbers()))?;
                (3 * geometry.key_limit() + 40).min(3000)
            }
        };
        let keys = self.map.keys().copied().collect();
        let mut stream = Stream::new(random, geometry, keys);
        for _ in 0..random.below(most) {
            let line = stream.call(random);
            self.step(random, line)?;
        }
        self.walk(random, 0, u32::MAX)
    }

    /// A put, delete or look up, now and then with a stretch, a walk or a forecast after it.
    fn step(&mut self, random: &mut Random, line: Line) -> Result<(), Difference> {
        match line {
            Line::Put(key, payload) => {
                if self.call(put(random, key, payload))?.reason() == 0 {
                    self.map.insert(key, payload);
                }
            }
            Line::Delete(key) => {
                if self.call(delete(random, key))?.reason() == 0 {
                    self.map.remove(&key);
                }
            }
            Line::Get(key) => drop(self.call(Call::LookUp(key))?),
            Line::Format(_) => {}
        }
        self.calls += 1;
        if random.one_in(4) {
            let (first, last) = self.ends(random);
            let rooms = rooms(random, self.map.len());
            self.stretch(first, last, rooms)?;
        }
        if random.one_in(40) {
            let (first, last) = self.ends(random);
            self.walk(random, first, last)?;
        }
        if random.one_in(4) {
            let key = self.key(random);
            self.forecast(random.pick(&[Call::WillPutMerge(key), Call::WillDeleteMerge(key)]))?;
        }
        Ok(())
    }

    /// A forecast.
    fn forecast(&mut self, call: Call) -> Result<Answer, Difference> {
        let answer = self.bench.go_on(self.store, call, self.oracle)?;
        self.counts.forecasts.count(self.bench.words(), answer);
        Ok(answer)
    }

    /// A call that changes the store or looks a key up; a put or delete after its forecast.
    fn call(&mut self, call: Call) -> Result<Answer, Difference> {
        let first = forecast(call).map(|first| self.forecast(first));
        let foretold = first.transpose()?;
        let answer = self.bench.go_on(self.store, call, self.oracle)?;
        if let Some(foretold) = foretold {
            came_true(self.bench.words(), call, foretold, answer)?;
        }
        self.counts.calls += 1;
        self.counts.full += u64::from(answer.reason() == 5);
        self.counts.merges += u64::from(answer.merges());
        self.counts.tickets.count(call, answer);
        Ok(answer)
    }

    /// A key to ask for: one of the map or next to one, one of level 0, where it may have
    /// a delete mark, an extreme, or any word.
    fn key(&self, random: &mut Random) -> u32 {
        let words = self.bench.words();
        match random.below(8) {
            0 => random.pick(&[0, 1, u32::MAX, u32::MAX - 1]),
            1 => random.word() >> random.below(32),
            2 => words[self.geometry.keys_at() + random.below(words[COUNTS] as usize)],
            _ => {
                let key = self.map.keys().nth(random.below(self.map.len()));
                let near = random.pick(&[0, 0, 1, u32::MAX]);
                key.copied().unwrap_or(9).wrapping_add(near)
            }
        }
    }

    /// The first and the last key of a stretch.
    fn ends(&self, random: &mut Random) -> (u32, u32) {
        let keys = [self.key(random), self.key(random)];
        ends(random, keys)
    }

    /// One stretch, held to the reference and to the map.
    fn stretch(&mut self, first: u32, last: u32, rooms: [usize; 2]) -> Result<Piece, Difference> {
        let call = Call::Stretch { first, last, rooms };
        let answer = self.bench.go_on(self.store, call, self.oracle)?;
        self.counts.stretches.count(answer);
        let more = matches!(answer, Answer::Stretched([0, _, 1]));
        let got = (self.bench.records(answer), more);
        same(&self.map, first, last, rooms, got)
    }

    /// A walk over a stretch with room of any length. One that has no room at a time
    /// stays where it is.
    fn walk(&mut self, random: &mut Random, first: u32, last: u32) -> Result<(), Difference> {
        let live = self.map.len();
        let most = random.pick(&[2, 7, live / 2 + 1, live + 1]).max(live / 16);
        let (mut from, mut walked) = (first, Vec::new());
        loop {
            let [room, other] = [0; 2].map(|_| random.below(most + 1));
            let rooms = [room, random.pick(&[room, room, other])];
            let (records, more) = self.stretch(from, last, rooms)?;
            self.counts.steps += 1;
            walked.extend(records);
            if !more {
                break;
            }
            // The map has a further key up to `last`, so this one has a word above it.
            from = walked.last().map_or(first, |&(key, _)| key + 1);
        }
        self.counts.walks += 1;
        self.counts.records += walked.len() as u64;
        same(&self.map, first, last, [usize::MAX; 2], (walked, false))?;
        Ok(())
    }
}
