//! Running a workload on a store and counting the blocks that its calls write.

use super::requests::{Keys, Mix, Request, Requests};
use crate::block::Record;
use crate::calls::{self, Changed};
use crate::geometry::Geometry;
use crate::layout::{LIVE, MOST_LEVELS};
use std::sync::atomic::{AtomicUsize, Ordering};
use std::thread;

/// The seed of every run.
const SEED: u64 = 1;
/// Batches of calls whose means are compared to see how far the mean is settled.
const BATCHES: usize = 32;
/// Student's t for 31 degrees of freedom: 95 % of all means are within this many
/// standard errors.
const STUDENT: f64 = 2.04;
/// The margin at which the measuring ends, as a part of the mean.
const MARGIN: f64 = 0.01;
/// Calls in a batch at first: every case is measured over at least 32 × 4,096 calls.
const FIRST_LENGTH: usize = 4096;
/// The measuring ends after this many calls whatever the margin is.
const MOST_CALLS: u64 = 1 << 22;

/// One row of a table: a geometry under a workload.
#[derive(Clone, Copy, Debug, PartialEq, Eq)]
pub struct Case {
    pub geometry: Geometry,
    pub keys: Keys,
    pub mix: Mix,
}

impl Case {
    /// The case of these three.
    pub fn new(geometry: Geometry, keys: Keys, mix: Mix) -> Case {
        Case {
            geometry,
            keys,
            mix,
        }
    }
}

/// What the calls wrote in one level.
#[derive(Clone, Copy, Debug, Default, PartialEq, Eq)]
pub struct LevelFigures {
    pub merge_writes: u64,
    pub compaction_writes: u64,
    /// The most blocks that one call wrote merging into it and compacting it.
    pub worst: u64,
}

/// What was measured of a case.
#[derive(Clone, Debug, Default, PartialEq)]
pub struct Figures {
    pub calls: u64,
    pub levels: [LevelFigures; MOST_LEVELS],
    /// The most blocks that one call wrote.
    pub worst: u64,
    /// The most blocks that the merges of one call wrote, compacting left out.
    pub worst_merging: u64,
    /// Half of the mean's 95 % interval, as a part of the mean.
    pub margin: f64,
}

impl Figures {
    /// All blocks written.
    pub fn blocks(&self) -> u64 {
        let of = |level: &LevelFigures| level.merge_writes + level.compaction_writes;
        self.levels.iter().map(of).sum()
    }

    /// Blocks written a call.
    pub fn mean(&self) -> f64 {
        self.blocks() as f64 / self.calls as f64
    }

    /// Enters a call's answer.
    pub fn add(&mut self, answer: &Changed) {
        self.calls += 1;
        let (mut merging, mut compacting) = (0, 0);
        for (level, counts) in self.levels.iter_mut().zip(&answer.levels) {
            let (merged, compacted) = (
                u64::from(counts.merge_writes),
                u64::from(counts.compaction_writes),
            );
            level.merge_writes += merged;
            level.compaction_writes += compacted;
            level.worst = level.worst.max(merged + compacted);
            merging += merged;
            compacting += compacted;
        }
        self.worst = self.worst.max(merging + compacting);
        self.worst_merging = self.worst_merging.max(merging);
    }
}

/// A store under a workload.
pub struct Run {
    geometry: Geometry,
    words: Vec<u32>,
    requests: Requests,
}

impl Run {
    /// A store of the case, formatted and filled with inserts alone.
    pub fn filled(case: Case, seed: u64) -> Run {
        let geometry = case.geometry;
        let mut words = vec![0; geometry.length()];
        let formatted = calls::format(&mut words, geometry.numbers());
        assert_eq!(formatted.refusal, 0, "the geometry is legal");
        let mut run = Run {
            geometry,
            words,
            requests: Requests::new(seed, case.keys, case.mix),
        };
        while run.requests.live() < case.mix.target(geometry) {
            let request = run.requests.insert();
            perform(&mut run.words, request);
        }
        run
    }

    /// The next call of the workload.
    pub fn step(&mut self) -> Changed {
        let request = self.requests.next_request();
        perform(&mut self.words, request)
    }

    /// Runs until the store is in a steady state: as in the paper, until a whole
    /// level h − 1 has been merged down, so d times; and at least 2 × N calls.
    fn warm_up(&mut self) {
        let bottom = self.geometry.levels();
        let windows = (self.geometry.capacity(0) / self.geometry.window(0)) as u32;
        let (mut calls, mut merges) = (0, 0);
        while calls < 2 * self.geometry.key_limit() || merges < windows {
            merges += self.step().levels[bottom - 1].merges;
            calls += 1;
        }
    }

    /// The store is sound, and its live keys are those of the workload.
    fn check(&self) {
        assert_eq!(calls::check(&self.words), 0);
        assert_eq!(self.words[LIVE] as usize, self.requests.live());
    }

    /// The words as they stand.
    pub fn words(&self) -> &[u32] {
        &self.words
    }
}

/// A call as put and delete do it after their form check, which costs most of their
/// time and is left out: it finds nothing in a store that only these calls changed.
pub fn perform(words: &mut [u32], request: Request) -> Changed {
    let (key, payload, live_before) = match request {
        Request::Insert(key) => (key, !key, false),
        Request::Overwrite(key) => (key, key, true),
        Request::Delete(key) => (key, 0, true),
    };
    let tombstone = matches!(request, Request::Delete(_));
    let record = Record {
        key,
        payload,
        tombstone,
    };
    let merges = calls::enter(words, record);
    words[LIVE] = words[LIVE] + u32::from(!live_before) - u32::from(tombstone);
    calls::answer(live_before, &merges)
}

/// Measures a case until its mean is settled to the margin, in batches that double
/// in length, so that they grow beyond whatever rhythm the merges have.
pub fn measure(case: Case, seed: u64) -> Figures {
    let mut run = Run::filled(case, seed);
    run.warm_up();
    let mut figures = Figures::default();
    let mut batches = Vec::new();
    let mut length = FIRST_LENGTH;
    loop {
        while batches.len() < BATCHES {
            batches.push(batch(&mut run, &mut figures, length));
        }
        run.check();
        figures.margin = margin(&batches);
        if figures.margin <= MARGIN || figures.calls >= MOST_CALLS {
            return figures;
        }
        batches = batches.chunks(2).map(|pair| pair.iter().sum()).collect();
        length *= 2;
    }
}

/// Some calls in a row; answers the blocks that they wrote.
fn batch(run: &mut Run, figures: &mut Figures, length: usize) -> u64 {
    let before = figures.blocks();
    for _ in 0..length {
        figures.add(&run.step());
    }
    figures.blocks() - before
}

/// The 95 % margin of the mean of these batches, as a part of it.
pub fn margin(batches: &[u64]) -> f64 {
    let count = batches.len() as f64;
    let mean = batches.iter().sum::<u64>() as f64 / count;
    let off = |batch: &u64| *batch as f64 - mean;
    let squares = batches.iter().map(|batch| off(batch) * off(batch));
    let variance = squares.sum::<f64>() / (count - 1.0);
    STUDENT * (variance / count).sqrt() / mean
}

/// Cases with their figures.
pub struct Results(pub Vec<(Case, Figures)>);

impl Results {
    /// Measures the cases on two threads. Each case has its own random numbers, so
    /// the threads change nothing.
    pub fn of_cases(cases: &[Case]) -> Results {
        let next = AtomicUsize::new(0);
        let work = || -> Vec<(usize, Figures)> {
            let numbers = std::iter::repeat_with(|| next.fetch_add(1, Ordering::Relaxed));
            let mine = numbers.take_while(|&number| number < cases.len());
            mine.map(|number| (number, measure(cases[number], SEED)))
                .collect()
        };
        let mut all = thread::scope(|scope| {
            let (one, two) = (scope.spawn(work), scope.spawn(work));
            [one, two]
                .map(|thread| thread.join().expect("a run ends"))
                .concat()
        });
        all.sort_by_key(|&(number, _)| number);
        let figures = all.into_iter().map(|(_, figures)| figures);
        Results(cases.iter().copied().zip(figures).collect())
    }

    /// The figures of a case that was measured.
    pub fn of(&self, geometry: Geometry, keys: Keys, mix: Mix) -> &Figures {
        let wanted = Case::new(geometry, keys, mix);
        let found = self.0.iter().find(|(case, _)| *case == wanted);
        &found.expect("the case was measured").1
    }
}
