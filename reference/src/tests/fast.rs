//! The implementation written for speed against the plain one: every answer and
//! every word.

use super::lists::formatted;
use super::seed;
use crate::block::Span;
use crate::borders::borders;
use crate::breach::Breach;
use crate::calls::{self, Changed};
use crate::damage::damaged;
use crate::fast::{self, merge, shape::Shape};
use crate::fault::{set, Fault};
use crate::generate::{legal_geometries, Choices, Stream};
use crate::geometry::Geometry;
use crate::layout::COUNTS;
use crate::random::Random;
use crate::readings::one_word;
use crate::script::Line;
use crate::unreachable;
use crate::work;

/// The same store for both.
struct Both {
    plain: Vec<u32>,
    fast: Vec<u32>,
    /// Merges seen out of levels 0, 1 and 2, and blocks written by compactions.
    merges: [u32; 3],
    compacted: u32,
}

/// Nothing, or what differs.
type Same = Result<(), String>;

/// Whether two answers are the same.
fn same<T: PartialEq + std::fmt::Debug>(call: &str, plain: T, fast: T) -> Same {
    if plain == fast {
        return Ok(());
    }
    Err(format!("{call}: plain {plain:?}, fast {fast:?}"))
}

impl Both {
    /// A store.
    fn new(words: Vec<u32>) -> Both {
        Both {
            plain: words.clone(),
            fast: words,
            merges: [0; 3],
            compacted: 0,
        }
    }

    /// A put or a delete, then every word.
    fn change(&mut self, key: u32, payload: Option<u32>) -> Result<Changed, String> {
        let (plain, fast) = match payload {
            Some(payload) => (
                calls::put(&mut self.plain, key, payload),
                fast::put(&mut self.fast, key, payload),
            ),
            None => (
                calls::delete(&mut self.plain, key),
                fast::delete(&mut self.fast, key),
            ),
        };
        same(&format!("{key} {payload:?}"), plain, fast)?;
        self.words()?;
        for (sum, level) in self.merges.iter_mut().zip(&plain.levels) {
            *sum += level.merges;
            self.compacted += level.compaction_writes;
        }
        Ok(plain)
    }

    /// The calls that change nothing.
    fn read(&self, key: u32) -> Same {
        let (plain, fast) = (&self.plain, &self.fast);
        same("check", calls::check(plain), fast::check(fast))?;
        same(
            "look up",
            calls::look_up(plain, key),
            fast::look_up(fast, key),
        )?;
        same("next", calls::next(plain, key), fast::next(fast, key))?;
        same("about", calls::about(plain), fast::about(fast))?;
        same(
            "will put merge",
            calls::will_put_merge(plain, key),
            fast::will_put_merge(fast, key),
        )?;
        same(
            "will delete merge",
            calls::will_delete_merge(plain, key),
            fast::will_delete_merge(fast, key),
        )?;
        self.stretch(key, key.saturating_add(1 << 20), 20)?;
        self.stretch(key, key.wrapping_add(7), 3)?;
        for level in [0, 1, 2, 3, 4, u32::MAX] {
            let part = |whole: &[u32], part: &[u32]| {
                let start = part.as_ptr() as usize - whole.as_ptr() as usize;
                (if part.is_empty() { 0 } else { start }, part.len())
            };
            let plain = part(plain, calls::show(plain, level, key));
            same("show", plain, part(fast, fast::show(fast, level, key)))?;
        }
        self.words()
    }

    /// A stretch in arrays of this length, and every entry.
    fn stretch(&self, first: u32, last: u32, length: usize) -> Same {
        let mut plain = (vec![8; length], vec![9; length]);
        let mut fast = plain.clone();
        let answer = calls::stretch(&self.plain, first, last, &mut plain.0, &mut plain.1);
        let other = fast::stretch(&self.fast, first, last, &mut fast.0, &mut fast.1);
        same("stretch", (answer, plain), (other, fast))
    }

    /// Every word.
    fn words(&self) -> Same {
        if self.plain == self.fast {
            return Ok(());
        }
        let differs = |&at: &usize| self.plain[at] != self.fast[at];
        Err(format!("word {:?}", (0..self.plain.len()).find(differs)))
    }

    /// Format with these numbers, and back.
    fn format(&mut self, numbers: [u32; 6]) -> Same {
        let before = self.plain.clone();
        let plain = calls::format(&mut self.plain, numbers);
        same("format", plain, fast::format(&mut self.fast, numbers))?;
        self.words()?;
        self.plain.clone_from(&before);
        self.fast = before;
        Ok(())
    }

    /// Every call on a store that may be damaged, and back after each.
    fn all_calls(&mut self, random: &mut Random) -> Same {
        let key = match self.plain.get(12..) {
            Some(words) if !words.is_empty() && random.one_in(2) => random.pick(words),
            _ => random.word() >> random.below(32),
        };
        self.read(key)?;
        self.read(key.wrapping_add(1))?;
        let before = self.plain.clone();
        for payload in [Some(random.word()), None] {
            self.change(key, payload)?;
            self.plain.clone_from(&before);
            self.fast.clone_from(&before);
        }
        let numbers = [0, 1, 2, 3, 4, 5].map(|at| before.get(at).copied().unwrap_or(4));
        self.format(numbers)
    }

    /// So many random calls.
    fn calls(&mut self, random: &mut Random, geometry: Geometry, calls: usize) -> Same {
        let keys = unreachable::map(&self.plain).into_keys().collect();
        let mut stream = Stream::new(random, geometry, keys);
        for _ in 0..calls {
            match stream.call(random) {
                Line::Put(key, payload) => self.change(key, Some(payload))?,
                Line::Delete(key) => self.change(key, None)?,
                Line::Get(key) => {
                    self.read(key)?;
                    continue;
                }
                Line::Format(_) => continue,
            };
        }
        Ok(())
    }
}

/// Call lists over many geometries, from formatted stores and from stores that no
/// call list reaches.
#[test]
fn same_over_histories() {
    let mut random = Random::new(seed() ^ 0x1111);
    let choices = [Choices::new(2500), Choices::new(16384)];
    let (mut merges, mut compacted) = ([0; 3], 0);
    for round in 0..3000 {
        let geometry = choices[usize::from(round % 8 == 0)].pick(&mut random);
        let words = match round % 3 {
            0 => formatted(geometry),
            _ => unreachable::store(&mut random, geometry),
        };
        let mut both = Both::new(words);
        let calls = match round % 3 {
            0 => (3 * geometry.key_limit() + 60).min(900),
            _ => random.between(3, 60),
        };
        both.calls(&mut random, geometry, calls)
            .unwrap_or_else(|text| panic!("{round} {:?}: {text}", geometry.numbers()));
        for (sum, more) in merges.iter_mut().zip(both.merges) {
            *sum += more;
        }
        compacted += both.compacted;
    }
    println!("merges {merges:?}, blocks written compacting {compacted}");
    assert!(merges.iter().all(|&merges| merges > 500) && compacted > 500);
}

/// The same on large stores, among them some of the longest.
#[test]
fn same_on_large_stores() {
    let mut random = Random::new(seed() ^ 0x2222);
    let choices = Choices::new(288_524);
    let longest = [
        [16, 1, 2, 8, 3, 8192],
        [16, 4, 4, 8, 2, 8192],
        [16, 16, 16, 4, 1, 8192],
        [16, 8, 16, 8, 1, 8192],
    ];
    for round in 0..30 {
        let geometry = match longest.get(round) {
            Some(&numbers) => Geometry::new(numbers).expect("a legal geometry"),
            None => choices.pick(&mut random),
        };
        let mut both = Both::new(unreachable::store(&mut random, geometry));
        both.calls(&mut random, geometry, 40)
            .unwrap_or_else(|text| panic!("{:?}: {text}", geometry.numbers()));
    }
}

/// Stores with each clause of the form check broken, with any words changed, cut
/// and made longer, and at the borders of the rules: every call on each.
#[test]
fn same_on_damaged_stores() {
    let mut random = Random::new(seed() ^ 0x3333);
    let choices = Choices::new(2500);
    let mut stores = borders(&mut random);
    for breach in Breach::ALL {
        for _ in 0..40 {
            let geometry = choices.pick(&mut random);
            stores.extend(damaged(&mut random, geometry, breach));
        }
    }
    for _ in 0..3000 {
        let geometry = choices.pick(&mut random);
        let mut words = unreachable::store(&mut random, geometry);
        if !random.one_in(4) {
            words = one_word(&mut random, &words);
        }
        for _ in 0..random.below(3) {
            let (to, from) = (random.below(words.len()), random.below(words.len()));
            words[to] = random.pick(&[words[from], words[to] ^ 1, 0, u32::MAX]);
        }
        match random.below(20) {
            0 => words.truncate(random.below(13)),
            1 => words.truncate(random.below(words.len())),
            2 => words.push(random.word()),
            3 => words[random.below(6)] = random.word() >> random.below(32),
            _ => {}
        }
        stores.push(words);
    }
    let mut reasons = [0; 5];
    for words in stores {
        reasons[calls::check(&words) as usize] += 1;
        let mut both = Both::new(words);
        let result = both.all_calls(&mut random);
        result.unwrap_or_else(|text| panic!("{:?}: {text}", both.plain.get(..12)));
    }
    println!("reasons {reasons:?}");
    assert!(reasons.iter().all(|&stores| stores > 0));
}

/// Document 02's card 4, at each run of `w` neighbours: "the lower end is [..] the number of
/// blocks below whose last key is below the run's first key, the upper one the number whose
/// first key isn't above its last".
fn ends_are_counts(fast: &merge::Work, upper: usize, w: usize, above: &[Span], below: &[Span]) {
    let count = |met: &dyn Fn(&Span) -> bool| below.iter().filter(|&block| met(block)).count();
    let runs: Vec<_> = fast.runs(upper, w).collect();
    assert_eq!(runs.len(), above.len() - w + 1);
    for (at, (run, blocks)) in runs.iter().zip(above.windows(w)).enumerate() {
        let (first, last) = (blocks[0].first, blocks[w - 1].last);
        assert_eq!(run.first, at);
        assert_eq!(run.start, count(&|block| block.last < first));
        assert_eq!(run.end, count(&|block| block.first <= last));
    }
    let forward = |two: &[merge::Run]| two[0].start <= two[1].start && two[0].end <= two[1].end;
    assert!(runs.windows(2).all(forward), "an end goes back");
}

/// The same for all runs out of every level of random stores, with a random window.
#[test]
fn ends_of_the_choice() {
    let mut random = Random::new(seed() ^ 0x5555);
    let choices = [Choices::new(2500), Choices::new(16384)];
    let mut levels = [0; 3];
    for round in 0..1500 {
        let geometry = choices[usize::from(round % 8 == 0)].pick(&mut random);
        let mut words = unreachable::store(&mut random, geometry);
        // The pages of level 0 are there only where it is full.
        let full = words[COUNTS] as usize == geometry.level_zero_records();
        let plain = work::Work::open(&mut words).expect("a store");
        let spans: Vec<_> = (0..=geometry.levels()).map(|i| plain.spans(i)).collect();
        let shape = Shape::new(geometry.numbers()).expect("a legal geometry");
        let fast = merge::Work::open(&mut words, &shape);
        for upper in usize::from(!full)..geometry.levels() {
            let (above, below) = (&spans[upper], &spans[upper + 1]);
            if !above.is_empty() {
                let w = random.between(1, above.len());
                ends_are_counts(&fast, upper, w, above, below);
                levels[upper] += 1;
            }
        }
    }
    println!("levels {levels:?}");
    assert!(levels.iter().all(|&levels| levels > 50));
}

/// Every legal geometry of few slots and its neighbours: format answers the same.
#[test]
fn same_limits() {
    let mut random = Random::new(seed() ^ 0x4444);
    for geometry in legal_geometries(288_524) {
        let numbers = geometry.numbers();
        let mut near = numbers;
        let at = random.below(6);
        near[at] = random.pick(&[numbers[at] + 1, numbers[at] - 1, 0, u32::MAX]);
        for numbers in [numbers, near] {
            let mut few = vec![0; 12 + random.below(3)];
            few[..6].copy_from_slice(&numbers);
            let plain = calls::format(&mut few.clone(), numbers);
            assert_eq!(plain, fast::format(&mut few, numbers), "{numbers:?}");
            assert_eq!(calls::check(&few), fast::check(&few), "{numbers:?}");
        }
    }
}

/// These comparisons are able to fail: each wrong variant of the plain
/// implementation is found out.
#[test]
fn differences_are_found_out() {
    use Fault::*;
    let faults = [
        CancelInMiddle,
        ReuseTombstonesAtBottom,
        PairRuleOnlyForBuffer,
        HighestOfEquals,
        NoJoinAbove,
        SlotsFreeTooSoon,
        NoCompactionAbove,
    ];
    for fault in faults {
        let mut random = Random::new(7);
        let choices = Choices::new(6000);
        let found = (0..600).find_map(|round| {
            let geometry = choices.pick(&mut random);
            let mut both = Both::new(unreachable::store(&mut random, geometry));
            set(Some(fault));
            let result = both.calls(&mut random, geometry, 60);
            set(None);
            result.err().map(|text| (round, text))
        });
        println!("{fault:?}: {found:?}");
        assert!(found.is_some(), "{fault:?} is not found out");
    }
}
