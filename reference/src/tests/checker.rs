//! A store with a finite map beside it: every call is compared with the map, and
//! every merge of its list with the rules of document 01.

use crate::block::{Block, Record, Span};
use crate::calls::{self, Changed, Counts};
use crate::geometry::Geometry;
use crate::layout::{COUNTS, LIVE};
use crate::level::View;
use crate::merge::merge_lists;
use crate::random::Random;
use crate::script::Line;
use crate::unreachable;
use crate::work::{newly_in_use, Compaction, Merge, Work};
use std::collections::{BTreeMap, BTreeSet};

/// What the random tests have met.
#[derive(Clone, Debug, Default)]
pub struct Statistics {
    pub stores: usize,
    pub calls: usize,
    pub merges: usize,
    pub merges_out_of: [usize; 3],
    pub calls_with_several: usize,
    pub most_merges: usize,
    pub compactions: usize,
    pub compactions_above: usize,
    pub joins_above: usize,
    pub refused_full: usize,
    pub absent_deletes: usize,
    /// Merges in which q is above n divided by a/w, unrounded.
    pub above_unrounded: usize,
    /// Merges that write w + q + 1 blocks.
    pub at_write_bound: usize,
    /// Calls that write over a block in use at entry, which an earlier merge or
    /// compaction of the call took out of its level.
    pub over_entry: usize,
}

/// What is wrong, in words.
pub type Checked = Result<(), String>;

/// An error with its text unless the condition holds.
macro_rules! ensure {
    ($condition:expr, $($text:tt)*) => {
        if !$condition {
            return Err(format!($($text)*));
        }
    };
}

/// A store, its map and the counts.
pub struct Checker {
    pub words: Vec<u32>,
    pub map: BTreeMap<u32, u32>,
    geometry: Geometry,
    pub statistics: Statistics,
}

impl Checker {
    /// A store that passes the form check, with the map that it stands for.
    pub fn new(words: Vec<u32>, statistics: Statistics) -> Result<Checker, String> {
        ensure!(
            calls::check(&words) == 0,
            "the store is turned down at the start"
        );
        let geometry = View::of(&words)
            .map_err(|refusal| refusal.to_string())?
            .geometry;
        let map = unreachable::map(&words);
        let statistics = Statistics {
            stores: statistics.stores + 1,
            ..statistics
        };
        Ok(Checker {
            words,
            map,
            geometry,
            statistics,
        })
    }

    /// One call with everything that is to hold of it.
    pub fn call(&mut self, line: Line, random: &mut Random) -> Checked {
        self.statistics.calls += 1;
        let key = match line {
            Line::Put(key, payload) => {
                self.put(key, payload)?;
                key
            }
            Line::Delete(key) => {
                self.delete(key)?;
                key
            }
            Line::Get(key) => key,
            Line::Format(_) => 0,
        };
        self.readings(key)?;
        if random.one_in(3) {
            self.readings(random.word())?;
        }
        if random.one_in(60) {
            self.sweep()?;
        }
        Ok(())
    }

    /// A put: refusal 5 exactly for a new key while the map holds N.
    fn put(&mut self, key: u32, payload: u32) -> Checked {
        let entry = self.words.clone();
        let (answer, merges) = calls::put_listed(&mut self.words, key, payload);
        let live_before = self.map.contains_key(&key);
        if !live_before && self.map.len() == self.geometry.key_limit() {
            self.statistics.refused_full += 1;
            let refused = Changed {
                refusal: 5,
                ..Changed::default()
            };
            ensure!(answer == refused, "a full store answers {answer:?}");
            ensure!(
                merges.is_empty() && self.words == entry,
                "a refused put changed the store"
            );
            return Ok(());
        }
        self.map.insert(key, payload);
        ensure!(answer.refusal == 0, "refusal {}", answer.refusal);
        ensure!(answer.live_before == live_before, "live before {key}");
        self.changed(
            &entry,
            Record {
                key,
                payload,
                tombstone: false,
            },
            answer,
            &merges,
        )
    }

    /// A delete: an absent key changes nothing.
    fn delete(&mut self, key: u32) -> Checked {
        let entry = self.words.clone();
        let (answer, merges) = calls::delete_listed(&mut self.words, key);
        if self.map.remove(&key).is_none() {
            self.statistics.absent_deletes += 1;
            ensure!(
                answer == Changed::default(),
                "absent delete answers {answer:?}"
            );
            ensure!(
                merges.is_empty() && self.words == entry,
                "an absent delete changed the store"
            );
            return Ok(());
        }
        ensure!(
            answer.refusal == 0 && answer.live_before,
            "delete answers {answer:?}"
        );
        self.changed(
            &entry,
            Record {
                key,
                payload: 0,
                tombstone: true,
            },
            answer,
            &merges,
        )
    }

    /// What holds after an accepted put or delete with its list of merges.
    fn changed(
        &mut self,
        entry: &[u32],
        record: Record,
        answer: Changed,
        merges: &[Merge],
    ) -> Checked {
        ensure!(
            calls::check(&self.words) == 0,
            "the store no longer passes the form check"
        );
        ensure!(self.words[LIVE] as usize == self.map.len(), "live is wrong");
        ensure!(
            answer.levels == sums(merges),
            "the counts are not the sums over the list"
        );
        ensure!(answer.levels[0].merges <= 1, "two merges into level 1");
        self.level_zero(entry, record, merges)?;
        self.replay(entry, merges)?;
        self.untouched(entry, merges)?;
        self.parts(entry, merges)?;
        self.count(merges);
        Ok(())
    }

    /// Level 0 is as at entry, less the run, with the call's record.
    fn level_zero(&self, entry: &[u32], record: Record, merges: &[Merge]) -> Checked {
        let before = View {
            geometry: self.geometry,
            words: entry,
        };
        let found = before.zero_search(record.key).is_ok();
        let due = !found && before.count(0) == self.geometry.level_zero_records();
        ensure!(
            due != merges.is_empty(),
            "merges are due: {due}, made: {}",
            merges.len()
        );
        let mut zero = zero_records(before);
        if let Some(first) = merges.first() {
            let b = self.geometry.block();
            zero.drain(first.run * b..(first.run + first.w) * b);
        }
        zero.retain(|old| old.key != record.key);
        let at = zero.partition_point(|old| old.key < record.key);
        zero.insert(at, record);
        let after = View {
            geometry: self.geometry,
            words: &self.words,
        };
        ensure!(zero_records(after) == zero, "level 0 is wrong");
        Ok(())
    }

    /// The list again from the store at entry, merge by merge.
    fn replay(&mut self, entry: &[u32], merges: &[Merge]) -> Checked {
        let mut copy = entry.to_vec();
        let mut work = Work::open(&mut copy).ok_or("no store")?;
        for (number, merge) in merges.iter().enumerate() {
            let due = if number == 0 {
                Some(0)
            } else {
                deepest(self.geometry, &work)
            };
            ensure!(
                due == Some(merge.upper),
                "merge {number} is out of {}",
                merge.upper
            );
            let joined = one_merge(self.geometry, &mut work, merge)?;
            self.statistics.joins_above += joined;
        }
        let left = if merges.is_empty() {
            None
        } else {
            deepest(self.geometry, &work)
        };
        ensure!(
            left.is_none(),
            "level {left:?} still holds more than K blocks"
        );
        work.close();
        copy[LIVE] = self.words[LIVE];
        copy[COUNTS] = self.words[COUNTS];
        let zero = self.geometry.tombstones_at()..self.geometry.list_at(1);
        copy[zero.clone()].copy_from_slice(&self.words[zero]);
        ensure!(copy == self.words, "the store is not what the list leaves");
        Ok(())
    }

    /// No slot changes but those newly in use after some merge or compaction; the
    /// lists at entry and at the end are those of the first and last merge.
    fn untouched(&self, entry: &[u32], merges: &[Merge]) -> Checked {
        let mut written = BTreeSet::new();
        let mut in_use = listed(self.geometry, entry);
        for merge in merges {
            ensure!(merge.before == in_use, "places in use before a merge");
            written.extend(newly_in_use(&merge.before, &merge.after));
            in_use = merge.after.clone();
            for compaction in &merge.compactions {
                ensure!(
                    compaction.before == in_use,
                    "places in use before a compaction"
                );
                written.extend(newly_in_use(&compaction.before, &compaction.after));
                in_use = compaction.after.clone();
            }
        }
        ensure!(
            listed(self.geometry, &self.words) == in_use,
            "places in use at the end"
        );
        for slot in 0..self.geometry.slots() {
            let words = self.geometry.slot_at(slot)..self.geometry.slot_at(slot + 1);
            let same = entry[words.clone()] == self.words[words];
            ensure!(
                same || written.contains(&(slot as u32)),
                "slot {slot} changed"
            );
        }
        Ok(())
    }

    /// What `mewilovang.h` says of the words that a put or delete changes: never
    /// words 0 to 5; without a merge nothing but live, c and level 0; with one merge
    /// and no compaction no place that a list named at entry.
    fn parts(&mut self, entry: &[u32], merges: &[Merge]) -> Checked {
        let same = |at: usize| entry[at] == self.words[at];
        ensure!((0..LIVE).all(same), "a word of the geometry changed");
        if merges.is_empty() {
            let counts = (LIVE + 1..COUNTS).chain(COUNTS + 1..self.geometry.tombstones_at());
            let rest = self.geometry.list_at(1)..entry.len();
            ensure!(counts.chain(rest).all(same), "a call without a merge");
        }
        let over = listed(self.geometry, entry).into_iter().any(|slot| {
            let at = self.geometry.slot_at(slot as usize);
            !(at..at + self.geometry.slot_words()).all(same)
        });
        let compacted = merges.iter().any(|merge| !merge.compactions.is_empty());
        ensure!(
            !over || merges.len() > 1 || compacted,
            "one merge wrote over a block in use"
        );
        self.statistics.over_entry += usize::from(over);
        Ok(())
    }

    /// Look up, next and about, at and around a key, agree with the map.
    fn readings(&self, key: u32) -> Checked {
        let found = calls::look_up(&self.words, key);
        let expected = self.map.get(&key).copied();
        ensure!(found.refusal == 0, "look up refused");
        ensure!(
            found.found.then_some(found.payload) == expected,
            "look up {key}: {found:?}"
        );
        for from in [key, key.saturating_add(1)] {
            let next = calls::next(&self.words, from);
            let expected = self
                .map
                .range(from..)
                .next()
                .map(|(&key, &payload)| (key, payload));
            let given = next.found.then_some((next.key, next.payload));
            ensure!(
                next.refusal == 0 && given == expected,
                "next {from}: {next:?}"
            );
        }
        let about = calls::about(&self.words);
        ensure!(
            about.refusal == 0 && about.live as usize == self.map.len(),
            "about: {about:?}"
        );
        Ok(())
    }

    /// The whole map by the walk and by stretch, every key by look up through one view.
    pub fn sweep(&self) -> Checked {
        let view = View {
            geometry: self.geometry,
            words: &self.words,
        };
        for (&key, &payload) in &self.map {
            ensure!(view.look_up(key) == Some(payload), "look up {key}");
        }
        ensure!(
            unreachable::map(&self.words) == self.map,
            "the walk differs from the map"
        );
        let (mut keys, mut payloads) = (vec![0; self.map.len()], vec![0; self.map.len()]);
        let all = calls::stretch(&self.words, 0, u32::MAX, &mut keys, &mut payloads);
        ensure!(!all.more && all.refusal == 0, "the whole stretch: {all:?}");
        ensure!(
            keys.iter().zip(&payloads).eq(&self.map),
            "the whole stretch differs from the map"
        );
        Ok(())
    }

    /// Counts what the list met.
    fn count(&mut self, merges: &[Merge]) {
        let s = &mut self.statistics;
        s.merges += merges.len();
        s.calls_with_several += usize::from(merges.len() > 1);
        s.most_merges = s.most_merges.max(merges.len());
        for merge in merges {
            s.merges_out_of[merge.upper] += 1;
            s.compactions += merge.compactions.len();
            let above = merge.compactions.iter().filter(|c| c.level == merge.upper);
            s.compactions_above += above.count();
            s.above_unrounded += usize::from(merge.q * merge.a > merge.n * merge.w);
            s.at_write_bound += usize::from(merge.writes() == merge.w + merge.q + 1);
        }
    }
}

/// The three counts for each level, made once more from the places of the list.
fn sums(merges: &[Merge]) -> [Counts; 3] {
    let new = |before: &[u32], after: &[u32]| {
        let before: BTreeSet<_> = before.iter().collect();
        after.iter().filter(|slot| !before.contains(slot)).count() as u32
    };
    let mut levels = [Counts::default(); 3];
    for merge in merges {
        levels[merge.upper].merges += 1;
        levels[merge.upper].merge_writes += new(&merge.before, &merge.after);
        for compaction in &merge.compactions {
            let writes = new(&compaction.before, &compaction.after);
            levels[compaction.level - 1].compaction_writes += writes;
        }
    }
    levels
}

/// The records of level 0.
fn zero_records(view: View) -> Vec<Record> {
    (0..view.count(0))
        .map(|index| view.zero_record(index))
        .collect()
}

/// The slots that the lists of a store name, sorted.
fn listed(geometry: Geometry, words: &[u32]) -> Vec<u32> {
    let view = View { geometry, words };
    let lists = (1..=geometry.levels()).flat_map(|level| view.list(level));
    lists
        .copied()
        .collect::<BTreeSet<u32>>()
        .into_iter()
        .collect()
}

/// The deepest level above K(i), looked at from the top.
pub fn deepest(geometry: Geometry, work: &Work) -> Option<usize> {
    let mut found = None;
    for level in 1..=geometry.levels() {
        if work.list(level).len() > geometry.capacity(level) {
            found = Some(level);
        }
    }
    found
}

/// The records of a level in key order, level 0 in whole pages.
fn level_records(work: &Work, level: usize) -> Vec<Record> {
    let blocks = work.blocks(level, 0..work.spans(level).len());
    blocks.into_iter().flat_map(|block| block.records).collect()
}

/// Makes one merge of the list again and checks it against the rules; answers
/// the number of blocks that its step 2 wrote.
fn one_merge(geometry: Geometry, work: &mut Work, merge: &Merge) -> Result<usize, String> {
    let (above, below) = (work.spans(merge.upper), work.spans(merge.upper + 1));
    chosen(geometry, merge, &above, &below)?;
    bounds(geometry, merge)?;
    let upper = level_records(work, merge.upper);
    let lower = level_records(work, merge.upper + 1);
    let (run, cursor) = (run_records(work, merge), work.cursor());
    let (joined, written) = block_figures(geometry, work, merge)?;
    let again = work.merge(merge.upper);
    ensure!(again == *merge, "the merge made again differs");
    ensure!(
        merge.writes() == joined + written,
        "{} writes",
        merge.writes()
    );
    slots_taken(geometry, work, merge, cursor)?;
    contents(geometry, work, merge, upper, lower, run)?;
    Ok(joined)
}

/// The first free places after hand, going round, one after the other.
fn free_after(geometry: Geometry, hand: &mut usize, in_use: &[u32], count: usize) -> Vec<u32> {
    let mut taken = Vec::new();
    while taken.len() < count {
        *hand = (*hand + 1) % geometry.slots();
        let slot = *hand as u32;
        if !in_use.contains(&slot) && !taken.contains(&slot) {
            taken.push(slot);
        }
    }
    taken
}

/// The slots that a merge and its compactions took are the ones due, in order:
/// step 2's block first, then the blocks of the level below in key order.
fn slots_taken(geometry: Geometry, work: &Work, merge: &Merge, mut hand: usize) -> Checked {
    let sorted = |slots: &[u32]| slots.iter().copied().collect::<BTreeSet<u32>>();
    let taken = free_after(geometry, &mut hand, &merge.before, merge.writes());
    let new: BTreeSet<u32> = newly_in_use(&merge.before, &merge.after).collect();
    ensure!(sorted(&taken) == new, "a merge took {new:?}, not {taken:?}");
    if merge.compactions.is_empty() {
        let upper = if merge.upper == 0 {
            &[]
        } else {
            work.list(merge.upper)
        };
        let lists = upper.iter().chain(work.list(merge.upper + 1)).copied();
        let order: Vec<u32> = lists.filter(|slot| new.contains(slot)).collect();
        ensure!(
            order == taken,
            "slots in the order {order:?}, not {taken:?}"
        );
    }
    compaction_slots(geometry, work, merge, &mut hand)?;
    ensure!(
        work.cursor() == hand,
        "hand at {}, not {hand}",
        work.cursor()
    );
    Ok(())
}

/// Step 5's blocks take the slots due in key order; level i comes before i + 1.
fn compaction_slots(geometry: Geometry, work: &Work, merge: &Merge, hand: &mut usize) -> Checked {
    let mut last_level = 0;
    for Compaction { level, before, .. } in &merge.compactions {
        let due = [merge.upper, merge.upper + 1].contains(level);
        ensure!(due && *level > last_level, "compaction of {level}");
        last_level = *level;
        let list = work.list(*level);
        let taken = free_after(geometry, hand, before, list.len());
        ensure!(list == taken, "compaction took {list:?}, not {taken:?}");
        let records = level_records(work, *level).len();
        ensure!(
            list.len() == records.div_ceil(geometry.block()),
            "compaction is not full"
        );
    }
    Ok(())
}

/// Where the run's records begin and end in the upper level.
fn run_records(work: &Work, merge: &Merge) -> std::ops::Range<usize> {
    let sizes = work.blocks(merge.upper, 0..merge.run + merge.w);
    let start: usize = sizes[..merge.run].iter().map(|block| block.len()).sum();
    let length: usize = sizes[merge.run..].iter().map(|block| block.len()).sum();
    start..start + length
}

/// The run that overlaps fewest blocks, lowest of equals, by trying all pairs: its
/// overlap and its first block.
pub fn fewest(above: &[Span], below: &[Span], w: usize) -> Option<(usize, usize)> {
    let mut best: Option<(usize, usize)> = None;
    for first in 0..=above.len() - w {
        let (low, high) = (above[first].first, above[first + w - 1].last);
        let meets = |block: &&Span| block.last >= low && block.first <= high;
        let overlap = below.iter().filter(meets).count();
        if best.is_none_or(|(least, _)| overlap < least) {
            best = Some((overlap, first));
        }
    }
    best
}

/// The run of a merge is that one.
fn chosen(geometry: Geometry, merge: &Merge, above: &[Span], below: &[Span]) -> Checked {
    let w = geometry.window(merge.upper);
    ensure!(
        merge.w == w && merge.a == above.len() && merge.n == below.len(),
        "w, a or n"
    );
    let best = fewest(above, below, w);
    ensure!(
        best == Some((merge.q, merge.run)),
        "run {} with {}, not {best:?}",
        merge.run,
        merge.q
    );
    Ok(())
}

/// Demand 3's bounds on q and on the blocks written.
fn bounds(geometry: Geometry, merge: &Merge) -> Checked {
    let (w, q) = (merge.w, merge.q);
    ensure!(
        q <= merge.n.div_ceil(merge.a / w),
        "q = {q} above the rounded average"
    );
    let writes = merge.writes();
    ensure!(writes <= w + q + 1, "{writes} writes, w {w}, q {q}");
    ensure!(
        writes <= (geometry.growth() + 1) * w + 1,
        "{writes} writes, w {w}"
    );
    ensure!(
        merge.upper > 0 || writes <= w + q,
        "{writes} writes out of level 0"
    );
    Ok(())
}

/// Steps 1 to 4 over whole lists: both levels keep the pair rule, and the numbers
/// of new blocks in the upper and in the lower level are answered.
fn block_figures(geometry: Geometry, work: &Work, merge: &Merge) -> Result<(usize, usize), String> {
    let blocks = |level| work.blocks(level, 0..work.spans(level).len());
    let (b, bottom) = (geometry.block(), merge.upper + 1 == geometry.levels());
    let (upper, lower) = (blocks(merge.upper), blocks(merge.upper + 1));
    let merged = merge_lists(b, bottom, merge.w, &upper, &lower).ok_or("no run")?;
    let on_flash = if merge.upper == 0 {
        &[]
    } else {
        &merged.upper[..]
    };
    for level in [on_flash, &merged.lower] {
        let sizes: Vec<usize> = level.iter().map(|block| block.len()).collect();
        ensure!(
            sizes.iter().all(|size| (1..=b).contains(size)),
            "block sizes {sizes:?}"
        );
        ensure!(
            sizes.windows(2).all(|pair| pair[0] + pair[1] > b),
            "pair rule {sizes:?}"
        );
    }
    let new = |blocks: &[Block]| blocks.iter().filter(|block| block.slot.is_none()).count();
    Ok((new(on_flash), new(&merged.lower)))
}

/// The upper level lost the run's records; the lower one has them, newer over
/// older, without tombstones in level h.
fn contents(
    geometry: Geometry,
    work: &Work,
    merge: &Merge,
    mut upper: Vec<Record>,
    lower: Vec<Record>,
    run: std::ops::Range<usize>,
) -> Checked {
    let moved: Vec<Record> = upper.drain(run).collect();
    ensure!(
        level_records(work, merge.upper) == upper,
        "records of the upper level"
    );
    let mut expected: BTreeMap<u32, Record> = BTreeMap::new();
    expected.extend(
        lower
            .iter()
            .chain(&moved)
            .map(|record| (record.key, *record)),
    );
    if merge.upper + 1 == geometry.levels() {
        expected.retain(|_, record| !record.tombstone);
    }
    let found = level_records(work, merge.upper + 1);
    ensure!(
        found.iter().eq(expected.values()),
        "records of the lower level"
    );
    Ok(())
}
