//! Stores whose next new key makes five merges or six. Levels 0, 1 and 2 are just full,
//! and the records of each stand one by one between the blocks of the level below. So a
//! merge reuses the blocks below and writes a block for each record between them, the
//! level below grows by more than a window, and merges more than once. And call lists
//! that come to such a store from a formatted one.

use crate::block::{write_slot, Record};
use crate::geometry::Geometry;
use crate::layout::{COUNTS, CURSOR, LIVE};
use crate::level::View;
use crate::random::Random;
use crate::script::Line;
use crate::unreachable::shuffled;

/// How such a store is made. w is 1, G and h are 3: a page of level 0 goes into three
/// blocks of level 1, and three of these into nine of level 2.
#[derive(Clone, Copy, Debug)]
pub struct Cascade {
    /// B, w, d, G, h, P.
    pub numbers: [u32; 6],
    /// The merges that the next new key makes.
    pub merges: usize,
    /// The lowest page is the one that leaves. It has so many records before, between
    /// and after the three lowest blocks of level 1, and so many blocks of level 2 stand
    /// between the records of each such group.
    page: [(usize, usize); 4],
    /// So many blocks of level 2 stand between the records of each of these three
    /// blocks, and so many on each side of it: a run of groups and blocks is not to
    /// overlap fewer than a run of the blocks above it does.
    lowest: (usize, usize),
    /// The same between the records of the other blocks of level 1, in turn. A block
    /// with none is reused and makes level 2 grow by one more.
    others: [usize; 3],
}

impl Cascade {
    /// All of them, small stores first.
    pub const ALL: [Cascade; 3] = [
        Cascade {
            numbers: [4, 1, 4, 3, 3, 632],
            merges: 5,
            page: [(1, 0); 4],
            lowest: (3, 1),
            others: [3, 2, 2],
        },
        Cascade {
            numbers: [4, 1, 10, 3, 3, 1568],
            merges: 5,
            page: [(1, 0); 4],
            lowest: (3, 1),
            others: [3, 2, 2],
        },
        Cascade {
            numbers: [16, 1, 16, 3, 3, 2504],
            merges: 6,
            page: [(5, 4), (2, 1), (5, 4), (4, 3)],
            lowest: (4, 0),
            others: [4, 4, 0],
        },
    ];

    /// Its geometry.
    pub fn geometry(self) -> Geometry {
        Geometry::new(self.numbers).expect("the geometries of all cascades are legal")
    }

    /// Such a store, with random steps from key to key, payloads, tombstones, slots and
    /// allocation cursor. It has room for a new key, and key 0 is none of its own.
    pub fn store(self, random: &mut Random) -> Vec<u32> {
        let geometry = self.geometry();
        let step = random.pick(&[1, 2, 30, 900_000]);
        let (zero, flash) = self.levels(random, step);
        let mut slots = shuffled(random, geometry.slots());
        let mut words = vec![0; geometry.length()];
        for word in &mut words[geometry.slots_at()..] {
            *word = random.word() >> random.below(32);
        }
        words[CURSOR] = random.below(geometry.slots()) as u32;
        lay_out(geometry, &mut words, &zero, &flash, &mut slots);
        words
    }

    /// A call list that comes to such a store from a formatted one, but for level 3, which
    /// is empty; its last call, a put, makes five merges. The blocks of level 2 come
    /// first, from low keys to high ones, then those of level 1, and behind every three
    /// of them the page that stands among these. A page or run that overlaps nothing
    /// leaves before one that overlaps something: so the blocks go down, and the pages
    /// that stand among blocks stay. Every record is put, and two of five are deleted at
    /// once, which turns them into tombstones in level 0 and keeps live below N.
    pub fn call_list(self) -> Vec<Line> {
        let (zero, flash) = self.levels(&mut Random::new(1), 1);
        let around = flash[0].chunks(3).zip(zero.chunks(self.geometry().block()));
        let mut records = flash[1].concat();
        records.extend(around.flat_map(|(blocks, page)| [&blocks.concat(), page].concat()));
        let mut lines = vec![Line::Format(self.numbers)];
        for (number, Record { key, .. }) in records.into_iter().enumerate() {
            lines.push(Line::Put(key, 1000 + key));
            if number % 5 < 2 {
                lines.push(Line::Delete(key));
            }
        }
        lines.push(Line::Put(0, 1000));
        lines
    }

    /// The records of level 0 and the blocks of levels 1 to 3, with steps of up to this
    /// from key to key.
    fn levels(self, random: &mut Random, step: usize) -> (Vec<Record>, Vec<Vec<Vec<Record>>>) {
        let geometry = self.geometry();
        let mut rising = Rising::new(random, geometry, step);
        self.lowest_page(&mut rising);
        self.other_pages(&mut rising);
        while rising.flash[1].len() < geometry.capacity(2) {
            rising.lower_block();
        }
        (rising.zero, rising.flash)
    }

    /// The page that leaves, among the three lowest blocks of level 1.
    fn lowest_page(self, rising: &mut Rising) {
        let (within, beside) = self.lowest;
        for (number, (records, between)) in self.page.into_iter().enumerate() {
            rising.spread(0, records, between);
            if number < 3 {
                (0..beside).for_each(|_| rising.lower_block());
                rising.block(within);
                (0..beside).for_each(|_| rising.lower_block());
            }
        }
    }

    /// The other pages of level 0, each among three blocks of level 1.
    fn other_pages(self, rising: &mut Rising) {
        let (b, pages) = (rising.b, self.geometry().capacity(0));
        for _ in 1..pages {
            for number in 0..4 {
                rising.spread(0, part(b, 4, number), 0);
                if number < 3 {
                    rising.block(self.others[number]);
                }
            }
        }
    }
}

/// The records of all levels, made in the order of their keys.
struct Rising<'a> {
    random: &'a mut Random,
    b: usize,
    key: u32,
    /// The greatest step from key to key.
    step: usize,
    /// Puts that levels 0 to 2 may still have.
    puts: usize,
    zero: Vec<Record>,
    /// The blocks of levels 1 to 3.
    flash: Vec<Vec<Vec<Record>>>,
}

impl<'a> Rising<'a> {
    /// No record yet.
    fn new(random: &'a mut Random, geometry: Geometry, step: usize) -> Rising<'a> {
        let b = geometry.block();
        // A block of level 3 goes with every second one of level 2; one key is to come.
        let puts = geometry.key_limit() - geometry.capacity(2) / 2 * b - 1;
        Rising {
            random,
            b,
            key: 0,
            step,
            puts,
            zero: Vec::new(),
            flash: vec![Vec::new(); 3],
        }
    }

    /// The next record, for this level.
    fn record(&mut self, level: usize) -> Record {
        self.key += self.random.between(1, self.step) as u32;
        let put = level == 3 || self.puts > 0 && self.random.one_in(3);
        if put && level < 3 {
            self.puts -= 1;
        }
        Record {
            key: self.key,
            payload: if put { self.random.word() } else { 0 },
            tombstone: !put,
        }
    }

    /// Records of level 0 or of the last block of level 1, with so many blocks of level
    /// 2 between them.
    fn spread(&mut self, level: usize, records: usize, between: usize) {
        for number in 0..=between {
            for _ in 0..part(records, between + 1, number) {
                let record = self.record(level);
                match self.flash[0].last_mut() {
                    Some(block) if level == 1 => block.push(record),
                    _ => self.zero.push(record),
                }
            }
            if number < between {
                self.lower_block();
            }
        }
    }

    /// A block of level 1, with so many blocks of level 2 between its records.
    fn block(&mut self, between: usize) {
        self.flash[0].push(Vec::new());
        self.spread(1, self.b, between);
    }

    /// A block of level 2, and after every second one a block of level 3.
    fn lower_block(&mut self) {
        let records = (0..self.b).map(|_| self.record(2)).collect();
        self.flash[1].push(records);
        if self.flash[1].len().is_multiple_of(2) {
            let records = (0..self.b).map(|_| self.record(3)).collect();
            self.flash[2].push(records);
        }
    }
}

/// The share of this number if so many records go into so many parts.
fn part(records: usize, parts: usize, number: usize) -> usize {
    records / parts + usize::from(number < records % parts)
}

/// Writes a store of this geometry: these records in level 0 and these blocks in the
/// levels on flash, at the last of these slots first; live is counted. Whatever the form
/// check says of it.
pub fn lay_out(
    geometry: Geometry,
    words: &mut [u32],
    zero: &[Record],
    flash: &[Vec<Vec<Record>>],
    slots: &mut Vec<u32>,
) {
    let b = geometry.block();
    words[..6].copy_from_slice(&geometry.numbers());
    words[COUNTS] = zero.len() as u32;
    for (index, record) in zero.iter().enumerate() {
        words[geometry.tombstones_at() + index / b] |= u32::from(record.tombstone) << (index % b);
        words[geometry.keys_at() + index] = record.key;
        words[geometry.payloads_at() + index] = record.payload;
    }
    for (level, blocks) in (1..).zip(flash) {
        words[COUNTS + level] = blocks.len() as u32;
        for (index, records) in blocks.iter().enumerate() {
            let slot = slots.pop().expect("a slot for each block");
            write_slot(geometry, words, slot, records);
            words[geometry.list_at(level) + index] = slot;
        }
    }
    words[LIVE] = View { geometry, words }.count_live() as u32;
}
