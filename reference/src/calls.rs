//! "Calls" and "Why a call is turned down" of document 01. Each call takes a
//! slice of words of any length and content; a refused call changes no word.

use crate::block::Record;
use crate::fault::{self, Fault};
use crate::form::checked;
use crate::geometry::Geometry;
use crate::layout::{COUNTS, CURSOR, HEADER, LIVE, MOST_LEVELS};
use crate::level::View;
use crate::work::{Merge, Work};

pub use crate::work::Ticket;

/// The answer of format: refusal number or 0, and N ("the answer has only the
/// number and zeros" when refused).
#[derive(Clone, Copy, Debug, Default, PartialEq, Eq)]
pub struct Formatted {
    pub refusal: u32,
    pub limit: u32,
}

/// The answer of look up.
#[derive(Clone, Copy, Debug, Default, PartialEq, Eq)]
pub struct Found {
    pub refusal: u32,
    pub found: bool,
    pub payload: u32,
}

/// The answer of next.
#[derive(Clone, Copy, Debug, Default, PartialEq, Eq)]
pub struct Next {
    pub refusal: u32,
    pub found: bool,
    pub key: u32,
    pub payload: u32,
}

/// The answer of stretch, the call of document 02's card 1.
#[derive(Clone, Copy, Debug, Default, PartialEq, Eq)]
pub struct Stretched {
    pub refusal: u32,
    /// Records written to the lent arrays.
    pub written: u32,
    /// Whether the stretch has further live records.
    pub more: bool,
}

/// The answer of about, an addition to document 01's calls.
#[derive(Clone, Copy, Debug, Default, PartialEq, Eq)]
pub struct About {
    pub refusal: u32,
    /// B, w, d, G, h, P.
    pub numbers: [u32; 6],
    /// Keys of the map.
    pub live: u32,
    /// N.
    pub limit: u32,
    /// Records in level 0, tombstones with them.
    pub top: u32,
    /// `blocks[i − 1]` is for level i; 0 above h.
    pub blocks: [u32; MOST_LEVELS],
}

/// What put and delete answer for one level.
#[derive(Clone, Copy, Debug, Default, PartialEq, Eq)]
pub struct Counts {
    /// Merges into the level.
    pub merges: u32,
    /// Blocks written by these merges.
    pub merge_writes: u32,
    /// Blocks written compacting the level.
    pub compaction_writes: u32,
}

/// The answer of put and delete; `levels[i − 1]` is for level i.
#[derive(Clone, Copy, Debug, Default, PartialEq, Eq)]
pub struct Changed {
    pub refusal: u32,
    /// Whether the key was live before the call.
    pub live_before: bool,
    pub levels: [Counts; MOST_LEVELS],
}

/// The answer of will_put_merge and will_delete_merge, for document 02's card 5.
#[derive(Clone, Copy, Debug, Default, PartialEq, Eq)]
pub struct Forecast {
    /// The reason 1 to 5 that the put or delete would be turned down with, or 0.
    pub reason: u32,
    /// Merges into level 1 that it would make, 0 or 1.
    pub merges: u32,
}

/// Format: "every word 0 but the six of the geometry and hand = P − 1; answers
/// N." Refusals 1, 2, 3 in this order, whatever the old words are (reading 17).
pub fn format(words: &mut [u32], numbers: [u32; 6]) -> Formatted {
    let refused = |refusal| Formatted { refusal, limit: 0 };
    if words.len() < HEADER {
        return refused(1);
    }
    let Some(geometry) = Geometry::new(numbers) else {
        return refused(2);
    };
    if words.len() != geometry.length() {
        return refused(3);
    }
    words.fill(0);
    words[..6].copy_from_slice(&numbers);
    words[CURSOR] = geometry.slots() as u32 - 1;
    Formatted {
        refusal: 0,
        limit: geometry.key_limit() as u32,
    }
}

/// Check: "the reason 1 to 4 that a store is turned down for, or 0."
pub fn check(words: &[u32]) -> u32 {
    checked(words).err().unwrap_or(0)
}

/// Look up k: "the first level from 0 down that has k decides; a mark or no record
/// is absent."
pub fn look_up(words: &[u32], key: u32) -> Found {
    match checked(words) {
        Err(refusal) => Found {
            refusal,
            ..Found::default()
        },
        Ok(view) => match view.look_up(key) {
            Some(payload) => Found {
                refusal: 0,
                found: true,
                payload,
            },
            None => Found::default(),
        },
    }
}

/// Next k: "the smallest live key at or above k with its payload, or none."
pub fn next(words: &[u32], key: u32) -> Next {
    let view = match checked(words) {
        Err(refusal) => {
            return Next {
                refusal,
                ..Next::default()
            }
        }
        Ok(view) => view,
    };
    match view.newest_from(key).find(|record| !record.tombstone) {
        Some(Record { key, payload, .. }) => Next {
            refusal: 0,
            found: true,
            key,
            payload,
        },
        None => Next::default(),
    }
}

/// Stretch, card 1 of document 02: "Given a first and a last key and two lent arrays,
/// one for keys and one for payloads, the store fills them with the live records of
/// that stretch in rising order and says how many it wrote and if more follow. If
/// the arrays differ in length, the shorter counts; a first key above the last gives
/// zero records. Entries behind the last written one keep their content. The list is
/// the map's stretch cut at that length."
pub fn stretch(
    words: &[u32],
    first: u32,
    last: u32,
    keys: &mut [u32],
    payloads: &mut [u32],
) -> Stretched {
    let view = match checked(words) {
        Err(refusal) => {
            return Stretched {
                refusal,
                ..Stretched::default()
            }
        }
        Ok(view) => view,
    };
    let records = live_stretch(view, first, last);
    let room = keys.len().min(payloads.len());
    let (written, left) = records.split_at(records.len().min(room));
    for (index, record) in written.iter().enumerate() {
        keys[index] = record.key;
        payloads[index] = record.payload;
    }
    if fault::is(Fault::TouchBehindWritten) {
        keys[written.len()..]
            .iter_mut()
            .take(1)
            .for_each(|key| *key = 0);
    }
    let mut more = !left.is_empty();
    if fault::is(Fault::MoreOfTheStore) {
        more = live_stretch(view, first, u32::MAX).len() > written.len();
    }
    Stretched {
        refusal: 0,
        written: written.len() as u32,
        more,
    }
}

/// The live records from the first key to the last, both included, in rising order.
fn live_stretch(view: View, first: u32, last: u32) -> Vec<Record> {
    let newest = view.newest_from(first);
    let mut records: Vec<Record> = newest.take_while(|record| record.key <= last).collect();
    if !fault::is(Fault::ListTombstones) {
        records.retain(|record| !record.tombstone);
    }
    if fault::is(Fault::LeaveOutLast) {
        records.retain(|record| record.key != last);
    }
    if fault::is(Fault::ListOlder) {
        let levels = 0..=view.geometry.levels();
        let oldest = |key| levels.clone().rev().find_map(|level| view.find(level, key));
        records = records
            .iter()
            .filter_map(|record| oldest(record.key))
            .collect();
    }
    records
}

/// Show i, k: "of level i, 1 to h, the words of the block whose first to last key
/// encloses k, given back as that part of the lent store; an empty part if there
/// is none, i is another number or the store is turned down." (Reading 20.)
pub fn show(words: &[u32], level: u32, key: u32) -> &[u32] {
    let Ok(view) = checked(words) else {
        return &words[..0];
    };
    let level = level as usize;
    if level < 1 || level > view.geometry.levels() {
        return &words[..0];
    }
    let slot = view.list(level).get(view.first_block(level, key));
    match slot.map(|&slot| view.slot(slot)) {
        Some(slot) if slot.span().first <= key => slot.words(),
        _ => &words[..0],
    }
}

/// About: "the reason, or the six numbers, live, N, the records in level 0 and the
/// blocks of each level." It counts what the levels hold, where the form check
/// says that the size words tell the same.
pub fn about(words: &[u32]) -> About {
    let view = match checked(words) {
        Err(refusal) => {
            return About {
                refusal,
                ..About::default()
            }
        }
        Ok(view) => view,
    };
    let mut blocks = [0; MOST_LEVELS];
    for level in 1..=view.geometry.levels() {
        blocks[level - 1] = view.list(level).len() as u32;
    }
    About {
        refusal: 0,
        numbers: view.geometry.numbers(),
        live: view.count_live() as u32,
        limit: view.geometry.key_limit() as u32,
        top: view.count(0) as u32,
        blocks,
    }
}

/// What a put of k, with any payload, would do, card 5 of document 02: "exactly one if
/// level 0 holds K(0) × B records and the key isn't among them, and none otherwise. [..]
/// A refused call makes none", one refused with 5 too (the card's reading 1).
pub fn will_put_merge(words: &[u32], key: u32) -> Forecast {
    let view = match checked(words) {
        Err(reason) => return Forecast { reason, merges: 0 },
        Ok(view) => view,
    };
    let refused = view.look_up(key).is_none() && view.live() == view.geometry.key_limit();
    let accepted = !refused || fault::is(Fault::RefusedMerges);
    Forecast {
        reason: if refused { 5 } else { 0 },
        merges: u32::from(accepted && merges_first(view, key)),
    }
}

/// What a delete of k would do: "For a delete the same holds if the key is live, and none
/// if it is absent." No reason but 1 to 4 turns a delete down.
pub fn will_delete_merge(words: &[u32], key: u32) -> Forecast {
    let view = match checked(words) {
        Err(reason) => return Forecast { reason, merges: 0 },
        Ok(view) => view,
    };
    let live = view.look_up(key).is_some() || fault::is(Fault::AbsentMerges);
    Forecast {
        reason: 0,
        merges: u32::from(live && merges_first(view, key)),
    }
}

/// Card 5: "level 0 holds K(0) × B records and the key isn't among them". A tombstone
/// counts as a record, and its key is among them (the card's reading 2).
fn merges_first(view: View, key: u32) -> bool {
    let (mut held, mut among) = (view.count(0), view.find(0, key));
    if fault::is(Fault::TombstonesNotHeld) {
        held = (0..held).filter(|&at| !view.zero_tombstone(at)).count();
    }
    if fault::is(Fault::TombstoneNotAmong) {
        among = among.filter(|record| !record.tombstone);
    }
    if fault::is(Fault::FullMerges) {
        among = None;
    }
    held == view.geometry.level_zero_records() && among.is_none()
}

/// Put k, v.
pub fn put(words: &mut [u32], key: u32, payload: u32) -> Changed {
    put_listed(words, key, payload).0
}

/// Delete k.
pub fn delete(words: &mut [u32], key: u32) -> Changed {
    delete_listed(words, key).0
}

/// Put k, v, with the list of the call's merges: "a key found in level 0 is
/// overwritten there; otherwise, if c = K(0)×B, level 0 is merged first, then the
/// record goes in. The answer says if k was live." Refusal 5: "A put has a key
/// not in the map while live = N."
pub fn put_listed(words: &mut [u32], key: u32, payload: u32) -> (Changed, Vec<Merge>) {
    let view = match checked(words) {
        Err(refusal) => return refused(refusal),
        Ok(view) => view,
    };
    let live_before = view.look_up(key).is_some();
    if !live_before && view.live() == view.geometry.key_limit() {
        return refused(5);
    }
    let live = view.live() + usize::from(!live_before);
    let merges = enter(
        words,
        Record {
            key,
            payload,
            tombstone: false,
        },
    );
    words[LIVE] = live as u32;
    (answer(live_before, &merges), merges)
}

/// Delete k, with the list of the call's merges: "absent means no change and the
/// answer absent; otherwise as put, with a mark."
pub fn delete_listed(words: &mut [u32], key: u32) -> (Changed, Vec<Merge>) {
    let view = match checked(words) {
        Err(refusal) => return refused(refusal),
        Ok(view) => view,
    };
    if view.look_up(key).is_none() {
        return (Changed::default(), Vec::new());
    }
    let live = view.live() - 1;
    let merges = enter(
        words,
        Record {
            key,
            payload: 0,
            tombstone: true,
        },
    );
    words[LIVE] = live as u32;
    (answer(true, &merges), merges)
}

/// Put k, v, in the form of card 3 of document 02, "that is also lent a list of
/// tickets". Neither the store nor the answer depends on the list's length.
pub fn put_tickets(words: &mut [u32], key: u32, payload: u32, tickets: &mut [Ticket]) -> Changed {
    let (answer, merges) = put_listed(words, key, payload);
    fill(tickets, answer, &merges)
}

/// Delete k, in the same form.
pub fn delete_tickets(words: &mut [u32], key: u32, tickets: &mut [Ticket]) -> Changed {
    let (answer, merges) = delete_listed(words, key);
    fill(tickets, answer, &merges)
}

/// "Tickets are filled in the order of the merges; if the list is shorter, the further
/// merges are only counted. Tickets not reached stay unchanged." Gives the answer back.
fn fill(tickets: &mut [Ticket], right: Changed, merges: &[Merge]) -> Changed {
    if fault::is(Fault::ClearsTickets) {
        tickets.fill(Ticket::default());
    }
    let reached = merges.len().min(tickets.len());
    let mut told = &merges[..reached];
    if fault::is(Fault::TicketsOfLast) {
        told = &merges[merges.len() - reached..];
    }
    for (ticket, merge) in tickets.iter_mut().zip(told) {
        *ticket = merge.ticket();
    }
    if fault::is(Fault::TicketsBackwards) {
        tickets[..reached].reverse();
    }
    if fault::is(Fault::CountsTicketsOnly) && reached < merges.len() {
        return answer(right.live_before, told);
    }
    right
}

/// A refused put or delete: the number, zeros and the empty list.
fn refused(refusal: u32) -> (Changed, Vec<Merge>) {
    (
        Changed {
            refusal,
            ..Changed::default()
        },
        Vec::new(),
    )
}

/// The answer to an accepted put or delete, with the counts of its merges.
pub(crate) fn answer(live_before: bool, merges: &[Merge]) -> Changed {
    let mut levels = [Counts::default(); MOST_LEVELS];
    for merge in merges {
        let counts = &mut levels[merge.upper];
        counts.merges += 1;
        counts.merge_writes += merge.writes() as u32;
        for compaction in &merge.compactions {
            levels[compaction.level - 1].compaction_writes += compaction.writes() as u32;
        }
    }
    Changed {
        refusal: 0,
        live_before,
        levels,
    }
}

/// Enters the call's record in level 0 of a store that passed the form check:
/// overwritten where the key is found, otherwise after the merges of a full level.
pub(crate) fn enter(words: &mut [u32], record: Record) -> Vec<Merge> {
    let Ok(view) = View::of(words) else {
        return Vec::new();
    };
    let geometry = view.geometry;
    if let Ok(index) = view.zero_search(record.key) {
        set_zero(geometry, words, index, record);
        return Vec::new();
    }
    let mut merges = Vec::new();
    if view.count(0) == geometry.level_zero_records() {
        if let Some(mut work) = Work::open(words) {
            merges = work.merge_all();
            work.close();
        }
    }
    insert_zero(geometry, words, record);
    merges
}

/// Puts a new key into level 0, which has room; the records above it move on.
fn insert_zero(geometry: Geometry, words: &mut [u32], record: Record) {
    let view = View { geometry, words };
    let (count, b) = (view.count(0), geometry.block());
    let index = view.zero_search(record.key).unwrap_or_else(|at| at);
    for at in [geometry.keys_at(), geometry.payloads_at()] {
        words.copy_within(at + index..at + count, at + index + 1);
    }
    let tombstones = &mut words[geometry.tombstones_at()..geometry.keys_at()];
    shift_bits(tombstones, b, index);
    words[COUNTS] = count as u32 + 1;
    set_zero(geometry, words, index, record);
}

/// Moves the tombstone bits of level 0 from record `index` on up by one record;
/// the last bit of a page becomes the first of the next one.
fn shift_bits(tombstones: &mut [u32], b: usize, index: usize) {
    let low = (1u32 << (index % b)) - 1;
    let mut carried = 0;
    for (page, word) in tombstones.iter_mut().enumerate().skip(index / b) {
        let kept = if page == index / b { *word & low } else { 0 };
        let shifted = (*word - kept) << 1;
        *word = kept | shifted & ((1 << b) - 1) | carried;
        carried = shifted >> b & 1;
    }
}

/// Writes record number `index` of level 0 with its tombstone bit.
fn set_zero(geometry: Geometry, words: &mut [u32], index: usize, record: Record) {
    let b = geometry.block();
    let tombstones = &mut words[geometry.tombstones_at() + index / b];
    *tombstones &= !(1 << (index % b));
    *tombstones |= u32::from(record.tombstone) << (index % b);
    words[geometry.keys_at() + index] = record.key;
    words[geometry.payloads_at() + index] = record.payload;
}
