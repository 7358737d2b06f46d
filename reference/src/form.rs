//! "Form check" and "Waste rules" of document 01. Every breach is refusal 4.

use crate::block::Slot;
use crate::layout::MOST_LEVELS;
use crate::level::View;

/// The store, or the first of the reasons 1 to 4 that turns it down.
pub fn checked(words: &[u32]) -> Result<View<'_>, u32> {
    let view = View::of(words)?;
    if keeps_form(view) {
        Ok(view)
    } else {
        Err(4)
    }
}

/// The whole form check. live comes last: it walks the levels, so their lists
/// and blocks must be in order first.
pub fn keeps_form(view: View) -> bool {
    counts_kept(view)
        && level_zero_kept(view)
        && lists_kept(view)
        && (1..=view.geometry.levels()).all(|level| level_kept(view, level))
        && live_kept(view)
}

/// "hand is below P; c is at most K(0)×B; each block count is at most K(i)", and
/// 0 above h (reading 14).
fn counts_kept(view: View) -> bool {
    let geometry = view.geometry;
    let most = |level| {
        if level > geometry.levels() {
            0
        } else {
            geometry.capacity(level)
        }
    };
    view.cursor() < geometry.slots()
        && view.count(0) <= geometry.level_zero_records()
        && (1..=MOST_LEVELS).all(|level| view.count(level) <= most(level))
}

/// Level 0: keys rise strictly; unused slots and bits and the payloads of
/// tombstones are 0 (readings 15 and 16).
fn level_zero_kept(view: View) -> bool {
    let (b, c) = (view.geometry.block(), view.count(0));
    let (keys, payloads) = (view.zero_keys(), view.zero_payloads());
    let bits_kept = (0..view.geometry.capacity(0)).all(|page| {
        let used = c.saturating_sub(page * b).min(b);
        view.words[view.geometry.tombstones_at() + page] >> used == 0
    });
    bits_kept
        && rises(&keys[..c])
        && all_zero(&keys[c..])
        && all_zero(&payloads[c..])
        && (0..c).all(|index| !view.zero_tombstone(index) || payloads[index] == 0)
}

/// "listed places are below P, none twice over all levels"; unused list entries
/// are 0.
fn lists_kept(view: View) -> bool {
    let mut listed = vec![false; view.geometry.slots()];
    for level in 1..=view.geometry.levels() {
        for &slot in view.list(level) {
            match listed.get_mut(slot as usize) {
                Some(seen) if !*seen => *seen = true,
                _ => return false,
            }
        }
        if !all_zero(&view.entries(level)[view.count(level)..]) {
            return false;
        }
    }
    true
}

/// One level on flash: its blocks, its keys across blocks and both waste rules.
fn level_kept(view: View, level: usize) -> bool {
    let b = view.geometry.block();
    let bottom = level == view.geometry.levels();
    let mut records = 0;
    let mut before: Option<Slot> = None;
    for &slot in view.list(level) {
        let slot = view.slot(slot);
        if !block_kept(slot, b) || bottom && slot.tombstones() != 0 {
            return false;
        }
        if let Some(before) = before {
            let rises = before.span().last < slot.span().first;
            if !rises || before.count() + slot.count() <= b {
                return false;
            }
        }
        records += slot.count();
        before = Some(slot);
    }
    !needs_compaction(b, view.count(level), records)
}

/// "a listed block has 1 to B records"; its keys rise strictly; unused slots and
/// bits and the payloads of tombstones are 0.
fn block_kept(slot: Slot, b: usize) -> bool {
    let count = slot.count();
    (1..=b).contains(&count)
        && slot.tombstones() >> count == 0
        && rises(&slot.keys()[..count])
        && all_zero(&slot.keys()[count..])
        && all_zero(&slot.payloads()[count..])
        && slot
            .records()
            .all(|record| !record.tombstone || record.payload == 0)
}

/// "live is the number of keys of the map and at most N."
fn live_kept(view: View) -> bool {
    view.live() <= view.geometry.key_limit() && view.live() == view.count_live()
}

/// The level half of "Waste rules": "with a blocks and R records, a level needs
/// compacting if a exceeds R/B rounded up, and 5 × (aB − R) > aB".
pub fn needs_compaction(b: usize, blocks: usize, records: usize) -> bool {
    blocks > records.div_ceil(b) && 5 * (blocks * b - records) > blocks * b
}

/// "keys rise strictly".
fn rises(keys: &[u32]) -> bool {
    keys.windows(2).all(|pair| pair[0] < pair[1])
}

/// "Unused slots, bits and list entries are 0."
fn all_zero(words: &[u32]) -> bool {
    words.iter().all(|&word| word == 0)
}
