//! Stretches to ask for, and how many were asked for.

use crate::calls::Answer;
use reference::random::Random;
use std::fmt;

/// The first and the last key of a stretch: the whole store or a part of it, with
/// these keys at its ends, few keys or one, or none at all.
pub fn ends(random: &mut Random, [one, other]: [u32; 2]) -> (u32, u32) {
    let few = random.below(12) as u32;
    match random.below(8) {
        0 => (0, u32::MAX),
        1 => (0, one),
        2 => (one, u32::MAX),
        3 => (one, one.saturating_add(few)),
        4 => (one.saturating_sub(few), one),
        5 => (one, other),
        _ => (one.min(other), one.max(other)),
    }
}

/// Room for keys and for payloads, where a store has so many live keys: none, few
/// or many entries, all that are needed or more, mostly the same of both.
pub fn rooms(random: &mut Random, live: usize) -> [usize; 2] {
    let few = random.between(1, 5);
    let room = match random.below(6) {
        0 => random.below(2),
        1 => few,
        2 => live,
        3 => live + few,
        _ => random.below(live + 2),
    };
    match random.below(6) {
        0 => [room, room + few],
        1 => [room + few, room],
        2 => [room, random.below(live + 2)],
        _ => [room, room],
    }
}

/// Stretches among the calls.
#[derive(Clone, Debug, Default)]
pub struct Stretches {
    pub calls: u64,
    /// Those that wrote records, those that said that more follow, and both.
    pub wrote: u64,
    pub more: u64,
    pub cut: u64,
}

impl Stretches {
    /// One more call, with its answer, if it is a stretch.
    pub fn count(&mut self, answer: Answer) {
        if let Answer::Stretched([_, written, more]) = answer {
            self.calls += 1;
            self.wrote += u64::from(written > 0);
            self.more += u64::from(more == 1);
            self.cut += u64::from(written > 0 && more == 1);
        }
    }
}

impl fmt::Display for Stretches {
    fn fmt(&self, out: &mut fmt::Formatter) -> fmt::Result {
        writeln!(out, "  stretches      {:>10}", self.calls)?;
        writeln!(out, "    wrote some   {:>10}", self.wrote)?;
        writeln!(out, "    more follow  {:>10}", self.more)?;
        write!(out, "    both         {:>10}", self.cut)
    }
}
