//! Puts and deletes with tickets, and how many were filled.

use crate::calls::{Answer, Call};
use reference::random::Random;
use std::fmt;

/// A put, for half of them in the form that is lent tickets: none to eight.
pub fn put(random: &mut Random, key: u32, payload: u32) -> Call {
    match room(random) {
        None => Call::Put(key, payload),
        Some(room) => Call::PutTickets(key, payload, room),
    }
}

/// A delete in the same way.
pub fn delete(random: &mut Random, key: u32) -> Call {
    match room(random) {
        None => Call::Delete(key),
        Some(room) => Call::DeleteTickets(key, room),
    }
}

/// How many tickets to lend, if the form is to be lent some.
fn room(random: &mut Random) -> Option<usize> {
    let room = random.below(9);
    random.one_in(2).then_some(room)
}

/// Tickets among the calls.
#[derive(Clone, Debug, Default)]
pub struct Tickets {
    /// Calls that were lent tickets, and those of them with no room.
    pub calls: u64,
    pub empty: u64,
    pub filled: u64,
    /// Calls with more merges than tickets.
    pub short: u64,
    /// Calls of any form with five merges or more, and the most merges of one call.
    pub deep: u64,
    pub most: u32,
}

impl Tickets {
    /// One more call with its answer.
    pub fn count(&mut self, call: Call, answer: Answer) {
        let merges = answer.merges();
        self.deep += u64::from(merges >= 5);
        self.most = self.most.max(merges);
        if let Some(room) = call.tickets() {
            self.calls += 1;
            self.empty += u64::from(room == 0);
            self.filled += answer.filled(call) as u64;
            self.short += u64::from(merges as usize > room);
        }
    }
}

impl fmt::Display for Tickets {
    fn fmt(&self, out: &mut fmt::Formatter) -> fmt::Result {
        writeln!(out, "  with tickets   {:>10}", self.calls)?;
        writeln!(out, "    no room      {:>10}", self.empty)?;
        writeln!(out, "    too few      {:>10}", self.short)?;
        writeln!(out, "  tickets filled {:>10}", self.filled)?;
        writeln!(out, "  5 merges, more {:>10}", self.deep)?;
        write!(out, "  most merges    {:>10}", self.most)
    }
}
