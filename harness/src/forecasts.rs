//! Forecasts of puts and deletes, what these then came to, and how many were asked for.

use crate::calls::{Answer, Call};
use crate::compare::Difference;
use reference::layout::COUNTS;
use std::fmt;

/// The forecast of a put or delete in any form; none of another call.
pub fn forecast(call: Call) -> Option<Call> {
    match call {
        Call::Put(key, _) | Call::PutTickets(key, ..) => Some(Call::WillPutMerge(key)),
        Call::Delete(key) | Call::DeleteTickets(key, _) => Some(Call::WillDeleteMerge(key)),
        _ => None,
    }
}

/// A put or delete of a store with these words has come to what was foretold: to that
/// reason and to so many merges into level 1. That is one at most, it writes at most
/// w × (G + 1) blocks, and without it no block is written and no deeper level merged.
pub fn came_true(
    words: &[u32],
    call: Call,
    foretold: Answer,
    answer: Answer,
) -> Result<(), Difference> {
    let holds = match answer {
        Answer::Changed([reason, _, merges, written, rest @ ..]) => {
            let blocks = match merges {
                // Also where a store is too short to have a geometry.
                0 => written == 0 && rest == [0; 7],
                _ => merges == 1 && written <= words[1] * (words[3] + 1),
            };
            foretold == Answer::Forecast([reason, merges]) && blocks
        }
        _ => false,
    };
    if holds {
        return Ok(());
    }
    Err(Difference::Forecast {
        call,
        foretold,
        answer,
    })
}

/// Forecasts among the calls.
#[derive(Clone, Debug, Default)]
pub struct Forecasts {
    pub calls: u64,
    /// Those of a merge, and those of a put that is turned down for 5.
    pub merge: u64,
    pub full: u64,
    /// Those of no merge although level 0 is full: it has the key, or the key of a delete
    /// is not live.
    pub spared: u64,
}

impl Forecasts {
    /// One more call on a store with these words, with its answer, if it is a forecast.
    pub fn count(&mut self, words: &[u32], answer: Answer) {
        if let Answer::Forecast([reason, merges]) = answer {
            self.calls += 1;
            self.merge += u64::from(merges == 1);
            self.full += u64::from(reason == 5);
            if (reason, merges) == (0, 0) {
                // B × w × d is B × K(0).
                let full = words[..3].iter().product::<u32>();
                self.spared += u64::from(words[COUNTS] == full);
            }
        }
    }
}

impl fmt::Display for Forecasts {
    fn fmt(&self, out: &mut fmt::Formatter) -> fmt::Result {
        writeln!(out, "  forecasts      {:>10}", self.calls)?;
        writeln!(out, "    a merge      {:>10}", self.merge)?;
        writeln!(out, "    spared one   {:>10}", self.spared)?;
        write!(out, "    5            {:>10}", self.full)
    }
}
