//! One call compared: answer, every word of the store, of the arrays and of the tickets,
//! and the words around them.

use crate::calls::{Answer, Call, Held, Lent, Oracle, Store, TICKET};
use std::fmt;

/// Guard words before and after lent ones.
const GUARDS: usize = 32;

/// What guard word number `index` holds.
fn guard(index: usize) -> u32 {
    0xa5c3_9600 ^ (index as u32).wrapping_mul(0x0101_0101)
}

/// What word `index` of an array or of the tickets holds before a call: each its own
/// word, those of payloads other than those of keys, and of tickets other than both.
fn filling(array: u32, index: usize) -> u32 {
    (3 * index as u32 + array).wrapping_mul(0x9e37_79b1) ^ 0x3c5a_69f0
}

/// What is lent.
#[derive(Clone, Copy, Debug, PartialEq, Eq)]
pub enum Kind {
    Store,
    Keys,
    Payloads,
    Tickets,
}

const KINDS: [Kind; 4] = [Kind::Store, Kind::Keys, Kind::Payloads, Kind::Tickets];

/// Where a word stands.
#[derive(Clone, Copy, Debug, PartialEq, Eq)]
pub struct Place {
    pub of: Kind,
    pub at: usize,
}

impl fmt::Display for Place {
    fn fmt(&self, out: &mut fmt::Formatter) -> fmt::Result {
        let of = match self.of {
            Kind::Store => "store",
            Kind::Keys => "keys",
            Kind::Payloads => "payloads",
            Kind::Tickets => "tickets",
        };
        write!(out, "word {} of the {of}", self.at)
    }
}

/// Keys and payloads in rising order, and if more follow.
pub type Piece = (Vec<(u32, u32)>, bool);

/// A difference.
#[derive(Clone, Debug, PartialEq, Eq)]
pub enum Difference {
    /// The answers differ.
    Answer {
        call: Call,
        got: Answer,
        right: Answer,
    },
    /// A lent word differs from what it is to be after the call.
    Word {
        call: Call,
        at: Place,
        got: u32,
        right: u32,
    },
    /// A reading or refused call changed a word of the store, a stretch changed an
    /// entry behind the last written one, or a put or delete a ticket that it did not
    /// reach.
    Touched {
        call: Call,
        at: Place,
        got: u32,
        entry: u32,
    },
    /// A word before or after the lent ones was changed; guard words are counted
    /// from 0.
    Guard { call: Call, at: Place },
    /// The two implementations of the reference differ.
    Reference {
        call: Call,
        plain: Answer,
        fast: Answer,
    },
    /// A put or delete came to something else than its forecast said, or to more blocks
    /// written.
    Forecast {
        call: Call,
        foretold: Answer,
        answer: Answer,
    },
    /// A stretch, or a walk of some of them, gives other records than a map that
    /// was fed with the accepted puts and deletes, or another answer: records and
    /// more.
    Map {
        call: Call,
        got: Piece,
        right: Piece,
    },
}

impl fmt::Display for Difference {
    fn fmt(&self, out: &mut fmt::Formatter) -> fmt::Result {
        match self {
            Difference::Answer { call, got, right } => {
                write!(out, "{call:?} answered {got:?} and not {right:?}")
            }
            Difference::Word {
                call,
                at,
                got,
                right,
            } => write!(out, "{call:?} left {at} as {got} and not {right}"),
            Difference::Touched {
                call,
                at,
                got,
                entry,
            } => write!(out, "{call:?} changed {at} from {entry} to {got}"),
            Difference::Guard { call, at } => write!(out, "{call:?} changed guard {at}"),
            Difference::Reference { call, plain, fast } => {
                write!(
                    out,
                    "{call:?}: the reference says {plain:?} and {fast:?}, or leaves other words"
                )
            }
            Difference::Forecast {
                call,
                foretold,
                answer,
            } => write!(out, "{call:?}: {foretold:?}, and it answered {answer:?}"),
            Difference::Map { call, got, right } => other_records(out, *call, got, right),
        }
    }
}

/// What a stretch gave and what the map has.
fn other_records(out: &mut fmt::Formatter, call: Call, got: &Piece, right: &Piece) -> fmt::Result {
    let ((got, more), (right, further)) = (got, right);
    let at = (0..).find(|&at| got.get(at) != right.get(at) || at == right.len());
    let at = at.unwrap_or(0);
    write!(
        out,
        "{call:?} gave {} records, more {more}, and the map has {}, more {further}; record {at} is {:?} \
        and not {:?}",
        got.len(),
        right.len(),
        got.get(at),
        right.get(at)
    )
}

/// Words that are lent, between guard words.
#[derive(Default)]
struct Guarded {
    /// The guards, the lent words, the guards.
    all: Vec<u32>,
}

impl Guarded {
    /// Other words.
    fn load(&mut self, words: &[u32]) {
        self.all.clear();
        self.all.extend((0..GUARDS).map(guard));
        self.all.extend_from_slice(words);
        self.all.extend((GUARDS..2 * GUARDS).map(guard));
    }

    /// The lent words.
    fn words(&self) -> &[u32] {
        &self.all[GUARDS..self.all.len() - GUARDS]
    }

    /// The lent words, to be changed.
    fn words_mut(&mut self) -> &mut [u32] {
        let end = self.all.len() - GUARDS;
        &mut self.all[GUARDS..end]
    }

    /// Where the lent words start; guard words before and after them can be reached.
    fn lend(&mut self) -> *mut u32 {
        self.all.as_mut_ptr().wrapping_add(GUARDS)
    }

    /// The number of a guard word that has changed.
    fn broken_guard(&self) -> Option<usize> {
        let (before, rest) = self.all.split_at(GUARDS);
        let after = &rest[rest.len() - GUARDS..];
        (0..)
            .zip(before.iter().chain(after))
            .find(|&(number, &word)| word != guard(number))
            .map(|(number, _)| number)
    }
}

/// The first place where two slices of one length differ.
fn first_difference(left: &[u32], right: &[u32]) -> Option<usize> {
    if left == right {
        return None;
    }
    (0..left.len()).find(|&at| left[at] != right[at])
}

/// The words of each kind.
fn kinds(held: &Held) -> [&[u32]; 4] {
    [&held.store, &held.keys, &held.payloads, &held.tickets]
}

/// A store that is lent to calls, arrays for stretches and tickets, between guard words,
/// with all words at entry.
pub struct Bench {
    entry: Held,
    /// Of each kind.
    lent: [Guarded; 4],
    /// The words of the reference.
    right: Held,
    /// The words of the other implementation of the reference.
    other: Held,
}

impl Bench {
    /// No store yet.
    pub fn new() -> Bench {
        let mut lent: [Guarded; 4] = Default::default();
        lent.iter_mut().for_each(|some| some.load(&[]));
        Bench {
            entry: Held::default(),
            lent,
            right: Held::default(),
            other: Held::default(),
        }
    }

    /// A store to be asked.
    pub fn load(&mut self, words: &[u32]) {
        self.entry.store.clear();
        self.entry.store.extend_from_slice(words);
        self.right.store.clone_from(&self.entry.store);
        self.other.store.clone_from(&self.entry.store);
        self.lent[0].load(words);
    }

    /// The words of the store as the next call finds them.
    pub fn words(&self) -> &[u32] {
        &self.entry.store
    }

    /// Arrays and tickets with this room, filled with known words.
    fn lend_arrays(&mut self, rooms: [usize; 3]) {
        let Held {
            keys,
            payloads,
            tickets,
            ..
        } = &mut self.entry;
        for (array, (words, room)) in (0..).zip([keys, payloads, tickets].into_iter().zip(rooms)) {
            words.clear();
            words.extend((0..room).map(|at| filling(array, at)));
            self.lent[1 + array as usize].load(words);
        }
        for held in [&mut self.right, &mut self.other] {
            held.keys.clone_from(&self.entry.keys);
            held.payloads.clone_from(&self.entry.payloads);
            held.tickets.clone_from(&self.entry.tickets);
        }
    }

    /// One call on the store as it was loaded, which it is afterwards again. With
    /// `both` the two implementations of the reference are held against each other
    /// too.
    pub fn ask(
        &mut self,
        store: &dyn Store,
        call: Call,
        oracle: Oracle,
        both: bool,
    ) -> Result<Answer, Difference> {
        let answer = self.compare(store, call, oracle, both)?;
        if !answer.unchanged(call) {
            self.right.store.copy_from_slice(&self.entry.store);
            self.other.store.copy_from_slice(&self.entry.store);
            self.lent[0].words_mut().copy_from_slice(&self.entry.store);
        }
        Ok(answer)
    }

    /// One call after which the store stays as the call leaves it.
    pub fn go_on(
        &mut self,
        store: &dyn Store,
        call: Call,
        oracle: Oracle,
    ) -> Result<Answer, Difference> {
        let answer = self.compare(store, call, oracle, false)?;
        if !answer.unchanged(call) {
            self.entry.store.copy_from_slice(&self.right.store);
        }
        Ok(answer)
    }

    /// The records that the last call, a stretch, has written.
    pub fn records(&self, answer: Answer) -> Vec<(u32, u32)> {
        let (keys, payloads) = (self.lent[1].words(), self.lent[2].words());
        let both = keys.iter().copied().zip(payloads.iter().copied());
        both.take(answer.written()).collect()
    }

    /// One call: answers, words and guards.
    fn compare(
        &mut self,
        store: &dyn Store,
        call: Call,
        oracle: Oracle,
        both: bool,
    ) -> Result<Answer, Difference> {
        self.lend_arrays(call.rooms());
        let words = self.entry.store.len();
        let [lent, keys, payloads, tickets] = &mut self.lent;
        let lent = Lent {
            store: lent.lend(),
            words,
            keys: keys.lend(),
            payloads: payloads.lend(),
            tickets: tickets.lend(),
        };
        // The words stand inside `self.lent`, which nothing else uses meanwhile.
        let got = unsafe { store.call(lent, call) };
        std::hint::black_box(&mut self.lent);
        for (of, some) in KINDS.into_iter().zip(&self.lent) {
            if let Some(at) = some.broken_guard() {
                let at = Place { of, at };
                return Err(Difference::Guard { call, at });
            }
        }
        let right = oracle.call(&mut self.right, call);
        if both {
            self.ask_both(call)?;
        }
        if got != right {
            return Err(Difference::Answer { call, got, right });
        }
        self.same_words(call, right)?;
        Ok(right)
    }

    /// Every lent word is as the reference has it, and where the call is to change
    /// nothing, as it was at entry: in the store if it only reads or is refused, in
    /// an array behind the last written entry, in tickets behind the last one filled.
    fn same_words(&self, call: Call, answer: Answer) -> Result<(), Difference> {
        let (store, written) = (self.entry.store.len(), answer.written());
        let store = if answer.unchanged(call) { 0 } else { store };
        let told = TICKET * answer.filled(call);
        let (entries, rights) = (kinds(&self.entry), kinds(&self.right));
        for (kind, changed) in [store, written, written, told].into_iter().enumerate() {
            let (got, entry, right) = (self.lent[kind].words(), entries[kind], rights[kind]);
            let place = |at| Place {
                of: KINDS[kind],
                at,
            };
            let from = changed.min(got.len());
            if let Some(at) = first_difference(&got[from..], &entry[from..]) {
                return Err(Difference::Touched {
                    call,
                    at: place(from + at),
                    got: got[from + at],
                    entry: entry[from + at],
                });
            }
            if let Some(at) = first_difference(got, right) {
                return Err(Difference::Word {
                    call,
                    at: place(at),
                    got: got[at],
                    right: right[at],
                });
            }
        }
        Ok(())
    }

    /// Both implementations of the reference on the store as it was loaded.
    fn ask_both(&mut self, call: Call) -> Result<(), Difference> {
        let mut copy = self.entry.clone();
        let plain = Oracle::Plain.call(&mut copy, call);
        let fast = Oracle::Fast.call(&mut self.other, call);
        if plain != fast || copy != self.other {
            return Err(Difference::Reference { call, plain, fast });
        }
        Ok(())
    }
}

impl Default for Bench {
    /// No store yet.
    fn default() -> Bench {
        Bench::new()
    }
}
