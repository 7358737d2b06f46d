//! The fourteen calls as values, what is lent to them, and who answers them.

use mewilovang::border as c;
use reference::calls::{self as plain, Ticket};
use reference::{fast, geometry::Geometry};

/// Words of a ticket.
pub const TICKET: usize = 4;

/// A call with its arguments.
#[derive(Clone, Copy, Debug, PartialEq, Eq)]
pub enum Call {
    Words([u32; 6]),
    Format([u32; 6]),
    Check,
    LookUp(u32),
    Next(u32),
    /// From a first to a last key, with room for so many keys and payloads.
    Stretch {
        first: u32,
        last: u32,
        rooms: [usize; 2],
    },
    Show(u32, u32),
    About,
    /// What a put of this key will come to, and a delete.
    WillPutMerge(u32),
    WillDeleteMerge(u32),
    Put(u32, u32),
    Delete(u32),
    /// Key and payload, and room for so many tickets.
    PutTickets(u32, u32, usize),
    /// A key, and room for so many tickets.
    DeleteTickets(u32, usize),
}

impl Call {
    /// Whether the call never changes a word of the store.
    pub fn only_reads(self) -> bool {
        use Call::*;
        let changes = matches!(self, Format(_) | Put(..) | Delete(_));
        !changes && self.tickets().is_none()
    }

    /// How many tickets the call is lent, if it is a form that is lent some.
    pub fn tickets(self) -> Option<usize> {
        match self {
            Call::PutTickets(_, _, room) | Call::DeleteTickets(_, room) => Some(room),
            _ => None,
        }
    }

    /// The words of the keys, of the payloads and of the tickets that the call is lent; 0
    /// where it is lent none.
    pub fn rooms(self) -> [usize; 3] {
        match self {
            Call::Stretch { rooms: [m, n], .. } => [m, n, 0],
            _ => [0, 0, TICKET * self.tickets().unwrap_or(0)],
        }
    }
}

/// An answer. Where it has a reason, that is its first number.
#[derive(Clone, Copy, Debug, PartialEq, Eq)]
pub enum Answer {
    Words(usize),
    Formatted([u32; 2]),
    Checked(u32),
    Looked([u32; 3]),
    Nexted([u32; 4]),
    /// Reason, records written, and 1 if more of the stretch follow.
    Stretched([u32; 3]),
    Part(usize, usize),
    /// Reason, the six numbers, live, N, records in level 0, blocks of levels 1 to 3.
    About([u32; 13]),
    /// The reason of a put or delete to come, and its merges into level 1.
    Forecast([u32; 2]),
    /// Reason, live, and the counts of levels 1 to 3.
    Changed([u32; 11]),
}

impl Answer {
    /// The reason that the call was turned down for; none of words and show.
    pub fn reason(self) -> u32 {
        match self {
            Answer::Words(_) | Answer::Part(..) => 0,
            Answer::Formatted(numbers) => numbers[0],
            Answer::Checked(reason) => reason,
            Answer::Looked(numbers) => numbers[0],
            Answer::Nexted(numbers) => numbers[0],
            Answer::Stretched(numbers) => numbers[0],
            Answer::About(numbers) => numbers[0],
            Answer::Forecast(numbers) => numbers[0],
            Answer::Changed(numbers) => numbers[0],
        }
    }

    /// Whether this answer to the call says that no word of the store has changed.
    pub fn unchanged(self, call: Call) -> bool {
        call.only_reads() || self.reason() != 0
    }

    /// Entries that a stretch has written to each array.
    pub fn written(self) -> usize {
        match self {
            Answer::Stretched([_, written, _]) => written as usize,
            _ => 0,
        }
    }

    /// Merges of a put or delete.
    pub fn merges(self) -> u32 {
        match self {
            Answer::Changed(numbers) => numbers[2] + numbers[5] + numbers[8],
            _ => 0,
        }
    }

    /// Tickets that the call, answered so, has filled: one for each merge, as far as there are tickets.
    pub fn filled(self, call: Call) -> usize {
        call.tickets().unwrap_or(0).min(self.merges() as usize)
    }
}

/// What a caller lends: a store of so many words, and the arrays of a stretch or tickets, with at least the room that
/// the call names.
#[derive(Clone, Copy)]
pub struct Lent {
    pub store: *mut u32,
    pub words: usize,
    pub keys: *mut u32,
    pub payloads: *mut u32,
    /// The first word of the first ticket.
    pub tickets: *mut u32,
}

/// The words that a caller holds.
#[derive(Clone, Debug, Default, PartialEq, Eq)]
pub struct Held {
    pub store: Vec<u32>,
    pub keys: Vec<u32>,
    pub payloads: Vec<u32>,
    /// Tickets, word for word.
    pub tickets: Vec<u32>,
}

impl Held {
    /// A store alone, with no room for a stretch or for tickets.
    pub fn store(store: Vec<u32>) -> Held {
        Held {
            store,
            ..Held::default()
        }
    }

    /// Lends them to a call.
    pub fn lend(&mut self) -> Lent {
        Lent {
            store: self.store.as_mut_ptr(),
            words: self.store.len(),
            keys: self.keys.as_mut_ptr(),
            payloads: self.payloads.as_mut_ptr(),
            tickets: self.tickets.as_mut_ptr(),
        }
    }
}

/// A store that answers calls on lent words.
pub trait Store {
    /// # Safety
    /// The words are the caller's to read and to write.
    unsafe fn call(&self, lent: Lent, call: Call) -> Answer;
}

/// The verified store, over the static library.
pub struct Library;

impl Store for Library {
    unsafe fn call(&self, lent: Lent, call: Call) -> Answer {
        let (Lent { store, words, .. }, tickets) = (lent, lent.tickets.cast());
        match call {
            Call::Words([b, w, d, g, h, p]) => Answer::Words(c::mewilovang_words(b, w, d, g, h, p)),
            Call::Format([b, w, d, g, h, p]) => {
                let a = c::mewilovang_format(store, words, b, w, d, g, h, p);
                Answer::Formatted([a.reason, a.limit])
            }
            Call::Check => Answer::Checked(c::mewilovang_check(store, words)),
            Call::LookUp(key) => {
                let a = c::mewilovang_look_up(store, words, key);
                Answer::Looked([a.reason, a.found, a.payload])
            }
            Call::Next(key) => {
                let a = c::mewilovang_next(store, words, key);
                Answer::Nexted([a.reason, a.found, a.key, a.payload])
            }
            Call::Stretch { first, last, rooms } => stretch(lent, first, last, rooms),
            Call::Show(level, key) => {
                let a = c::mewilovang_show(store, words, level, key);
                Answer::Part(a.start, a.length)
            }
            Call::About => about(c::mewilovang_about(store, words)),
            Call::WillPutMerge(key) => forecast(c::mewilovang_will_put_merge(store, words, key)),
            Call::WillDeleteMerge(key) => {
                forecast(c::mewilovang_will_delete_merge(store, words, key))
            }
            Call::Put(key, payload) => changed(c::mewilovang_put(store, words, key, payload)),
            Call::Delete(key) => changed(c::mewilovang_delete(store, words, key)),
            Call::PutTickets(key, payload, room) => {
                let put = c::mewilovang_put_tickets;
                changed(put(store, words, key, payload, tickets, room))
            }
            Call::DeleteTickets(key, room) => {
                let delete = c::mewilovang_delete_tickets;
                changed(delete(store, words, key, tickets, room))
            }
        }
    }
}

/// A stretch of the library.
unsafe fn stretch(lent: Lent, first: u32, last: u32, [m, n]: [usize; 2]) -> Answer {
    let (store, words) = (lent.store, lent.words);
    let (keys, payloads) = (lent.keys, lent.payloads);
    let a = c::mewilovang_stretch(store, words, first, last, keys, m, payloads, n);
    Answer::Stretched([a.reason, a.written, a.more])
}

/// The verified store, by the functions of the Rust package.
pub struct Package;

impl Store for Package {
    unsafe fn call(&self, lent: Lent, call: Call) -> Answer {
        let read = || std::slice::from_raw_parts(lent.store, lent.words);
        let write = || std::slice::from_raw_parts_mut(lent.store, lent.words);
        let tickets = |room| std::slice::from_raw_parts_mut(lent.tickets.cast(), room);
        match call {
            Call::Words(numbers) => Answer::Words(six(numbers).words().unwrap_or(0)),
            Call::Format(numbers) => {
                let answer = mewilovang::format(write(), six(numbers));
                Answer::Formatted(answer.map_or_else(refused, |limit| [0, limit]))
            }
            Call::Check => {
                Answer::Checked(mewilovang::check(read()).map_or_else(|no| no.number(), |()| 0))
            }
            Call::LookUp(key) => {
                let found = |found: Option<u32>| [0, found.is_some().into(), found.unwrap_or(0)];
                let answer = mewilovang::look_up(read(), key);
                Answer::Looked(answer.map_or_else(refused, found))
            }
            Call::Next(key) => nexted(mewilovang::next(read(), key)),
            Call::Stretch { first, last, rooms } => {
                let keys = std::slice::from_raw_parts_mut(lent.keys, rooms[0]);
                let payloads = std::slice::from_raw_parts_mut(lent.payloads, rooms[1]);
                listed(mewilovang::stretch(read(), first, last, keys, payloads))
            }
            Call::Show(level, key) => part(read(), mewilovang::show(read(), level, key)),
            Call::About => Answer::About(mewilovang::about(read()).map_or_else(refused, numbers)),
            Call::WillPutMerge(key) => foretold(mewilovang::will_put_merge(read(), key)),
            Call::WillDeleteMerge(key) => foretold(mewilovang::will_delete_merge(read(), key)),
            Call::Put(key, payload) => done(mewilovang::put(write(), key, payload)),
            Call::Delete(key) => done(mewilovang::delete(write(), key)),
            Call::PutTickets(key, payload, room) => {
                let answer = mewilovang::put_tickets(write(), key, payload, tickets(room));
                done(answer)
            }
            Call::DeleteTickets(key, room) => {
                done(mewilovang::delete_tickets(write(), key, tickets(room)))
            }
        }
    }
}

/// The package's geometry of six numbers.
fn six([b, w, d, g, h, p]: [u32; 6]) -> mewilovang::Geometry {
    mewilovang::Geometry { b, w, d, g, h, p }
}

/// A refused call: "the answer has only the number and zeros".
fn refused<const N: usize>(refusal: mewilovang::Refusal) -> [u32; N] {
    let mut numbers = [0; N];
    numbers[0] = refusal.number();
    numbers
}

/// The numbers of what a store says of itself.
fn numbers(a: mewilovang::About) -> [u32; 13] {
    let mewilovang::Geometry { b, w, d, g, h, p } = a.geometry;
    let [x, y, z] = a.blocks;
    [0, b, w, d, g, h, p, a.live, a.limit, a.top, x, y, z]
}

/// The same of the library.
fn about(a: c::AboutStore) -> Answer {
    Answer::About([
        a.reason, a.b, a.w, a.d, a.g, a.h, a.p, a.live, a.limit, a.top, a.blocks1, a.blocks2,
        a.blocks3,
    ])
}

/// The numbers of a next of the package.
fn nexted(answer: Result<Option<mewilovang::Record>, mewilovang::Refusal>) -> Answer {
    let found = |r: mewilovang::Record| [0, 1, r.key, r.payload];
    Answer::Nexted(answer.map_or_else(refused, |record| record.map_or([0; 4], found)))
}

/// The numbers of a stretch of the package.
fn listed(answer: Result<mewilovang::Stretched, mewilovang::Refusal>) -> Answer {
    let piece = |a: mewilovang::Stretched| [0, a.written as u32, a.more.into()];
    Answer::Stretched(answer.map_or_else(refused, piece))
}

/// The numbers of a forecast of the package.
fn foretold(answer: Result<bool, mewilovang::Refusal>) -> Answer {
    Answer::Forecast(answer.map_or_else(refused, |merges| [0, merges.into()]))
}

/// The same of the library.
fn forecast(a: c::Forecast) -> Answer {
    Answer::Forecast([a.reason, a.merges])
}

/// The numbers of a put's or delete's answer of the package.
fn done(answer: Result<mewilovang::Change, mewilovang::Refusal>) -> Answer {
    let numbers = |change: mewilovang::Change| {
        let [x, y, z] = change.levels.map(|l| [l.merges, l.written, l.compacted]);
        let live = change.live.into();
        [
            0, live, x[0], x[1], x[2], y[0], y[1], y[2], z[0], z[1], z[2],
        ]
    };
    Answer::Changed(answer.map_or_else(refused, numbers))
}

/// Where a part of a store lies; an empty one is at 0.
fn part(whole: &[u32], part: &[u32]) -> Answer {
    match part.len() {
        0 => Answer::Part(0, 0),
        n => Answer::Part((part.as_ptr() as usize - whole.as_ptr() as usize) / 4, n),
    }
}

/// The numbers of a put's or delete's answer.
fn changed(a: c::Changed) -> Answer {
    let [x, y, z] = [a.level1, a.level2, a.level3].map(|l| [l.merges, l.written, l.compacted]);
    Answer::Changed([
        a.reason, a.live, x[0], x[1], x[2], y[0], y[1], y[2], z[0], z[1], z[2],
    ])
}

/// The numbers of a look up of the reference.
fn found(a: plain::Found) -> Answer {
    Answer::Looked([a.refusal, a.found.into(), a.payload])
}

/// The numbers of what the reference says of a store.
fn said(a: plain::About) -> Answer {
    let [b, w, d, g, h, p] = a.numbers;
    let [x, y, z] = a.blocks;
    Answer::About([a.refusal, b, w, d, g, h, p, a.live, a.limit, a.top, x, y, z])
}

/// The numbers of a put's or delete's answer of the reference.
fn told(a: plain::Changed) -> Answer {
    let mut numbers = [
        a.refusal,
        u32::from(a.live_before),
        0,
        0,
        0,
        0,
        0,
        0,
        0,
        0,
        0,
    ];
    for (level, counts) in a.levels.iter().enumerate() {
        let all = [counts.merges, counts.merge_writes, counts.compaction_writes];
        numbers[2 + 3 * level..5 + 3 * level].copy_from_slice(&all);
    }
    Answer::Changed(numbers)
}

/// Which implementation of the reference says what is right.
#[derive(Clone, Copy, Debug, PartialEq, Eq)]
pub enum Oracle {
    Plain,
    Fast,
}

impl Oracle {
    /// The answer, with the words changed as they are to be.
    pub fn call(self, held: &mut Held, call: Call) -> Answer {
        let plain = self == Oracle::Plain;
        let words = &mut held.store[..];
        match call {
            Call::Words(numbers) => {
                Answer::Words(Geometry::new(numbers).map_or(0, Geometry::length))
            }
            Call::Format(numbers) => {
                let a = match self {
                    Oracle::Plain => plain::format(words, numbers),
                    Oracle::Fast => fast::format(words, numbers),
                };
                Answer::Formatted([a.refusal, a.limit])
            }
            Call::Check if plain => Answer::Checked(plain::check(words)),
            Call::Check => Answer::Checked(fast::check(words)),
            Call::LookUp(key) if plain => found(plain::look_up(words, key)),
            Call::LookUp(key) => found(fast::look_up(words, key)),
            Call::Next(key) => {
                let a = match self {
                    Oracle::Plain => plain::next(words, key),
                    Oracle::Fast => fast::next(words, key),
                };
                Answer::Nexted([a.refusal, a.found.into(), a.key, a.payload])
            }
            Call::Stretch { first, last, rooms } => self.stretch(held, first, last, rooms),
            Call::Show(level, key) if plain => part(words, plain::show(words, level, key)),
            Call::Show(level, key) => part(words, fast::show(words, level, key)),
            Call::About if plain => said(plain::about(words)),
            Call::About => said(fast::about(words)),
            Call::WillPutMerge(key) => self.forecast(words, key, true),
            Call::WillDeleteMerge(key) => self.forecast(words, key, false),
            Call::Put(key, payload) => self.change(words, key, Some(payload)),
            Call::Delete(key) => self.change(words, key, None),
            Call::PutTickets(key, payload, room) => self.told(held, key, Some(payload), room),
            Call::DeleteTickets(key, room) => self.told(held, key, None, room),
        }
    }

    /// A stretch with this room for keys and payloads.
    fn stretch(self, held: &mut Held, first: u32, last: u32, rooms: [usize; 2]) -> Answer {
        let (words, keys) = (&held.store[..], &mut held.keys[..rooms[0]]);
        let payloads = &mut held.payloads[..rooms[1]];
        let a = match self {
            Oracle::Plain => plain::stretch(words, first, last, keys, payloads),
            Oracle::Fast => fast::stretch(words, first, last, keys, payloads),
        };
        Answer::Stretched([a.refusal, a.written, a.more.into()])
    }

    /// What a put of this key is to come to, or a delete.
    fn forecast(self, words: &[u32], key: u32, put: bool) -> Answer {
        let a = match (self, put) {
            (Oracle::Plain, true) => plain::will_put_merge(words, key),
            (Oracle::Plain, false) => plain::will_delete_merge(words, key),
            (Oracle::Fast, true) => fast::will_put_merge(words, key),
            (Oracle::Fast, false) => fast::will_delete_merge(words, key),
        };
        Answer::Forecast([a.reason, a.merges])
    }

    /// A put of this payload, or a delete.
    fn change(self, words: &mut [u32], key: u32, payload: Option<u32>) -> Answer {
        told(match (self, payload) {
            (Oracle::Plain, Some(payload)) => plain::put(words, key, payload),
            (Oracle::Plain, None) => plain::delete(words, key),
            (Oracle::Fast, Some(payload)) => fast::put(words, key, payload),
            (Oracle::Fast, None) => fast::delete(words, key),
        })
    }

    /// The same with so many tickets. With no room for any, a call is to do what the form
    /// without them does.
    fn told(self, held: &mut Held, key: u32, payload: Option<u32>, room: usize) -> Answer {
        let words = &mut held.store[..];
        if room == 0 {
            return self.change(words, key, payload);
        }
        let lent = &mut held.tickets[..TICKET * room];
        let ticket = |words: &[u32]| Ticket {
            level: words[0],
            first: words[1],
            overlap: words[2],
            written: words[3],
        };
        let mut tickets: Vec<Ticket> = lent.chunks_exact(TICKET).map(ticket).collect();
        let answer = match (self, payload) {
            (Oracle::Plain, Some(v)) => plain::put_tickets(words, key, v, &mut tickets),
            (Oracle::Plain, None) => plain::delete_tickets(words, key, &mut tickets),
            (Oracle::Fast, Some(v)) => fast::put_tickets(words, key, v, &mut tickets),
            (Oracle::Fast, None) => fast::delete_tickets(words, key, &mut tickets),
        };
        for (words, t) in lent.chunks_exact_mut(TICKET).zip(tickets) {
            words.copy_from_slice(&[t.level, t.first, t.overlap, t.written]);
        }
        told(answer)
    }
}
