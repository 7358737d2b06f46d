//! Wrong stores that a search must find out: each answers as another store does,
//! but for one fault.

use crate::calls::{Answer, Call, Lent, Store, TICKET};

/// A planted fault.
#[derive(Clone, Copy, Debug, PartialEq, Eq)]
pub enum Fault {
    /// Check says 0 to a store that is turned down for 4.
    CheckLenient,
    /// Check says 4 where it is 3.
    CheckOrder,
    /// Look up answers a payload that is one too large.
    LookUpPayload,
    /// Next answers the key itself as absent.
    NextNone,
    /// A stretch leaves its last key out.
    StretchLast,
    /// A stretch from a first key above the last takes them the other way round.
    StretchSwapped,
    /// A stretch says that more follow if the store has a record behind its last key.
    StretchMore,
    /// A stretch with no room says that none follow.
    StretchNoRoom,
    /// A stretch counts one record too few.
    StretchFewer,
    /// A stretch gives its last record another payload.
    StretchPayload,
    /// A stretch changes the key behind the last written one.
    StretchBehind,
    /// A stretch goes on in the longer array behind the length of the shorter one.
    StretchLonger,
    /// A stretch that is turned down for 4 changes an array.
    RefusedStretchWrites,
    /// A stretch writes after the payloads that it was lent.
    StretchWritesAfter,
    /// A stretch changes a word of the store.
    StretchStore,
    /// Show answers a part that starts a word too late.
    ShowStart,
    /// About says 0 to a store that is turned down for 4.
    AboutLenient,
    /// About answers live and N the other way round.
    AboutLive,
    /// About answers no blocks of level 3.
    AboutBlocks,
    /// About changes a lent word of a store that is turned down for 4.
    AboutWrites,
    /// Words answers one word too many.
    WordsMore,
    /// Format leaves the last word as it was.
    FormatLeaves,
    /// A put counts no merge.
    PutCounts,
    /// A put writes its payload with the lowest bit turned over.
    PutWord,
    /// A refused put changes a word.
    RefusedPutWrites,
    /// Delete says of an absent key that it was live.
    DeleteLive,
    /// Look up changes a lent word.
    LookUpWrites,
    /// Check writes after the lent words.
    CheckWritesBehind,
    /// Delete writes before the lent words.
    DeleteWritesBefore,
    /// The number of a run's first block is one too large.
    TicketFirst,
    /// The first two tickets are the other way round.
    TicketsSwapped,
    /// A ticket counts the blocks written compacting the level below too.
    TicketCompacting,
    /// The overlap of the last ticket is left as it was.
    TicketOverlap,
    /// The ticket behind the last one filled is cleared.
    TicketBehind,
    /// The last ticket of a list that is too short tells of no merge.
    TicketShort,
    /// A call with more merges than tickets, and some of these, counts a merge too few.
    TicketCounts,
    /// A call with no room for tickets counts a merge too few.
    TicketNoRoom,
    /// A call with more merges than tickets writes after them.
    TicketWritesAfter,
    /// A call that is turned down for 4 clears its first ticket.
    RefusedTickets,
    /// So does a put that is turned down for 5.
    FullTickets,
    /// A put with tickets writes its payload with the lowest bit turned over.
    TicketPutWord,
    /// A forecast says 0 of a store that is turned down for 4.
    ForecastLenient,
    /// A forecast says 0 of a put that is turned down for 5.
    ForecastFull,
    /// A forecast says that such a put merges.
    ForecastRefused,
    /// A forecast says nothing of the merge to come.
    ForecastNone,
    /// A forecast says that a live key of a full level 0 makes a merge.
    ForecastTop,
    /// A forecast says that a put makes a merge where a full level 0 has a delete mark for
    /// its key.
    ForecastMarks,
    /// A forecast says that a delete of a key that is not live merges as a put of it does.
    ForecastAbsent,
    /// A forecast changes a word of the store.
    ForecastWrites,
}

impl Fault {
    /// Every fault.
    pub const ALL: [Fault; 49] = {
        use Fault::*;
        [
            CheckLenient,
            CheckOrder,
            LookUpPayload,
            NextNone,
            StretchLast,
            StretchSwapped,
            StretchMore,
            StretchNoRoom,
            StretchFewer,
            StretchPayload,
            StretchBehind,
            StretchLonger,
            RefusedStretchWrites,
            StretchWritesAfter,
            StretchStore,
            ShowStart,
            AboutLenient,
            AboutLive,
            AboutBlocks,
            AboutWrites,
            WordsMore,
            FormatLeaves,
            PutCounts,
            PutWord,
            RefusedPutWrites,
            DeleteLive,
            LookUpWrites,
            CheckWritesBehind,
            DeleteWritesBefore,
            TicketFirst,
            TicketsSwapped,
            TicketCompacting,
            TicketOverlap,
            TicketBehind,
            TicketShort,
            TicketCounts,
            TicketNoRoom,
            TicketWritesAfter,
            RefusedTickets,
            FullTickets,
            TicketPutWord,
            ForecastLenient,
            ForecastFull,
            ForecastRefused,
            ForecastNone,
            ForecastTop,
            ForecastMarks,
            ForecastAbsent,
            ForecastWrites,
        ]
    };

    /// Those of stretches, of tickets and of forecasts of a sound store.
    pub const HISTORIES: [Fault; 28] = {
        use Fault::*;
        [
            StretchLast,
            StretchSwapped,
            StretchMore,
            StretchNoRoom,
            StretchFewer,
            StretchPayload,
            StretchBehind,
            StretchLonger,
            StretchWritesAfter,
            StretchStore,
            TicketFirst,
            TicketsSwapped,
            TicketCompacting,
            TicketOverlap,
            TicketBehind,
            TicketShort,
            TicketCounts,
            TicketNoRoom,
            TicketWritesAfter,
            FullTickets,
            TicketPutWord,
            ForecastFull,
            ForecastRefused,
            ForecastNone,
            ForecastTop,
            ForecastMarks,
            ForecastAbsent,
            ForecastWrites,
        ]
    };
}

/// A store with a fault.
pub struct Planted<S> {
    pub store: S,
    pub fault: Fault,
}

impl Fault {
    /// The call that the fault makes of the one asked for.
    fn call(self, call: Call) -> Call {
        match (self, call) {
            (Fault::StretchLast, Call::Stretch { first, last, rooms }) if last > 0 => {
                let last = last - 1;
                Call::Stretch { first, last, rooms }
            }
            (Fault::StretchSwapped, Call::Stretch { first, last, rooms }) if first > last => {
                let (first, last) = (last, first);
                Call::Stretch { first, last, rooms }
            }
            _ => call,
        }
    }

    /// The answer that the fault makes of the right one.
    fn answer(self, call: Call, right: Answer) -> Answer {
        use Fault::*;
        match (self, call, right) {
            (CheckLenient, Call::Check, Answer::Checked(4)) => Answer::Checked(0),
            (CheckOrder, Call::Check, Answer::Checked(3)) => Answer::Checked(4),
            (LookUpPayload, _, Answer::Looked([0, 1, payload])) => {
                Answer::Looked([0, 1, payload.wrapping_add(1)])
            }
            (NextNone, Call::Next(key), Answer::Nexted([0, 1, found, _])) if key == found => {
                Answer::Nexted([0; 4])
            }
            (StretchNoRoom, _, Answer::Stretched([0, 0, 1])) => Answer::Stretched([0; 3]),
            (StretchFewer, _, Answer::Stretched([0, written, more])) if written > 0 => {
                Answer::Stretched([0, written - 1, more])
            }
            (ShowStart, _, Answer::Part(start, length)) if length > 0 => {
                Answer::Part(start + 1, length)
            }
            (AboutLenient, _, Answer::About([4, ..])) => Answer::About([0; 13]),
            (AboutLive, _, Answer::About(mut numbers)) => {
                numbers.swap(7, 8);
                Answer::About(numbers)
            }
            (AboutBlocks, _, Answer::About(mut numbers)) => {
                numbers[12] = 0;
                Answer::About(numbers)
            }
            (WordsMore, _, Answer::Words(words)) if words > 0 => Answer::Words(words + 1),
            (PutCounts, Call::Put(..), Answer::Changed(mut numbers)) => {
                numbers[2] = 0;
                Answer::Changed(numbers)
            }
            (DeleteLive, Call::Delete(_), Answer::Changed([0, 0, ..])) => {
                let mut numbers = [0; 11];
                numbers[1] = 1;
                Answer::Changed(numbers)
            }
            _ => right,
        }
    }

    /// What the fault does to the arrays of a stretch, which have this room, after
    /// the right answer.
    unsafe fn arrays(self, lent: Lent, [keys, payloads]: [usize; 2], right: [u32; 3]) {
        use Fault::*;
        let [reason, written, more] = right;
        let (room, behind) = (keys.min(payloads), written as usize);
        match self {
            StretchPayload if written > 0 => *lent.payloads.add(behind - 1) ^= 1,
            StretchBehind if reason == 0 && behind < room => *lent.keys.add(behind) ^= 1,
            StretchLonger if more == 1 && keys > room => *lent.keys.add(room) ^= 1,
            StretchLonger if more == 1 && payloads > room => *lent.payloads.add(room) ^= 1,
            RefusedStretchWrites if reason == 4 && payloads > 0 => *lent.payloads ^= 1,
            StretchWritesAfter if more == 1 => *lent.payloads.add(payloads) ^= 1,
            _ => {}
        }
    }

    /// The answer that the fault makes of the right one to a call with so many tickets.
    fn uncounted(self, room: usize, right: Answer) -> Answer {
        let wrong = match self {
            Fault::TicketCounts => room > 0,
            Fault::TicketNoRoom => room == 0,
            _ => false,
        };
        match right {
            Answer::Changed(mut numbers) if wrong && right.merges() as usize > room => {
                numbers[2] -= 1;
                Answer::Changed(numbers)
            }
            _ => right,
        }
    }

    /// What the fault does to the tickets, which held these words before, after the right
    /// answer.
    unsafe fn tickets(self, lent: Lent, before: &[u32], right: Answer) {
        use Fault::*;
        let (merges, room) = (right.merges() as usize, before.len() / TICKET);
        let tickets = std::slice::from_raw_parts_mut(lent.tickets, before.len());
        let (told, rest) = tickets.split_at_mut(TICKET * merges.min(room));
        match (self, right) {
            (TicketFirst, _) if !told.is_empty() => told[1] += 1,
            (TicketsSwapped, _) if told.len() >= 2 * TICKET => {
                let (one, other) = told.split_at_mut(TICKET);
                one.swap_with_slice(&mut other[..TICKET]);
            }
            (TicketCompacting, Answer::Changed(numbers)) if !told.is_empty() => {
                told[3] += numbers[4];
            }
            (TicketOverlap, _) if !told.is_empty() => {
                let at = told.len() - 2;
                told[at] = before[at];
            }
            (TicketBehind, _) => rest.iter_mut().take(TICKET).for_each(|word| *word = 0),
            (TicketShort, _) if room > 0 && merges > room => {
                let at = TICKET * (room - 1);
                told[at..].copy_from_slice(&before[at..]);
            }
            (TicketWritesAfter, _) if merges > room => *lent.tickets.add(before.len()) ^= 1,
            (RefusedTickets, Answer::Changed([4, ..]))
            | (FullTickets, Answer::Changed([5, ..])) => {
                rest.iter_mut().take(TICKET).for_each(|word| *word = 0);
            }
            _ => {}
        }
    }
}

impl<S: Store> Planted<S> {
    /// A call with so many tickets.
    unsafe fn with_tickets(&self, lent: Lent, call: Call, room: usize) -> Answer {
        let before = std::slice::from_raw_parts(lent.tickets, TICKET * room).to_vec();
        let right = self.store.call(lent, call);
        match (self.fault, call) {
            (Fault::TicketPutWord, Call::PutTickets(key, payload, _)) if right.reason() == 0 => {
                self.store.call(lent, Call::Put(key, payload ^ 1));
            }
            _ => self.fault.tickets(lent, &before, right),
        }
        self.fault.uncounted(room, right)
    }

    /// What the fault makes of the right forecast.
    unsafe fn forecast(&self, lent: Lent, call: Call, right: [u32; 2]) -> Answer {
        use Fault::*;
        Answer::Forecast(match (self.fault, call, right) {
            (ForecastLenient, _, [4, 0])
            | (ForecastFull, _, [5, 0])
            | (ForecastNone, _, [0, 1]) => [0, 0],
            (ForecastRefused, _, [5, 0]) => [5, 1],
            (ForecastTop, Call::WillPutMerge(key) | Call::WillDeleteMerge(key), [0, 0])
                if self.top_full(lent) && self.live(lent, key) =>
            {
                [0, 1]
            }
            (ForecastMarks, Call::WillPutMerge(key), [0, 0])
                if self.top_full(lent) && !self.live(lent, key) =>
            {
                [0, 1]
            }
            (ForecastAbsent, Call::WillDeleteMerge(key), [0, 0]) => {
                match self.store.call(lent, Call::WillPutMerge(key)) {
                    Answer::Forecast([0, merges]) => [0, merges],
                    _ => right,
                }
            }
            (ForecastWrites, _, [0, _]) => {
                *lent.store.add(lent.words - 1) ^= 1;
                right
            }
            _ => right,
        })
    }

    /// Whether level 0 has as many records as it has room for.
    unsafe fn top_full(&self, lent: Lent) -> bool {
        let about = self.store.call(lent, Call::About);
        matches!(about, Answer::About([0, b, w, d, _, _, _, _, _, top, ..]) if top == b * w * d)
    }

    /// Whether a key is in the store.
    unsafe fn live(&self, lent: Lent, key: u32) -> bool {
        let looked = self.store.call(lent, Call::LookUp(key));
        matches!(looked, Answer::Looked([0, 1, _]))
    }
}

impl<S: Store> Store for Planted<S> {
    unsafe fn call(&self, lent: Lent, call: Call) -> Answer {
        use Fault::*;
        let Lent { store, words, .. } = lent;
        // The last lent word.
        let end = store.wrapping_add(words).wrapping_sub(1);
        let last = (words > 0).then(|| *end);
        if let Some(room) = call.tickets() {
            return self.with_tickets(lent, call, room);
        }
        let right = self.store.call(lent, self.fault.call(call));
        match (self.fault, call, right) {
            (FormatLeaves, _, Answer::Formatted([0, _])) => *end = last.unwrap_or(0),
            (PutWord, Call::Put(key, payload), Answer::Changed([0, ..])) => {
                self.store.call(lent, Call::Put(key, payload ^ 1));
            }
            (RefusedPutWrites, Call::Put(..), Answer::Changed([4, ..])) => *end ^= 1,
            (LookUpWrites, Call::LookUp(_), Answer::Looked([0, ..])) => *end ^= 1 << 31,
            (AboutWrites, Call::About, Answer::About([4, ..])) => *end ^= 1,
            (CheckWritesBehind, Call::Check, _) => *store.add(words) ^= 1,
            (DeleteWritesBefore, Call::Delete(_), _) => *store.sub(1) ^= 1,
            (
                StretchMore,
                Call::Stretch { first, last, .. },
                Answer::Stretched([0, written, 0]),
            ) if first <= last && last < u32::MAX => {
                let behind = self.store.call(lent, Call::Next(last + 1));
                let more = matches!(behind, Answer::Nexted([0, 1, ..]));
                return Answer::Stretched([0, written, more.into()]);
            }
            (StretchStore, _, Answer::Stretched([0, ..])) => *end ^= 1,
            (_, _, Answer::Forecast(right)) => return self.forecast(lent, call, right),
            (_, Call::Stretch { rooms, .. }, Answer::Stretched(numbers)) => {
                self.fault.arrays(lent, rooms, numbers);
            }
            _ => {}
        }
        self.fault.answer(call, right)
    }
}
