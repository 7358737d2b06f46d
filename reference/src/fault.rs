//! A switch for wrong variants, in test builds only: the tests show with it that
//! they are able to fail. Elsewhere it is always off.

/// Wrong variants; the first three are from "Errors in the trade".
#[derive(Clone, Copy, Debug, PartialEq, Eq)]
pub enum Fault {
    /// A tombstone and a put below it both vanish in a middle level.
    CancelInMiddle,
    /// A block with tombstones is reused in level h.
    ReuseTombstonesAtBottom,
    /// The pair rule is tested only for a buffer that is not empty.
    PairRuleOnlyForBuffer,
    /// Of equal runs the one with the highest keys is taken.
    HighestOfEquals,
    /// Step 2 leaves its two neighbours as they are.
    NoJoinAbove,
    /// Slots of X and Y are taken anew before the merge has ended.
    SlotsFreeTooSoon,
    /// Step 5 leaves out level i.
    NoCompactionAbove,
    /// A stretch ends before its last key.
    LeaveOutLast,
    /// More speaks of the live records of the store, not of the stretch.
    MoreOfTheStore,
    /// A stretch touches the entry behind the last written one.
    TouchBehindWritten,
    /// A stretch lists tombstones.
    ListTombstones,
    /// A stretch lists the oldest record of a live key.
    ListOlder,
    /// The run's first block gets its number after step 2.
    FirstAfterLeaving,
    /// The run's first block is counted in windows.
    FirstInWindows,
    /// Step 2's block is not among the blocks written.
    JoinNotCounted,
    /// A ticket counts the compactings after its merge too.
    CompactingOnTicket,
    /// The tickets come last merge first.
    TicketsBackwards,
    /// A list that is too short gets the tickets of the last merges.
    TicketsOfLast,
    /// All tickets are cleared first, in a refused call too.
    ClearsTickets,
    /// Merges that find no ticket are not counted.
    CountsTicketsOnly,
    /// The forecast takes level 0 for full only if it is full of puts.
    TombstonesNotHeld,
    /// The forecast takes the key of a tombstone in level 0 for one that it lacks.
    TombstoneNotAmong,
    /// The forecast of a full level 0 is a merge, also if it has the key.
    FullMerges,
    /// The forecast of a put that is refused with 5 is the merge all the same.
    RefusedMerges,
    /// The forecast of a delete does not ask if the key is live.
    AbsentMerges,
}

#[cfg(test)]
thread_local! {
    static FAULT: std::cell::Cell<Option<Fault>> = const { std::cell::Cell::new(None) };
}

/// Turns a wrong variant on for this thread, or all of them off.
#[cfg(test)]
pub fn set(fault: Option<Fault>) {
    FAULT.with(|cell| cell.set(fault));
}

/// Whether this wrong variant is on.
#[cfg(test)]
pub fn is(fault: Fault) -> bool {
    FAULT.with(|cell| cell.get()) == Some(fault)
}

/// Whether this wrong variant is on: never outside the tests.
#[cfg(not(test))]
#[inline]
pub fn is(_: Fault) -> bool {
    false
}
