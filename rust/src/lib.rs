//! The record store of a brake tester's console: test numbers (keys) with readings (payloads) in a slice of words that
//! the caller lends to each call. `include/mewilovang.h` tells what each call does, which geometries there are, and how
//! much stack a call needs; this crate is the same in Rust's types.
//!
//! Every slice of any length and content may be lent. A call does its work, or is turned down with a [`Refusal`] and
//! leaves every word as it was.
//!
//! ```
//! use mewilovang::Geometry;
//!
//! let geometry = Geometry { b: 4, w: 1, d: 2, g: 4, h: 1, p: 40 };
//! let mut store = vec![0; geometry.words().unwrap()];
//! assert_eq!(mewilovang::format(&mut store, geometry), Ok(17));
//! assert!(!mewilovang::put(&mut store, 10, 2400).unwrap().live);
//! assert_eq!(mewilovang::look_up(&store, 10), Ok(Some(2400)));
//! assert_eq!(mewilovang::next(&store, 11), Ok(None));
//! ```

pub mod border;

pub use border::{Counts, Ticket};

/// The six numbers of a store; the limits are in `mewilovang.h`.
#[derive(Clone, Copy, Debug, PartialEq, Eq)]
pub struct Geometry {
    /// Records in a block.
    pub b: u32,
    /// Blocks in the window of level 0.
    pub w: u32,
    /// Windows in a level.
    pub d: u32,
    /// Growth from level to level.
    pub g: u32,
    /// Levels on flash.
    pub h: u32,
    /// Places for blocks.
    pub p: u32,
}

impl Geometry {
    /// The words that a store of this geometry needs, no more and no fewer; `None` if it breaks a limit.
    pub fn words(self) -> Option<usize> {
        // Safe: takes numbers only.
        match unsafe { border::mewilovang_words(self.b, self.w, self.d, self.g, self.h, self.p) } {
            0 => None,
            n => Some(n),
        }
    }
}

/// Why a call is turned down. They are looked for in this order.
#[derive(Clone, Copy, Debug, PartialEq, Eq)]
pub enum Refusal {
    /// Fewer than 12 words.
    Short = 1,
    /// The geometry, given to [`format`] or read from the store, breaks a limit.
    Geometry = 2,
    /// The number of words is not the one that the geometry needs.
    Length = 3,
    /// The form check finds a breach: the store is damaged. Never from [`format`].
    Damaged = 4,
    /// A put of a key that is not in the store while it holds as many as it may.
    Full = 5,
}

impl Refusal {
    /// The number 1 to 5 that the specification has for it.
    pub fn number(self) -> u32 {
        self as u32
    }
}

impl std::fmt::Display for Refusal {
    fn fmt(&self, f: &mut std::fmt::Formatter<'_>) -> std::fmt::Result {
        f.write_str(match self {
            Refusal::Short => "fewer than 12 words",
            Refusal::Geometry => "the geometry breaks a limit",
            Refusal::Length => "not the words that the geometry needs",
            Refusal::Damaged => "the store is damaged",
            Refusal::Full => "the store is full",
        })
    }
}

impl std::error::Error for Refusal {}

/// What a store says of itself.
#[derive(Clone, Copy, Debug, PartialEq, Eq)]
pub struct About {
    pub geometry: Geometry,
    /// The keys in the store.
    pub live: u32,
    /// The number of keys that it holds at most.
    pub limit: u32,
    /// The records in level 0, delete marks with them.
    pub top: u32,
    /// The blocks of levels 1, 2 and 3; zeros above h.
    pub blocks: [u32; 3],
}

/// What a put or delete did.
#[derive(Clone, Copy, Debug, PartialEq, Eq)]
pub struct Change {
    /// The key was in the store before the call.
    pub live: bool,
    /// The counts of levels 1, 2 and 3; zeros above h.
    pub levels: [Counts; 3],
}

/// A key in the store with its payload.
#[derive(Clone, Copy, Debug, PartialEq, Eq)]
pub struct Record {
    pub key: u32,
    pub payload: u32,
}

/// How far [`stretch`] came.
#[derive(Clone, Copy, Debug, PartialEq, Eq)]
pub struct Stretched {
    /// The records written to the two slices.
    pub written: usize,
    /// Further records of the stretch follow.
    pub more: bool,
}

/// An empty store of this geometry, whatever the words were; the number of keys that it holds at most.
pub fn format(store: &mut [u32], geometry: Geometry) -> Result<u32, Refusal> {
    let Geometry { b, w, d, g, h, p } = geometry;
    // Safe here and below: pointer and length are those of a slice, lent for the call, to be written where it is `&mut`.
    let a = unsafe { border::mewilovang_format(store.as_mut_ptr(), store.len(), b, w, d, g, h, p) };
    accepted(a.reason)?;
    Ok(a.limit)
}

/// If the store is whole.
pub fn check(store: &[u32]) -> Result<(), Refusal> {
    accepted(unsafe { border::mewilovang_check(store.as_ptr(), store.len()) })
}

/// The payload of a key, if the key is in the store.
pub fn look_up(store: &[u32], key: u32) -> Result<Option<u32>, Refusal> {
    let a = unsafe { border::mewilovang_look_up(store.as_ptr(), store.len(), key) };
    accepted(a.reason)?;
    Ok((a.found == 1).then_some(a.payload))
}

/// The record with the smallest key at or above `key`, if there is one.
pub fn next(store: &[u32], key: u32) -> Result<Option<Record>, Refusal> {
    let a = unsafe { border::mewilovang_next(store.as_ptr(), store.len(), key) };
    accepted(a.reason)?;
    Ok((a.found == 1).then_some(Record {
        key: a.key,
        payload: a.payload,
    }))
}

/// The records with keys from `first` to `last`, both included, in rising order: their keys to `keys`, their payloads to
/// `payloads`, as many as the shorter of the two has room for. What lies behind the last one written stays as it was, and
/// all of it does if the call is turned down.
///
/// If something was written and more follow, the last key written is below `last`, and a call from one above it goes on
/// with the rest. If one of the slices is empty nothing is written, and `more` says if there is such a record at all: a
/// loop that goes on while `more` is true would not end.
///
/// ```
/// use mewilovang::{Geometry, Refusal, Stretched};
///
/// let geometry = Geometry { b: 4, w: 1, d: 2, g: 4, h: 1, p: 40 };
/// let mut store = vec![0; 438];
/// mewilovang::format(&mut store, geometry)?;
/// for key in [10, 20, 30, 40, 50, 60, 70, 80, 90] {
///     mewilovang::put(&mut store, key, 2400 + key)?;
/// }
/// mewilovang::delete(&mut store, 30)?;
///
/// let (mut keys, mut payloads) = ([0; 3], [0; 5]);
/// let piece = mewilovang::stretch(&store, 20, 60, &mut keys, &mut payloads)?;
/// assert_eq!(piece, Stretched { written: 3, more: true });
/// assert_eq!((keys, payloads), ([20, 40, 50], [2420, 2440, 2450, 0, 0]));
/// let piece = mewilovang::stretch(&store, 50 + 1, 60, &mut keys, &mut payloads)?;
/// assert_eq!(piece, Stretched { written: 1, more: false });
/// assert_eq!((keys, payloads), ([60, 40, 50], [2460, 2440, 2450, 0, 0]));
///
/// let none = mewilovang::stretch(&store, 20, 60, &mut [], &mut payloads)?;
/// assert_eq!(none, Stretched { written: 0, more: true });
/// # Ok::<(), Refusal>(())
/// ```
pub fn stretch(
    store: &[u32],
    first: u32,
    last: u32,
    keys: &mut [u32],
    payloads: &mut [u32],
) -> Result<Stretched, Refusal> {
    // Safe besides: what is `&mut` lies in no other slice, and the pointer of an empty one is aligned and not null.
    let a = unsafe {
        border::mewilovang_stretch(
            store.as_ptr(),
            store.len(),
            first,
            last,
            keys.as_mut_ptr(),
            keys.len(),
            payloads.as_mut_ptr(),
            payloads.len(),
        )
    };
    accepted(a.reason)?;
    Ok(Stretched {
        written: a.written as usize,
        more: a.more == 1,
    })
}

/// Of a level, 1 to h, the words of the block whose first to last key encloses `key`: record count, marks, keys, payloads.
/// Empty if there is none, or the level is another number, or the store is turned down.
pub fn show(store: &[u32], level: u32, key: u32) -> &[u32] {
    let part = show_at(store, level, key);
    &store[part]
}

/// Where these words lie in the store.
pub fn show_at(store: &[u32], level: u32, key: u32) -> std::ops::Range<usize> {
    let a = unsafe { border::mewilovang_show(store.as_ptr(), store.len(), level, key) };
    a.start..a.start + a.length
}

/// What a store says of itself: its geometry, how many keys it holds of how many, how full its levels are.
///
/// ```
/// use mewilovang::{Geometry, Refusal};
///
/// let geometry = Geometry { b: 4, w: 1, d: 2, g: 4, h: 1, p: 40 };
/// let mut store = vec![0; 438];
/// mewilovang::format(&mut store, geometry)?;
/// for key in [10, 20, 30, 40, 50, 60, 70, 80, 90] {
///     mewilovang::put(&mut store, key, 2400)?;
/// }
/// let about = mewilovang::about(&store)?;
/// assert_eq!(about.geometry, geometry);
/// assert_eq!((about.live, about.limit), (9, 17));
/// assert_eq!((about.top, about.blocks), (5, [1, 0, 0]));
///
/// store[6] = 8;
/// assert_eq!(mewilovang::about(&store), Err(Refusal::Damaged));
/// # Ok::<(), Refusal>(())
/// ```
pub fn about(store: &[u32]) -> Result<About, Refusal> {
    let a = unsafe { border::mewilovang_about(store.as_ptr(), store.len()) };
    accepted(a.reason)?;
    let border::AboutStore {
        b, w, d, g, h, p, ..
    } = a;
    Ok(About {
        geometry: Geometry { b, w, d, g, h, p },
        live: a.live,
        limit: a.limit,
        top: a.top,
        blocks: [a.blocks1, a.blocks2, a.blocks3],
    })
}

/// If a put of this key, whatever its payload, will merge, or why it would be turned down. Changes nothing. A console asks
/// this before a put, to know if its progress bar has to be shown.
///
/// A put that is not turned down merges exactly if level 0 is full, with w * d * b records, and the key is not among them;
/// delete marks count as records. The first merge, the only one into level 1, writes at most w * (g + 1) blocks. Compacting
/// and merges deeper down, if any, follow that one and are not in that figure. A put without a merge writes no block at all.
///
/// ```
/// use mewilovang::{Geometry, Refusal};
///
/// let geometry = Geometry { b: 4, w: 1, d: 2, g: 4, h: 1, p: 40 };
/// let mut store = vec![0; 438];
/// mewilovang::format(&mut store, geometry)?;
/// for key in [10, 20, 30, 40, 50, 60, 70, 80] {
///     assert!(!mewilovang::will_put_merge(&store, key)?);
///     mewilovang::put(&mut store, key, 2400)?;
/// }
/// // Level 0 is full now: a new key has to wait for a merge, one that is there has not.
/// assert!(mewilovang::will_put_merge(&store, 90)?);
/// assert!(!mewilovang::will_put_merge(&store, 50)?);
/// assert_eq!(mewilovang::put(&mut store, 90, 2400)?.levels[0].merges, 1);
///
/// store[6] = 8;
/// assert_eq!(mewilovang::will_put_merge(&store, 90), Err(Refusal::Damaged));
/// # Ok::<(), Refusal>(())
/// ```
pub fn will_put_merge(store: &[u32], key: u32) -> Result<bool, Refusal> {
    foretold(unsafe { border::mewilovang_will_put_merge(store.as_ptr(), store.len(), key) })
}

/// If a delete of this key will merge, or why it would be turned down. Changes nothing.
///
/// A delete of a key in the store merges exactly if a put of it would, and its first merge writes at most as many blocks as
/// [`will_put_merge`] says. A delete of a key that is not in the store never merges.
///
/// ```
/// use mewilovang::{Geometry, Refusal};
///
/// let geometry = Geometry { b: 4, w: 1, d: 2, g: 4, h: 1, p: 40 };
/// let mut store = vec![0; 438];
/// mewilovang::format(&mut store, geometry)?;
/// for key in [10, 20, 30, 40, 50, 60, 70, 80, 90, 92, 94, 96] {
///     mewilovang::put(&mut store, key, 2400)?;
/// }
/// // 10 to 40 went to level 1, and the other eight fill level 0.
/// assert!(mewilovang::will_delete_merge(&store, 10)?);
/// assert!(!mewilovang::will_delete_merge(&store, 50)?);
/// // 15 is not in the store.
/// assert!(!mewilovang::will_delete_merge(&store, 15)?);
/// # Ok::<(), Refusal>(())
/// ```
pub fn will_delete_merge(store: &[u32], key: u32) -> Result<bool, Refusal> {
    foretold(unsafe { border::mewilovang_will_delete_merge(store.as_ptr(), store.len(), key) })
}

/// A payload for a key, over the one that it had.
pub fn put(store: &mut [u32], key: u32, payload: u32) -> Result<Change, Refusal> {
    change(unsafe { border::mewilovang_put(store.as_mut_ptr(), store.len(), key, payload) })
}

/// A key out of the store. One that is not in it changes nothing, and `live` is false.
pub fn delete(store: &mut [u32], key: u32) -> Result<Change, Refusal> {
    change(unsafe { border::mewilovang_delete(store.as_mut_ptr(), store.len(), key) })
}

/// As [`put`], with a ticket for each merge that the call makes, in their order: what a slow put did. If there are more
/// merges than tickets, the further ones are only counted. Tickets that are not reached stay as they were, and all of them do
/// if the call is turned down. Neither the store nor the answer depends on how many tickets are lent.
///
/// The number of tickets filled is that of all merges that the answer counts, or of the tickets lent if these are fewer. If
/// all fitted, the blocks written that the tickets of a level have add up to the answer's for the level below.
///
/// ```
/// use mewilovang::{Geometry, Refusal, Ticket};
///
/// let geometry = Geometry { b: 4, w: 1, d: 2, g: 4, h: 1, p: 40 };
/// let mut store = vec![0; 438];
/// mewilovang::format(&mut store, geometry)?;
/// for key in [10, 20, 30, 40, 50, 60, 70, 80] {
///     mewilovang::put(&mut store, key, 2400)?;
/// }
/// // Level 0 is full: its first page goes to level 1, which is empty, and is written as one block.
/// let mut tickets = [Ticket::default(); 2];
/// let change = mewilovang::put_tickets(&mut store, 90, 2400, &mut tickets)?;
/// assert_eq!((change.levels[0].merges, change.levels[0].written), (1, 1));
/// let first = Ticket { level: 0, first: 0, overlap: 0, written: 1 };
/// assert_eq!(tickets, [first, Ticket::default()]);
///
/// // Level 0 has room again: no merge, and no ticket is touched.
/// mewilovang::put_tickets(&mut store, 15, 2400, &mut tickets)?;
/// assert_eq!(tickets, [first, Ticket::default()]);
/// # Ok::<(), Refusal>(())
/// ```
pub fn put_tickets(
    store: &mut [u32],
    key: u32,
    payload: u32,
    tickets: &mut [Ticket],
) -> Result<Change, Refusal> {
    // Safe besides, here and below: tickets lie in no other slice, and the pointer of an empty one is aligned and not null.
    change(unsafe {
        border::mewilovang_put_tickets(
            store.as_mut_ptr(),
            store.len(),
            key,
            payload,
            tickets.as_mut_ptr(),
            tickets.len(),
        )
    })
}

/// As [`delete`], with a ticket for each merge that the call makes: see [`put_tickets`].
pub fn delete_tickets(
    store: &mut [u32],
    key: u32,
    tickets: &mut [Ticket],
) -> Result<Change, Refusal> {
    change(unsafe {
        border::mewilovang_delete_tickets(
            store.as_mut_ptr(),
            store.len(),
            key,
            tickets.as_mut_ptr(),
            tickets.len(),
        )
    })
}

fn accepted(reason: u32) -> Result<(), Refusal> {
    match reason {
        0 => Ok(()),
        1 => Err(Refusal::Short),
        2 => Err(Refusal::Geometry),
        3 => Err(Refusal::Length),
        4 => Err(Refusal::Damaged),
        5 => Err(Refusal::Full),
        other => unreachable!("the library has no reason {other}"),
    }
}

fn foretold(a: border::Forecast) -> Result<bool, Refusal> {
    accepted(a.reason)?;
    Ok(a.merges == 1)
}

fn change(a: border::Changed) -> Result<Change, Refusal> {
    accepted(a.reason)?;
    Ok(Change {
        live: a.live == 1,
        levels: [a.level1, a.level2, a.level3],
    })
}
