//! A second implementation of document 01, written for speed: the baseline of the
//! benchmark. It uses the algorithms of the verified store and is not verified
//! itself; its tests compare it with the plain one, answer for answer and word for
//! word. It works on the lent words in place and allocates nothing: a merge has
//! fixed work arrays. The answers are those of `calls`.

mod form;
mod live;
pub(crate) mod merge;
mod search;
pub(crate) mod shape;
mod stretch;
mod top;
mod walk;
mod weave;

use crate::calls::{About, Changed, Counts, Forecast, Formatted, Found, Next, Stretched, Ticket};
use merge::Work;
use shape::Shape;
use stretch::Lent;

/// Format.
pub fn format(s: &mut [u32], numbers: [u32; 6]) -> Formatted {
    let refused = |refusal| Formatted { refusal, limit: 0 };
    if s.len() < shape::HEADER {
        return refused(1);
    }
    let Some(shape) = Shape::new(numbers) else {
        return refused(2);
    };
    if s.len() != shape.length {
        return refused(3);
    }
    s.fill(0);
    s[..6].copy_from_slice(&numbers);
    s[shape::CURSOR] = shape.p as u32 - 1;
    Formatted {
        refusal: 0,
        limit: shape.limit as u32,
    }
}

/// Check.
pub fn check(s: &[u32]) -> u32 {
    form::check(s).err().unwrap_or(0)
}

/// Look up k.
pub fn look_up(s: &[u32], key: u32) -> Found {
    match form::check(s) {
        Err(refusal) => Found {
            refusal,
            ..Found::default()
        },
        Ok(shape) => match search::live(s, &shape, key) {
            None => Found::default(),
            Some(payload) => Found {
                refusal: 0,
                found: true,
                payload,
            },
        },
    }
}

/// Next k.
pub fn next(s: &[u32], key: u32) -> Next {
    match form::check(s) {
        Err(refusal) => Next {
            refusal,
            ..Next::default()
        },
        Ok(shape) => match walk::next(s, &shape, key) {
            None => Next::default(),
            Some((key, payload)) => Next {
                refusal: 0,
                found: true,
                key,
                payload,
            },
        },
    }
}

/// Stretch.
pub fn stretch(
    s: &[u32],
    first: u32,
    last: u32,
    keys: &mut [u32],
    payloads: &mut [u32],
) -> Stretched {
    let shape = match form::check(s) {
        Err(refusal) => {
            return Stretched {
                refusal,
                ..Stretched::default()
            }
        }
        Ok(shape) => shape,
    };
    let mut lent = Lent::of(keys, payloads);
    let more = lent.fill(s, &shape, first, last);
    Stretched {
        refusal: 0,
        written: lent.written() as u32,
        more,
    }
}

/// Show i, k.
pub fn show(s: &[u32], level: u32, key: u32) -> &[u32] {
    let Ok(shape) = form::check(s) else {
        return &s[..0];
    };
    let level = level as usize;
    if level < 1 || level > shape.h {
        return &s[..0];
    }
    match search::block(s, &shape, level, key) {
        Some(at) if key <= s[at + 1 + s[at] as usize] => &s[at..at + shape.width],
        _ => &s[..0],
    }
}

/// About.
pub fn about(s: &[u32]) -> About {
    match form::check(s) {
        Err(refusal) => About {
            refusal,
            ..About::default()
        },
        Ok(shape) => About {
            refusal: 0,
            numbers: [0, 1, 2, 3, 4, 5].map(|at| s[at]),
            live: s[shape::LIVE],
            limit: shape.limit as u32,
            top: s[shape::COUNTS],
            blocks: [1, 2, 3].map(|level| s[shape::COUNTS + level]),
        },
    }
}

/// What a put of k would do, for card 5. No level is searched twice: level 0 only if it is
/// full or live is N, and those below, for refusal 5, only if live is N.
pub fn will_put_merge(s: &[u32], key: u32) -> Forecast {
    let shape = match form::check(s) {
        Err(reason) => return Forecast { reason, merges: 0 },
        Ok(shape) => shape,
    };
    let full = s[shape::COUNTS] as usize == shape.room;
    let limited = s[shape::LIVE] as usize == shape.limit;
    if !full && !limited {
        return Forecast::default();
    }
    let (live, merges) = match top::locate(s, &shape, key) {
        Ok(index) => (!top::tombstone(s, &shape, index), false),
        Err(_) => (limited && search::below(s, &shape, key).is_some(), full),
    };
    match limited && !live {
        true => Forecast {
            reason: 5,
            merges: 0,
        },
        false => forecast(merges),
    }
}

/// What a delete of k would do, for card 5. Only a full level 0 is searched, and those below
/// only if it lacks the key.
pub fn will_delete_merge(s: &[u32], key: u32) -> Forecast {
    let shape = match form::check(s) {
        Err(reason) => return Forecast { reason, merges: 0 },
        Ok(shape) => shape,
    };
    let full = s[shape::COUNTS] as usize == shape.room;
    let lacked = full && top::locate(s, &shape, key).is_err();
    forecast(lacked && search::below(s, &shape, key).is_some())
}

/// The forecast of an accepted put or delete.
fn forecast(merges: bool) -> Forecast {
    Forecast {
        reason: 0,
        merges: u32::from(merges),
    }
}

/// Put k, v.
pub fn put(s: &mut [u32], key: u32, payload: u32) -> Changed {
    put_tickets(s, key, payload, &mut [])
}

/// Delete k.
pub fn delete(s: &mut [u32], key: u32) -> Changed {
    delete_tickets(s, key, &mut [])
}

/// Put k, v, with a ticket for each merge.
pub fn put_tickets(s: &mut [u32], key: u32, payload: u32, tickets: &mut [Ticket]) -> Changed {
    let shape = match form::check(s) {
        Err(refusal) => return refused(refusal),
        Ok(shape) => shape,
    };
    let live_before = search::live(s, &shape, key).is_some();
    if !live_before {
        if s[shape::LIVE] as usize == shape.limit {
            return refused(5);
        }
        s[shape::LIVE] += 1;
    }
    changed(live_before, enter(s, &shape, (key, 0, payload), tickets))
}

/// Delete k, with a ticket for each merge.
pub fn delete_tickets(s: &mut [u32], key: u32, tickets: &mut [Ticket]) -> Changed {
    let shape = match form::check(s) {
        Err(refusal) => return refused(refusal),
        Ok(shape) => shape,
    };
    if search::live(s, &shape, key).is_none() {
        return Changed::default();
    }
    s[shape::LIVE] -= 1;
    changed(true, enter(s, &shape, (key, 1, 0), tickets))
}

/// A refused put or delete.
fn refused(refusal: u32) -> Changed {
    Changed {
        refusal,
        ..Changed::default()
    }
}

/// An accepted put or delete.
fn changed(live_before: bool, levels: [Counts; 3]) -> Changed {
    Changed {
        refusal: 0,
        live_before,
        levels,
    }
}

/// A record, of key, tombstone 0 or 1 and payload, into level 0, after the merges that
/// make room for it.
fn enter(
    s: &mut [u32],
    shape: &Shape,
    (key, tombstone, payload): (u32, u32, u32),
    tickets: &mut [Ticket],
) -> [Counts; 3] {
    let mut counts = [Counts::default(); 3];
    let spot = match top::locate(s, shape, key) {
        Ok(index) => {
            top::write(s, shape, index, key, tombstone, payload);
            return counts;
        }
        Err(index) => index,
    };
    if (s[shape::COUNTS] as usize) < shape.room {
        top::insert(s, shape, spot, key, tombstone, payload);
        return counts;
    }
    Work::open(s, shape).merge_all(&mut counts, tickets);
    let spot = top::locate(s, shape, key).unwrap_or_else(|index| index);
    top::insert(s, shape, spot, key, tombstone, payload);
    counts
}
