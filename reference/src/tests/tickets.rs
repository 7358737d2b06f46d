//! Tickets, document 02's card 3: "upper level, number of the run's first block in that
//! level from 0, overlap, and blocks written" of each merge of a put or delete.

use super::checker::{deepest, fewest, Checked};
use super::lists::formatted;
use super::{build, seed, set, sets, tomb};
use crate::block::Record;
use crate::breach::Breach;
use crate::calls::{self, check, Changed, Ticket};
use crate::cascade::Cascade;
use crate::damage::damaged;
use crate::fast;
use crate::generate::{Choices, Stream};
use crate::geometry::Geometry;
use crate::level::View;
use crate::random::Random;
use crate::script::Line;
use crate::unreachable;
use crate::work::Work;

const A: [u32; 6] = [4, 1, 2, 4, 1, 40];
/// Runs of two pages.
const WIDE: [u32; 6] = [4, 2, 2, 4, 1, 72];
const TWO: [u32; 6] = [4, 1, 2, 3, 2, 104];
const THREE: [u32; 6] = [4, 1, 2, 3, 3, 320];

/// A call's answer, the tickets that it was lent and every word, after it.
#[derive(Clone, Debug, PartialEq, Eq)]
pub struct Given {
    answer: Changed,
    tickets: Vec<Ticket>,
    pub words: Vec<u32>,
}

/// An implementation's put or delete on a copy of a store, with so many tickets.
pub type Other = fn(&[u32], Line, usize) -> Given;

/// Tickets filled with words that tell their number and field.
fn lent(room: usize) -> Vec<Ticket> {
    let filled = |number: u32| Ticket {
        level: 0xaaaa_0000 + number,
        first: 0xbbbb_0000 + number,
        overlap: 0xcccc_0000 + number,
        written: 0xdddd_0000 + number,
    };
    (0..room as u32).map(filled).collect()
}

/// What the plain implementation gives.
fn plain(words: &[u32], line: Line, room: usize) -> Given {
    let (mut words, mut tickets) = (words.to_vec(), lent(room));
    let answer = match line {
        Line::Put(key, payload) => calls::put_tickets(&mut words, key, payload, &mut tickets),
        Line::Delete(key) => calls::delete_tickets(&mut words, key, &mut tickets),
        _ => Changed::default(),
    };
    Given {
        answer,
        tickets,
        words,
    }
}

/// What the implementation written for speed gives.
pub fn by_fast(words: &[u32], line: Line, room: usize) -> Given {
    let (mut words, mut tickets) = (words.to_vec(), lent(room));
    let answer = match line {
        Line::Put(key, payload) => fast::put_tickets(&mut words, key, payload, &mut tickets),
        Line::Delete(key) => fast::delete_tickets(&mut words, key, &mut tickets),
        _ => Changed::default(),
    };
    Given {
        answer,
        tickets,
        words,
    }
}

/// The same from the form of the calls without tickets, and the merges made again.
pub fn by_replay(words: &[u32], line: Line, room: usize) -> Given {
    let (mut tickets, made) = (lent(room), replayed(words, line));
    let mut words = words.to_vec();
    let answer = match line {
        Line::Put(key, payload) => fast::put(&mut words, key, payload),
        Line::Delete(key) => fast::delete(&mut words, key),
        _ => Changed::default(),
    };
    for (ticket, made) in tickets.iter_mut().zip(made) {
        *ticket = made;
    }
    Given {
        answer,
        tickets,
        words,
    }
}

/// Whether a call merges, by what document 01 says of put and delete.
fn merges_due(words: &[u32], line: Line) -> bool {
    let (Ok(view), 0) = (View::of(words), check(words)) else {
        return false;
    };
    let full = view.count(0) == view.geometry.level_zero_records();
    let (key, accepted) = match line {
        Line::Put(key, _) => (key, view.live() < view.geometry.key_limit()),
        Line::Delete(key) => (key, false),
        _ => return false,
    };
    let accepted = accepted || view.look_up(key).is_some();
    full && accepted && view.zero_search(key).is_err()
}

/// The tickets of a call, from the store at its entry: each merge is made again, its run
/// is found by trying all, and its blocks are counted by the places in use.
fn replayed(entry: &[u32], line: Line) -> Vec<Ticket> {
    let mut tickets = Vec::new();
    if !merges_due(entry, line) {
        return tickets;
    }
    let geometry = View::of(entry).expect("a store").geometry;
    let mut words = entry.to_vec();
    let mut work = Work::open(&mut words).expect("a store");
    let mut upper = Some(0);
    while let Some(level) = upper {
        let (above, below) = (work.spans(level), work.spans(level + 1));
        let (overlap, first) = fewest(&above, &below, geometry.window(level)).expect("a run");
        let before = work.slots_in_use();
        let after = work.merge(level).after;
        let written = after.iter().filter(|slot| !before.contains(slot)).count();
        let [level, first, overlap, written] = [level, first, overlap, written].map(|n| n as u32);
        tickets.push(Ticket {
            level,
            first,
            overlap,
            written,
        });
        upper = deepest(geometry, &work);
    }
    tickets
}

/// What a caller reads from the tickets of a call if all fitted: the bounds of each,
/// their order, and their sums, which are the answer's counts.
fn readable(geometry: Geometry, answer: Changed, tickets: &[Ticket]) -> Checked {
    let mut sums = [[0; 2]; 3];
    for (number, ticket) in tickets.iter().enumerate() {
        let level = ticket.level as usize;
        let (overlap, written) = (ticket.overlap as usize, ticket.written as usize);
        let w = geometry.window(level);
        let join = usize::from(level > 0);
        let kept = level < geometry.levels()
            && (level == 0) == (number == 0)
            && ticket.first as usize + w <= 2 * geometry.capacity(level)
            && overlap <= geometry.window(level + 1)
            && written <= w + overlap + join;
        if !kept {
            return Err(format!("ticket {number} of {tickets:?}"));
        }
        sums[level][0] += 1;
        sums[level][1] += ticket.written;
    }
    let counts = answer
        .levels
        .map(|level| [level.merges, level.merge_writes]);
    if sums != counts {
        return Err(format!("{tickets:?} with {answer:?}"));
    }
    Ok(())
}

/// One call on a store: with so many tickets both give the same, and with tickets for all
/// merges these tell what the answer does. Answers the number of merges.
pub fn agrees(words: &[u32], line: Line, room: usize, other: Other) -> Result<usize, String> {
    let given = plain(words, line, room);
    let right = other(words, line, room);
    if given.answer != right.answer || given.tickets != right.tickets {
        let told = |given: &Given| format!("{:?} {:?}", given.answer, given.tickets);
        return Err(format!("{}, not {}", told(&given), told(&right)));
    }
    if given.words != right.words {
        return Err("other words".to_string());
    }
    let merges = given.answer.levels.map(|level| level.merges as usize);
    let made = merges.iter().sum();
    if let (Ok(view), true) = (View::of(words), made <= room) {
        readable(view.geometry, given.answer, &given.tickets[..made])?;
    }
    Ok(made)
}

/// One call on a store makes merges with these tickets, whoever is asked and however long
/// the list is; store and answer are those of the call without tickets.
fn tells(words: &[u32], line: Line, tickets: &[[u32; 4]]) -> Checked {
    let mut after = words.to_vec();
    let answer = match line {
        Line::Put(key, payload) => calls::put(&mut after, key, payload),
        Line::Delete(key) => calls::delete(&mut after, key),
        _ => Changed::default(),
    };
    for room in 0..tickets.len() + 3 {
        let mut right = lent(room);
        for (ticket, &[level, first, overlap, written]) in right.iter_mut().zip(tickets) {
            *ticket = Ticket {
                level,
                first,
                overlap,
                written,
            };
        }
        for given in [plain, by_fast, by_replay].map(|call| call(words, line, room)) {
            if given.tickets != right || given.answer != answer || given.words != after {
                return Err(format!("{line:?} with {room}: {:?}", given.tickets));
            }
        }
        agrees(words, line, room, by_fast)?;
    }
    Ok(())
}

/// The store after a put.
fn after_put(words: &[u32], key: u32) -> Vec<u32> {
    plain(words, Line::Put(key, key), 0).words
}

/// The figures of geometry A in document 01: the first merge takes keys 10 to 40, the
/// second 60 to 90, which is page 1, the third 46, 47, 48 and 50. The other calls have
/// room, are refused with 5, overwrite or delete an absent key.
#[test]
fn figures_of_geometry_a() -> Checked {
    let mut words = formatted(Geometry::new(A).expect("A is legal"));
    let steps: [(&[u32], [u32; 4]); 3] = [
        (&[10, 20, 30, 40, 50, 60, 70, 80, 90], [0, 0, 0, 1]),
        (&[15, 25, 35, 45], [0, 1, 0, 1]),
        (&[46, 47, 48, 49], [0, 1, 0, 1]),
    ];
    for (keys, ticket) in steps {
        let (&last, room) = keys.split_last().expect("keys");
        for &key in room {
            tells(&words, Line::Put(key, key), &[])?;
            words = after_put(&words, key);
        }
        tells(&words, Line::Put(last, last), &[ticket])?;
        words = after_put(&words, last);
    }
    for line in [Line::Put(100, 1), Line::Put(49, 2), Line::Delete(99)] {
        tells(&words, line, &[])?;
    }
    Ok(())
}

/// Geometry A, both pages overlap one block: the lower one leaves, and its four records
/// and the block's four make two blocks. A delete of a key of level 1 does the same.
#[test]
fn an_overlap() -> Checked {
    let zero = sets(&[10, 20, 30, 40, 50, 60, 70, 80], 0);
    let one = [sets(&[15, 25, 35, 45], 1), sets(&[55, 65, 75, 85], 1)];
    let words = build(A, &zero, &[&one]);
    tells(&words, Line::Put(90, 1), &[[0, 0, 1, 2]])?;
    tells(&words, Line::Delete(75), &[[0, 0, 1, 2]])?;
    tells(&words, Line::Delete(80), &[])?;
    tells(&words, Line::Delete(81), &[])
}

/// Four pages, a run of two: the middle ones overlap nothing, and the first of them has
/// number 1.
#[test]
fn a_page_not_a_window() -> Checked {
    let keys: Vec<u32> = (1..=16).map(|number| 10 * number).collect();
    let one = [sets(&[11, 12, 13], 1), sets(&[151, 152, 153], 1)];
    let words = build(WIDE, &sets(&keys, 0), &[&one]);
    tells(&words, Line::Put(1, 1), &[[0, 1, 0, 2]])
}

/// The blocks before and after the run, 50 60 and 410 420, become one in step 2: it is
/// the second merge's one write, and the run's first block was number 2 before.
fn joined() -> Vec<u32> {
    let zero = [1000, 1001, 1002, 1003, 2000, 2001, 2002, 2003].map(tomb);
    let one = [
        sets(&[10, 20, 30, 40], 1),
        sets(&[50, 60], 1),
        sets(&[110, 120, 130, 140], 1),
        vec![tomb(210), tomb(220), tomb(230), tomb(240)],
        vec![tomb(310), tomb(320), tomb(330), tomb(340)],
        sets(&[410, 420], 1),
    ];
    let two = [sets(&[51, 52], 2), sets(&[411, 412, 413], 2)];
    build(TWO, &zero, &[&one, &two])
}

/// Step 2's block is on the ticket of its merge. Level 2 drops the tombstones, so of the
/// run only its first block arrives, and it is reused.
#[test]
fn step_2s_block() -> Checked {
    tells(&joined(), Line::Put(1, 1), &[[0, 0, 0, 1], [1, 2, 0, 1]])
}

/// The four tombstones of page 0 leave three records of their block: one block written.
/// Level 1 then has 15 records in five blocks and is compacted to four, which the answer
/// counts and the ticket does not.
#[test]
fn compacting_is_no_write_of_the_merge() -> Checked {
    let marks = [105, 110, 115, 125, 145, 146, 147, 148].map(tomb);
    let one = [
        sets(&[10, 20, 30], 1),
        sets(&[40, 50, 60], 1),
        sets(&[70, 80, 90], 1),
        sets(&[100, 110, 120, 130], 1),
        sets(&[140, 150, 160], 1),
    ];
    let words = build(A, &marks, &[&one]);
    let answer = plain(&words, Line::Put(200, 1), 0).answer;
    let level = answer.levels[0];
    if [level.merges, level.merge_writes, level.compaction_writes] != [1, 1, 4] {
        return Err(format!("{answer:?}"));
    }
    tells(&words, Line::Put(200, 1), &[[0, 0, 1, 1]])
}

/// Levels 0 to 2 are full and no level overlaps another: a page is written to level 1,
/// three blocks go on to level 2 and nine to level 3 as they are.
#[test]
fn one_merge_a_level() -> Checked {
    let blocks = |count: u32, from: u32, record: fn(u32) -> Record| -> Vec<Vec<Record>> {
        let block = |number| (0..4).map(|at| record(from + 10 * number + at)).collect();
        (0..count).map(block).collect()
    };
    let put = |key| set(key, key);
    let zero = blocks(2, 9000, put).concat();
    let two = [blocks(9, 1000, put), blocks(9, 2000, tomb)].concat();
    let words = build(THREE, &zero, &[&blocks(6, 5000, tomb), &two]);
    let tickets = [[0, 0, 0, 1], [1, 0, 0, 0], [2, 0, 0, 0]];
    tells(&words, Line::Put(1, 1), &tickets)
}

/// A refused call changes no ticket: a store that is too short, of another geometry, too
/// long, damaged.
#[test]
fn refused_calls() -> Checked {
    let sound = joined();
    let mut damaged = sound.clone();
    damaged[6] += 1;
    let mut other = sound.clone();
    other[0] = 1;
    let long = [&sound[..], &[0]].concat();
    for words in [&sound[..11], &other, &long, &damaged] {
        tells(words, Line::Put(1, 1), &[])?;
        tells(words, Line::Delete(10), &[])?;
    }
    Ok(())
}

/// The hand-written cases.
pub const CASES: [fn() -> Checked; 7] = [
    figures_of_geometry_a,
    an_overlap,
    a_page_not_a_window,
    step_2s_block,
    compacting_is_no_write_of_the_merge,
    one_merge_a_level,
    refused_calls,
];

/// Calls by how many merges they made; those of more are counted with the last.
type Made = [usize; 8];

/// So many random calls on a store, with lists of any length, each compared with both
/// other ways.
fn calls_agree(
    random: &mut Random,
    mut words: Vec<u32>,
    geometry: Geometry,
    calls: usize,
    made: &mut Made,
) -> Checked {
    let keys = unreachable::map(&words).into_keys().collect();
    let mut stream = Stream::new(random, geometry, keys);
    for _ in 0..calls {
        let line = stream.call(random);
        if matches!(line, Line::Get(_) | Line::Format(_)) {
            continue;
        }
        let room = random.below(9);
        let merges = agrees(&words, line, room, by_fast)?;
        agrees(&words, line, room, by_replay)?;
        words = by_fast(&words, line, 0).words;
        made[merges.min(7)] += 1;
    }
    Ok(())
}

/// Calls on formatted stores and on stores that no call list reaches.
#[test]
fn same_over_histories() {
    let mut random = Random::new(seed() ^ 0x7c);
    let (choices, mut made) = ([Choices::new(2500), Choices::new(16384)], [0; 8]);
    for round in 0..2000 {
        let geometry = choices[usize::from(round % 4 == 0)].pick(&mut random);
        let (words, calls) = match round % 4 {
            1 => {
                let calls = (2 * geometry.key_limit() + 40).min(300);
                (formatted(geometry), calls)
            }
            _ => (unreachable::store(&mut random, geometry), 30),
        };
        calls_agree(&mut random, words, geometry, calls, &mut made)
            .unwrap_or_else(|text| panic!("{round} {:?}: {text}", geometry.numbers()));
    }
    println!("calls by merges {made:?}");
    assert!(made[..4].iter().all(|&calls| calls > 20), "{made:?}");
}

/// Each cascade makes as many merges as it says, with a put and with a delete of a key that
/// is not in level 0; a list that is too short tells the first of them.
#[test]
fn cascades() {
    let mut random = Random::new(seed() ^ 0x7d);
    for round in 0..24 {
        let cascade = Cascade::ALL[round % 3];
        let words = cascade.store(&mut random);
        assert_eq!(check(&words), 0, "{:?}", cascade.numbers);
        let view = View::of(&words).expect("a store");
        let live = |key: &u32| view.look_up(*key).is_some() && view.zero_search(*key).is_err();
        let key = unreachable::map(&words).into_keys().find(live);
        let lines = [Line::Put(0, 7), Line::Delete(key.expect("a live key"))];
        for (line, room) in lines.into_iter().flat_map(|line| [(line, 3), (line, 8)]) {
            for other in [by_fast as Other, by_replay] {
                let merges = agrees(&words, line, room, other)
                    .unwrap_or_else(|text| panic!("{:?} {line:?}: {text}", cascade.numbers));
                assert_eq!(merges, cascade.merges, "{:?} {line:?}", cascade.numbers);
            }
        }
        if round < 3 {
            let told = plain(&words, lines[0], cascade.merges).tickets;
            println!("{:?}: {} merges", cascade.numbers, cascade.merges);
            told.iter().for_each(|ticket| println!("  {ticket:?}"));
        }
        calls_agree(&mut random, words, cascade.geometry(), 12, &mut [0; 8])
            .unwrap_or_else(|text| panic!("{:?}: {text}", cascade.numbers));
    }
}

/// The call lists that come to a cascade from a formatted store: no call is refused, all
/// but the last make three merges at most, and the last makes five.
#[test]
fn cascades_by_calls() {
    for cascade in &Cascade::ALL[..2] {
        let mut words = formatted(cascade.geometry());
        let lines = cascade.call_list();
        let mut merges = Vec::new();
        for &line in &lines[1..] {
            let room = merges.len() % 7;
            let made = agrees(&words, line, room, by_replay)
                .and_then(|_| agrees(&words, line, room, by_fast));
            merges.push(made.unwrap_or_else(|text| panic!("{line:?}: {text}")));
            let given = by_fast(&words, line, 0);
            assert_eq!(given.answer.refusal, 0, "{line:?}");
            words = given.words;
        }
        println!("{:?}: {} lines", cascade.numbers, lines.len());
        assert_eq!(merges.pop(), Some(5));
        assert!(merges.iter().all(|&made| made <= 3));
    }
}

/// Damaged stores: a refused call leaves every ticket.
#[test]
fn over_damaged_stores() {
    let mut random = Random::new(seed() ^ 0x7e);
    let (choices, mut refused) = (Choices::new(2500), 0);
    for breach in Breach::ALL {
        for _ in 0..12 {
            let geometry = choices.pick(&mut random);
            let Some(words) = damaged(&mut random, geometry, breach) else {
                continue;
            };
            let key = random.pick(&words[12..]);
            for line in [Line::Put(key, 5), Line::Delete(key)] {
                for other in [by_fast as Other, by_replay] {
                    agrees(&words, line, random.below(4), other)
                        .unwrap_or_else(|text| panic!("{:?}: {text}", geometry.numbers()));
                }
                let given = plain(&words, line, 2);
                assert!(given.answer.refusal == 0 || given.tickets == lent(2));
                refused += usize::from(given.answer.refusal > 0);
            }
        }
    }
    assert!(refused > 100, "{refused}");
}
