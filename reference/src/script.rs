//! "Call list program" of document 01: bytes in, one printed line for each line. The
//! trace program is the same with lines for the tickets of card 3 of document 02.

use crate::calls::{self, Ticket};
use crate::geometry::Geometry;
use std::io::{self, BufRead, BufReader, BufWriter, Write};

/// "over 16,384 words of which format takes what the layout needs".
pub const WORDS: usize = 16384;

/// The tickets that the trace program lends to a put or delete.
pub const TICKETS: usize = 64;

/// A readable line.
#[derive(Clone, Copy, Debug, PartialEq, Eq)]
pub enum Line {
    /// `f B w d G h P`
    Format([u32; 6]),
    /// `p key payload`
    Put(u32, u32),
    /// `d key`
    Delete(u32),
    /// `g key`
    Get(u32),
}

/// How far a line has been read.
#[derive(Clone, Copy, Debug, PartialEq, Eq)]
enum State {
    /// No byte yet.
    Empty,
    /// The letter; a space must follow.
    Letter,
    /// A space; a digit must follow.
    Space,
    /// One digit or more of a number.
    Digits,
    /// Whatever follows, the line is unreadable.
    Unreadable,
}

/// Reads one line byte by byte, so that no line is too long (readings 21, 23).
#[derive(Clone, Debug)]
pub struct LineReader {
    state: State,
    letter: u8,
    numbers: [u32; 6],
    count: usize,
}

impl Default for LineReader {
    /// Before the first byte of a line.
    fn default() -> LineReader {
        LineReader {
            state: State::Empty,
            letter: 0,
            numbers: [0; 6],
            count: 0,
        }
    }
}

impl LineReader {
    /// Takes one byte that is not a line end.
    pub fn take(&mut self, byte: u8) {
        self.state = match (self.state, byte) {
            (State::Empty, b'f' | b'p' | b'd' | b'g') => {
                self.letter = byte;
                State::Letter
            }
            (State::Letter | State::Digits, b' ') => State::Space,
            (State::Space, b'0'..=b'9') if self.count < self.wanted() => {
                self.numbers[self.count] = u32::from(byte - b'0');
                self.count += 1;
                State::Digits
            }
            (State::Digits, b'0'..=b'9') => self.digit(u32::from(byte - b'0')),
            _ => State::Unreadable,
        };
    }

    /// A further digit: "a number is digits, below 2^32".
    fn digit(&mut self, digit: u32) -> State {
        let number = &mut self.numbers[self.count - 1];
        match number.checked_mul(10).and_then(|n| n.checked_add(digit)) {
            Some(larger) => {
                *number = larger;
                State::Digits
            }
            None => State::Unreadable,
        }
    }

    /// How many numbers the letter is followed by.
    fn wanted(&self) -> usize {
        match self.letter {
            b'f' => 6,
            b'p' => 2,
            _ => 1,
        }
    }

    /// Whether no byte of a line has been read.
    pub fn is_empty(&self) -> bool {
        self.state == State::Empty
    }

    /// The line at its end, none if it is unreadable ("an empty one too").
    pub fn line(&self) -> Option<Line> {
        if self.state != State::Digits || self.count != self.wanted() {
            return None;
        }
        Some(match self.letter {
            b'f' => Line::Format(self.numbers),
            b'p' => Line::Put(self.numbers[0], self.numbers[1]),
            b'd' => Line::Delete(self.numbers[0]),
            _ => Line::Get(self.numbers[0]),
        })
    }
}

/// The 16,384 words and how many of them format has taken: "before any accepted
/// f, the store has none".
pub struct Bench {
    words: Vec<u32>,
    length: usize,
}

impl Default for Bench {
    /// Before any accepted f.
    fn default() -> Bench {
        Bench {
            words: vec![0; WORDS],
            length: 0,
        }
    }
}

impl Bench {
    /// The store as it stands.
    pub fn store(&mut self) -> &mut [u32] {
        &mut self.words[..self.length]
    }

    /// Runs one line and gives what is printed for it, without the line end.
    pub fn answer(&mut self, line: Option<Line>) -> String {
        match line {
            None => "?".to_string(),
            Some(Line::Format(numbers)) => {
                let answer = self.format(numbers);
                format!("f {} {}", answer.refusal, answer.limit)
            }
            Some(Line::Put(key, payload)) => changed('p', calls::put(self.store(), key, payload)),
            Some(Line::Delete(key)) => changed('d', calls::delete(self.store(), key)),
            Some(Line::Get(key)) => {
                let answer = calls::look_up(self.store(), key);
                format!(
                    "g {} {} {}",
                    answer.refusal,
                    u32::from(answer.found),
                    answer.payload
                )
            }
        }
    }

    /// The same for the trace program: after the line of a put or delete one line for
    /// each merge that it made, in their order, as far as there are tickets.
    pub fn trace(&mut self, line: Option<Line>) -> String {
        let mut tickets = [Ticket::default(); TICKETS];
        let lent = &mut tickets[..];
        let (letter, answer) = match line {
            Some(Line::Put(key, payload)) => {
                let answer = calls::put_tickets(self.store(), key, payload, lent);
                ('p', answer)
            }
            Some(Line::Delete(key)) => ('d', calls::delete_tickets(self.store(), key, lent)),
            _ => return self.answer(line),
        };
        let merges: u32 = answer.levels.iter().map(|level| level.merges).sum();
        let mut printed = changed(letter, answer);
        for ticket in tickets.iter().take(merges as usize) {
            let Ticket {
                level,
                first,
                overlap,
                written,
            } = ticket;
            printed += &format!("\nt {level} {first} {overlap} {written}");
        }
        printed
    }

    /// f: 2 before 3, never 1; a refused one leaves the old store as it was, its
    /// length too (reading 22).
    fn format(&mut self, numbers: [u32; 6]) -> calls::Formatted {
        let refused = |refusal| calls::Formatted { refusal, limit: 0 };
        match Geometry::new(numbers).map(Geometry::length) {
            None => refused(2),
            Some(length) if length > WORDS => refused(3),
            Some(length) => {
                self.length = length;
                calls::format(self.store(), numbers)
            }
        }
    }
}

/// "for p and d live-before 1 or 0, blocks written by merges, blocks written by
/// compacting, each over all levels".
fn changed(letter: char, answer: calls::Changed) -> String {
    let merging: u32 = answer.levels.iter().map(|level| level.merge_writes).sum();
    let compacting: u32 = answer
        .levels
        .iter()
        .map(|level| level.compaction_writes)
        .sum();
    let live_before = u32::from(answer.live_before);
    format!(
        "{letter} {} {live_before} {merging} {compacting}",
        answer.refusal
    )
}

/// What a program prints for a line, without the last line end.
pub type Said = fn(&mut Bench, Option<Line>) -> String;

/// A whole program, [`Bench::answer`] or [`Bench::trace`]: "the last line may lack its
/// line end"; a final line end begins no further line (reading 23).
pub fn run(said: Said, mut input: impl BufRead, mut output: impl Write) -> io::Result<()> {
    let mut bench = Bench::default();
    let mut reader = LineReader::default();
    loop {
        let bytes = input.fill_buf()?;
        let length = bytes.len();
        if length == 0 {
            break;
        }
        for &byte in bytes {
            if byte == b'\n' {
                writeln!(output, "{}", said(&mut bench, reader.line()))?;
                reader = LineReader::default();
            } else {
                reader.take(byte);
            }
        }
        input.consume(length);
    }
    if !reader.is_empty() {
        writeln!(output, "{}", said(&mut bench, reader.line()))?;
    }
    output.flush()
}

/// A whole program from standard input to standard output.
pub fn run_here(said: Said) -> io::Result<()> {
    let input = BufReader::with_capacity(1 << 16, io::stdin().lock());
    let output = BufWriter::with_capacity(1 << 16, io::stdout().lock());
    run(said, input, output)
}
