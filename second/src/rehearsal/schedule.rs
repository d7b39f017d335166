//! The form of a schedule: lines of key=value ended by LF, in their order: n, f, faulty, n trays, sends, end.

use super::text::{ascending, hex, number, read_entry};
use crate::entry::Entry;
use crate::sizes::{Sizes, MOST_IN_BATCH, MOST_IN_MESSAGE};

pub const MOST_IN_SCHEDULE: usize = 65_536;

/// The number of the first bad line; 0 for a file that is too long.
#[derive(Clone, Copy, Debug, PartialEq, Eq)]
pub struct BadLine(pub usize);

#[derive(Clone, Debug, PartialEq, Eq)]
pub struct Schedule {
    pub sizes: Sizes,
    pub faulty: Vec<usize>,
    pub trays: Vec<Vec<Entry>>,
    pub sends: Vec<Send>,
}

/// A message of a faulty node to a correct one, with the number of its line.
#[derive(Clone, Debug, PartialEq, Eq)]
pub struct Send {
    pub line: usize,
    pub round: usize,
    pub from: usize,
    pub to: usize,
    pub message: Vec<u8>,
}

impl Send {
    fn order(&self) -> (usize, usize, usize) {
        (self.round, self.from, self.to)
    }
}

/// The lines of a file one after another, with the number of the line last taken.
struct Lines<'a> {
    rest: &'a [u8],
    number: usize,
}

impl<'a> Lines<'a> {
    /// The next line without its LF. One that is missing or has no LF is bad at the number it has or would have.
    fn next(&mut self) -> Result<&'a [u8], BadLine> {
        self.number += 1;
        let end = self.rest.iter().position(|&byte| byte == b'\n').ok_or(self.bad())?;
        let line = &self.rest[..end];
        self.rest = &self.rest[end + 1..];
        Ok(line)
    }

    /// What the next line holds under this key, as `read` reads it.
    fn value<T>(&mut self, key: &[u8], read: impl Fn(&[u8]) -> Option<T>) -> Result<T, BadLine> {
        let line = self.next()?;
        line.strip_prefix(key).and_then(read).ok_or(self.bad())
    }

    fn bad(&self) -> BadLine {
        BadLine(self.number)
    }
}

pub fn read(file: &[u8]) -> Result<Schedule, BadLine> {
    if file.len() > MOST_IN_SCHEDULE {
        return Err(BadLine(0));
    }
    let mut lines = Lines { rest: file, number: 0 };
    let n = lines.value(b"n=", |value| number(value, u64::MAX).filter(|&n| Sizes::new(n, 0).is_ok()))?;
    let sizes = lines.value(b"f=", |value| Sizes::new(n, number(value, u64::MAX)?).ok())?;
    let faulty = lines.value(b"faulty=", |value| faulty(sizes, value))?;
    let trays = (0..n).map(|_| lines.value(b"tray=", tray)).collect::<Result<_, _>>()?;
    let sends = sends(sizes, &faulty, &mut lines)?;
    if !lines.rest.is_empty() {
        return Err(BadLine(lines.number + 1));
    }
    Ok(Schedule { sizes, faulty, trays, sends })
}

/// The number of one of n nodes.
fn node(sizes: Sizes, text: &[u8]) -> Option<usize> {
    number(text, sizes.n as u64 - 1).map(|node| node as usize)
}

/// At most f node numbers.
fn faulty(sizes: Sizes, value: &[u8]) -> Option<Vec<usize>> {
    ascending(value, |piece| node(sizes, piece)).filter(|faulty| faulty.len() <= sizes.f)
}

/// At most 16 entries.
fn tray(value: &[u8]) -> Option<Vec<Entry>> {
    ascending(value, read_entry).filter(|entries| entries.len() <= MOST_IN_BATCH)
}

/// The sends up to `end=`, ascending strictly by round, from, to.
fn sends(sizes: Sizes, faulty: &[usize], lines: &mut Lines) -> Result<Vec<Send>, BadLine> {
    let mut sends: Vec<Send> = Vec::new();
    loop {
        let line = lines.next()?;
        if line == b"end=" {
            return Ok(sends);
        }
        let value = line.strip_prefix(b"send=").ok_or(lines.bad())?;
        let send = send(sizes, faulty, lines.number, value).ok_or(lines.bad())?;
        if sends.last().is_some_and(|before| before.order() >= send.order()) {
            return Err(lines.bad());
        }
        sends.push(send);
    }
}

/// round,from,to,message: from is faulty, to is correct, round is 1 to f + 1, message 1 to 3,960 bytes.
fn send(sizes: Sizes, faulty: &[usize], line: usize, value: &[u8]) -> Option<Send> {
    let pieces: Vec<&[u8]> = value.split(|&byte| byte == b',').collect();
    let &[round, from, to, message] = pieces.as_slice() else {
        return None;
    };
    let round = number(round, sizes.last_round() as u64)? as usize;
    let from = node(sizes, from)?;
    let to = node(sizes, to)?;
    let message = hex(message)?;
    let good = round >= 1 && faulty.contains(&from) && !faulty.contains(&to) && (1..=MOST_IN_MESSAGE).contains(&message.len());
    good.then_some(Send { line, round, from, to, message })
}
