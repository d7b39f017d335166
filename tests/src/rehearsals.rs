//! Rehearsals of another program against the second one, byte for byte.

use crate::programs::{Outcome, Program};
use crate::schedules::{self, Expected, Generated};
use second::rehearsal::rehearse;
use std::collections::BTreeMap;
use std::fmt;
use std::io;

/// An input on which something is wrong, with both outcomes.
pub struct Difference {
    pub index: usize,
    pub kind: &'static str,
    pub input: Vec<u8>,
    pub second: Vec<u8>,
    pub other: Outcome,
    pub objection: Option<String>,
}

/// How many schedules of each kind were run, and how many of them were not bad.
#[derive(Default)]
pub struct Tally {
    pub kinds: BTreeMap<&'static str, (usize, usize)>,
    pub differences: usize,
    pub smallest: Option<Difference>,
}

/// Runs schedules 0 to `count` − 1 of this seed; ends at the first difference if asked to.
pub fn compare(other: &Program, seed: u64, count: usize, end_at_first: bool) -> io::Result<Tally> {
    let mut tally = Tally::default();
    for index in 0..count {
        let generated = schedules::schedule(seed, index);
        let (not_bad, difference) = hold(other, index, generated)?;
        let (runs, good) = tally.kinds.entry(not_bad.0).or_default();
        *runs += 1;
        *good += usize::from(not_bad.1);
        let Some(difference) = difference else { continue };
        tally.differences += 1;
        if tally.smallest.as_ref().is_none_or(|known| difference.input.len() < known.input.len()) {
            tally.smallest = Some(difference);
        }
        if end_at_first {
            break;
        }
    }
    Ok(tally)
}

/// The kind of a schedule and whether it was not bad; and the difference, if there is one.
fn hold(other: &Program, index: usize, generated: Generated) -> io::Result<((&'static str, bool), Option<Difference>)> {
    let Generated { kind, file, expected } = generated;
    let second = rehearse(&file);
    let not_bad = !second.starts_with(b"bad=");
    let other = other.run(&file)?;
    let objection = expected.objection(&second);
    let same = other.ended_well && other.text == second && objection.is_none();
    let difference = (!same).then_some(Difference { index, kind, input: file, second, other, objection });
    Ok(((kind, not_bad), difference))
}

/// The smallest input that line by line and piece by piece can be had from this one, on which the programs still differ.
pub fn shrink(other: &Program, mut found: Difference) -> io::Result<Difference> {
    let mut runs_left = 1000;
    loop {
        let mut smaller = None;
        for input in shorter(&found.input) {
            if runs_left == 0 {
                return Ok(found);
            }
            runs_left -= 1;
            let generated = Generated { kind: found.kind, file: input, expected: Expected::Anything };
            smaller = hold(other, found.index, generated)?.1;
            if smaller.is_some() {
                break;
            }
        }
        match smaller {
            Some(smaller) => found = smaller,
            None => return Ok(found),
        }
    }
}

/// The input without one of its lines, or without one piece of a line.
fn shorter(input: &[u8]) -> Vec<Vec<u8>> {
    let lines: Vec<&[u8]> = input.split_inclusive(|&byte| byte == b'\n').collect();
    let mut all: Vec<Vec<u8>> =
        (0..lines.len()).map(|left_out| [&lines[..left_out], &lines[left_out + 1..]].concat().concat()).collect();
    for (place, line) in lines.iter().enumerate() {
        let pieces: Vec<&[u8]> = line.split_inclusive(|&byte| byte == b',' || byte == b'=').collect();
        for left_out in 1..pieces.len() {
            let line = [&pieces[..left_out], &pieces[left_out + 1..]].concat().concat();
            all.push([lines[..place].concat(), line, lines[place + 1..].concat()].concat());
        }
    }
    all
}

impl fmt::Display for Difference {
    fn fmt(&self, to: &mut fmt::Formatter) -> fmt::Result {
        writeln!(to, "schedule {} ({}), {} bytes:", self.index, self.kind, self.input.len())?;
        writeln!(to, "{}", shown(&self.input))?;
        writeln!(to, "the second program:\n{}", shown(&self.second))?;
        let end = if self.other.ended_well { "" } else { " (it ended with an error)" };
        writeln!(to, "the other program{end}:\n{}", shown(&self.other.text))?;
        self.objection.as_ref().map_or(Ok(()), |words| writeln!(to, "against the second program: {words}"))
    }
}

/// The bytes as text, other than plain characters and LF escaped, cut short where they are many.
fn shown(bytes: &[u8]) -> String {
    let most = 4000;
    let plain = |byte: &u8| if *byte == b'\n' { "\n".into() } else { byte.escape_ascii().to_string() };
    let text: String = bytes.iter().take(most).map(plain).collect();
    if bytes.len() > most {
        text + " .."
    } else {
        text
    }
}

impl fmt::Display for Tally {
    fn fmt(&self, to: &mut fmt::Formatter) -> fmt::Result {
        writeln!(to, "{:<55} {:>6} {:>8}", "kind", "runs", "not bad")?;
        for (kind, (runs, good)) in &self.kinds {
            writeln!(to, "{kind:<55} {runs:>6} {good:>8}")?;
        }
        let sum = |number: fn(&(usize, usize)) -> usize| self.kinds.values().map(number).sum::<usize>();
        writeln!(to, "{:<55} {:>6} {:>8}", "all", sum(|kind| kind.0), sum(|kind| kind.1))?;
        write!(to, "{} kinds, {} differences", self.kinds.len(), self.differences)
    }
}
