//! One run of comparisons: holds each call's two outcomes against each other, counts them, and ends at the first that
//! differ.

use super::call::{Answer, Call, Lent};
use super::show;
use super::tally::Tally;
use std::cell::Cell;
use std::fmt;
use std::panic::{self, catch_unwind, AssertUnwindSafe};

/// What a call answered, and all that it may have changed.
#[derive(Clone, PartialEq, Eq)]
pub struct Outcome {
    pub answer: Answer,
    pub lent: Lent,
}

/// An input on which something is wrong.
pub struct Difference {
    pub call: &'static str,
    pub kind: &'static str,
    /// The number of the comparison in its run.
    pub at: usize,
    objection: String,
    input: String,
    proved: String,
    second: String,
}

pub type Held<T = ()> = Result<T, Box<Difference>>;

#[derive(Default)]
pub struct Run {
    pub tally: Tally,
}

impl Run {
    /// Asks both sides; the outcome, if they agree.
    pub fn hold<C: Call>(&mut self, kind: &'static str, input: &C) -> Held<Outcome> {
        self.asked(kind, None, input)
    }

    /// Asks both sides; they have to agree on this number.
    pub fn expect<C: Call>(&mut self, kind: &'static str, number: u64, input: &C) -> Held<Outcome> {
        self.asked(kind, Some(number), input)
    }

    fn asked<C: Call>(&mut self, kind: &'static str, expected: Option<u64>, input: &C) -> Held<Outcome> {
        let asked = Asked::new(input);
        self.tally.count(C::NAME, kind, asked.proved.answer.number);
        match asked.objection::<C>(expected) {
            None => Ok(asked.proved),
            Some(_) => Err(Box::new(difference(kind, self.tally.comparisons, expected, input))),
        }
    }
}

thread_local! {
    static ASKED: Cell<bool> = const { Cell::new(false) };
}

/// Asks the second program. A panic of it is a difference like any other and is told as one, not by the panic's own words.
fn unless_it_panics(ask: impl FnOnce() -> Answer) -> Option<Answer> {
    ASKED.set(true);
    let answer = catch_unwind(AssertUnwindSafe(ask)).ok();
    ASKED.set(false);
    answer
}

/// Leaves the words of all other panics as they are.
pub fn quiet_second_program() {
    let words = panic::take_hook();
    panic::set_hook(Box::new(move |panic| {
        if !ASKED.get() {
            words(panic);
        }
    }));
}

/// Both outcomes of one input; the second program has none where it panics.
struct Asked {
    before: Lent,
    /// Whether what libhost.a was handed to read is as it was.
    kept: bool,
    proved: Outcome,
    second: Option<Outcome>,
}

impl Asked {
    fn new<C: Call>(input: &C) -> Asked {
        let before = input.lent();
        let handed = input.clone();
        let mut lent = before.clone();
        let proved = Outcome { answer: handed.proved(&mut lent), lent };
        let mut lent = before.clone();
        let answer = unless_it_panics(|| input.second(&mut lent));
        Asked { before, kept: handed == *input, proved, second: answer.map(|answer| Outcome { answer, lent }) }
    }

    /// What is wrong, if anything is.
    fn objection<C: Call>(&self, expected: Option<u64>) -> Option<String> {
        let Some(second) = &self.second else {
            return Some("the second program panics".into());
        };
        let Outcome { answer: Answer { number, values }, lent } = &self.proved;
        if !self.kept {
            Some("libhost.a changes what it was handed to read".into())
        } else if self.proved.answer != second.answer {
            Some("the answers differ".into())
        } else if self.proved.lent != second.lent {
            let place = lent.first_difference(&second.lent);
            Some(place.map_or("state or tray differ".into(), |place| format!("what is lent differs from place {place} on")))
        } else if *number != 0 && !C::ROWS.contains(number) {
            Some(format!("{number} is no refusal of this call"))
        } else if *number != 0 && (values.iter().any(|&value| value != 0) || *lent != self.before) {
            Some("a refusal changes something".into())
        } else {
            expected.filter(|expected| expected != number).map(|expected| format!("{expected} was expected"))
        }
    }
}

/// How often a smaller input is tried.
const TRIES: usize = 20_000;

/// The smallest input that can be had from this one with something still wrong. Where only what was expected is not met,
/// the input stays as it is.
fn difference<C: Call>(kind: &'static str, at: usize, expected: Option<u64>, input: &C) -> Difference {
    let mut smallest = input.clone();
    let mut tries = 0;
    let mut wrong = |input: &C| {
        tries += 1;
        tries < TRIES && Asked::new(input).objection::<C>(None).is_some()
    };
    while let Some(smaller) = smallest.smaller().into_iter().find(&mut wrong) {
        smallest = smaller;
    }
    let asked = Asked::new(&smallest);
    let objection = asked.objection::<C>(None).or(asked.objection::<C>(expected)).unwrap_or_default();
    let second = asked.second.as_ref().map_or("a panic".into(), shown::<C>);
    Difference { call: C::NAME, kind, at, objection, input: smallest.show(), proved: shown::<C>(&asked.proved), second }
}

fn shown<C: Call>(outcome: &Outcome) -> String {
    let Outcome { answer, lent } = outcome;
    let mut text = format!("number {}", answer.number);
    for (name, value) in C::VALUES.iter().zip(&answer.values) {
        text += &format!(", {name} {value}");
    }
    if let Some(node) = &lent.node {
        text += &format!("\n  node {}", show::node(node));
    }
    if let Some(tray) = &lent.tray {
        text += &format!("\n  tray {}", show::tray(tray));
    }
    if !lent.bytes().is_empty() {
        text += &format!("\n  output {}", show::bytes(lent.bytes()));
    }
    if !lent.entries().is_empty() {
        text += &format!("\n  output {}", show::entries(lent.entries()));
    }
    text
}

impl fmt::Display for Difference {
    fn fmt(&self, to: &mut fmt::Formatter) -> fmt::Result {
        writeln!(to, "{}: comparison {} ({}): {}", self.call, self.at, self.kind, self.objection)?;
        writeln!(to, "input made smaller:\n  {}", self.input)?;
        writeln!(to, "libhost.a: {}", self.proved)?;
        write!(to, "the second program: {}", self.second)
    }
}
