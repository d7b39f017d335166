//! Generated schedules: lawful ones, forged ones, and bad ones in every way that document 01 names. Each has the
//! name of its kind and what the generator itself expects of it.

pub mod damage;
pub mod forging;
pub mod play;

use crate::random::Random;

/// What the generator knows of the outcome before any program has run.
#[derive(Clone, Copy, Debug, PartialEq, Eq)]
pub enum Expected {
    /// Not bad: one log at all correct nodes, and all of them sign it.
    Good,
    /// Bad at this line.
    Bad(usize),
    /// Whatever the two programs agree on.
    Anything,
}

pub struct Generated {
    pub kind: &'static str,
    pub file: Vec<u8>,
    pub expected: Expected,
}

/// One schedule of the series that a seed gives. Kinds take turns, so that every kind has its share.
pub fn schedule(seed: u64, index: usize) -> Generated {
    let mut random = Random::new(seed ^ (index as u64).wrapping_mul(0xd134_2543_de82_ef95));
    let turn = index / 3;
    match index % 3 {
        0 => play::lawful(&mut random, turn),
        1 => forging::forged(&mut random, turn),
        _ => damage::damaged(&mut random, turn),
    }
}

impl Expected {
    /// What is wrong with this outcome, if anything is.
    pub fn objection(self, outcome: &[u8]) -> Option<String> {
        let text = String::from_utf8_lossy(outcome);
        match self {
            Expected::Anything => None,
            Expected::Bad(number) if text == format!("bad={number}\n") => None,
            Expected::Bad(number) => Some(format!("bad={number} was expected")),
            Expected::Good if text.starts_with("bad=") => Some("a lawful schedule is called bad".into()),
            Expected::Good => disagreement(&text),
        }
    }
}

/// Correct nodes hold one log, and each counts all of them as its signers.
fn disagreement(text: &str) -> Option<String> {
    let values = |key: &'static str| text.lines().filter_map(move |line| line.strip_prefix(key));
    let nodes: Vec<&str> = values("node=").collect();
    let differ = |key| values(key).any(|value| Some(value) != values(key).next());
    if differ("log=") {
        Some("two correct nodes hold different logs".into())
    } else if values("signers=").any(|signers| signers != nodes.join(",")) {
        Some("the signers are not the correct nodes".into())
    } else {
        None
    }
}
