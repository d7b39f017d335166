//! Comparisons call by call: libhost.a and the second program are asked the same, and whole outcomes are held against each
//! other: the answer, the state, the tray, and every byte of what is lent, beyond the written length and around it too.

pub mod batches;
pub mod call;
pub mod examples;
pub mod halls;
pub mod inboxes;
mod library;
pub mod logs;
pub mod messages;
pub mod opening;
pub mod records;
pub mod run;
mod show;
pub mod signing;
pub mod sizes;
mod soundness;
pub mod states;
pub mod steps;
pub mod tally;
pub mod trays;

use crate::random::Random;
use call::Call;
use run::{Held, Run};
use tally::Rows;

/// Every call with the refusals that concern it.
pub const CALLS: [Rows; 12] = [
    rows::<opening::New>(),
    rows::<trays::Put>(),
    rows::<opening::Open>(),
    rows::<steps::Step>(),
    rows::<logs::Close>(),
    rows::<signing::Signers>(),
    rows::<logs::Bar>(),
    rows::<records::ReadRecord>(),
    rows::<records::BatchBytes>(),
    rows::<records::ReadMessage>(),
    rows::<records::WriteRecord>(),
    rows::<inboxes::ReadInbox>(),
];

const fn rows<C: Call>() -> Rows {
    (C::NAME, C::ROWS)
}

/// Walks that are the same in every run.
const BOUNDARIES: &[fn(&mut Run) -> Held] = &[
    examples::compare,
    opening::new_boundaries,
    trays::boundaries,
    opening::open_boundaries,
    steps::boundaries,
    logs::close_boundaries,
    signing::boundaries,
    logs::bar_boundaries,
    records::reader_boundaries,
    records::writer_boundaries,
    inboxes::boundaries,
    soundness::boundaries,
];

/// What is generated in every turn.
const GENERATED: &[fn(&mut Run, &mut Random, usize) -> Held] = &[
    opening::compare_new,
    trays::compare,
    opening::compare_open,
    steps::compare,
    logs::compare_close,
    signing::compare,
    logs::compare_bar,
    records::compare_readers,
    records::compare_writer,
    inboxes::compare,
];

/// A whole hall comes once in so many turns.
const TURNS_TO_A_HALL: usize = 8;

/// All boundaries, then so many turns of generated inputs of this seed.
pub fn compare(run: &mut Run, seed: u64, turns: usize) -> Held {
    BOUNDARIES.iter().try_for_each(|walk| walk(run))?;
    for turn in 0..turns {
        let mut random = Random::new(seed ^ (turn as u64).wrapping_mul(0xd134_2543_de82_ef95));
        for generate in GENERATED {
            generate(run, &mut random, turn)?;
        }
        if turn % TURNS_TO_A_HALL == 0 {
            halls::compare(run, &mut random, turn / TURNS_TO_A_HALL)?;
        }
    }
    Ok(())
}
