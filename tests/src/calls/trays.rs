//! Trays, sound ones and ones unsound in each clause, and the call that puts an entry.

use super::batches::{batch_of, some_batch, some_entry, MOST_IN_BATCH};
use super::call::{Answer, Call, Lent};
use super::library;
use super::run::{Held, Run};
use super::show;
use crate::random::Random;
use second::{calls, RawTray};

/// A sound tray of these entries.
pub fn tray_of(batch: &[u64]) -> RawTray {
    let mut tray = RawTray { count: batch.len() as u64, ..RawTray::default() };
    tray.entries[..batch.len()].copy_from_slice(batch);
    tray
}

pub fn some_tray(random: &mut Random) -> RawTray {
    tray_of(&some_batch(random))
}

/// A clause of soundness of sixteen places and their count, by the name of its breach, and how it is broken.
pub type BatchClause = (&'static str, fn(&mut Random, &mut u64, &mut [u64; 16]));

/// Sixteen places and their count are sound when the entries are a batch and the unused places are zero.
pub const BATCH_CLAUSES: &[BatchClause] = &[
    ("a count of 17", |random, count, places| {
        (*count, *places) = full(random);
        *count = 17;
    }),
    ("a huge count", |random, count, _| *count = *random.pick(&[18, 256, 1 << 32, (1 << 32) + 1, 1 << 63, u64::MAX])),
    ("entries out of order", |random, count, places| {
        (*count, *places) = some_places(random);
        let place = random.below(*count as usize - 1);
        places.swap(place, place + 1);
    }),
    ("equal neighbours", |random, count, places| {
        (*count, *places) = some_places(random);
        let place = random.below(*count as usize - 1);
        places[place + 1] = places[place];
    }),
    ("an unused place not zero", |random, count, places| {
        (*count, *places) = some_places(random);
        *count -= 1;
        let place = random.between(*count as usize, MOST_IN_BATCH - 1);
        places[*count as usize] = 0;
        places[place] = random.any().max(1);
    }),
    ("the place after the last used one not zero, and in order", |random, count, places| {
        (*count, *places) = some_places(random);
        *count -= 1;
    }),
];

/// Two to sixteen entries, none of them 0.
fn some_places(random: &mut Random) -> (u64, [u64; 16]) {
    let count = random.between(2, MOST_IN_BATCH);
    let mut batch = batch_of(random, count);
    batch[0] = batch[0].max(1);
    if batch[1] <= batch[0] {
        batch = (1..=count as u64).map(|entry| 3 * entry).collect();
    }
    let tray = tray_of(&batch);
    (tray.count, tray.entries)
}

fn full(random: &mut Random) -> (u64, [u64; 16]) {
    let tray = tray_of(&batch_of(random, MOST_IN_BATCH));
    (tray.count, tray.entries)
}

/// A tray unsound in this clause.
pub fn unsound_tray(random: &mut Random, (_, break_it): &BatchClause) -> RawTray {
    let mut tray = some_tray(random);
    break_it(random, &mut tray.count, &mut tray.entries);
    tray
}

#[derive(Clone, PartialEq)]
pub struct Put {
    pub tray: RawTray,
    pub entry: u64,
}

impl Call for Put {
    const NAME: &'static str = "put";
    const VALUES: &'static [&'static str] = &[];
    const ROWS: &'static [u64] = &[2, 5, 6];

    fn lent(&self) -> Lent {
        Lent::tray(&self.tray)
    }

    /// By a pointer to the very tray that is lent.
    fn proved(&self, lent: &mut Lent) -> Answer {
        let mut tray = library::lent_tray(&self.tray);
        let number = raudokiin::calls::put(&mut tray, self.entry);
        *lent.lent_tray() = library::tray(&tray);
        Answer::new(number, &[])
    }

    fn second(&self, lent: &mut Lent) -> Answer {
        Answer::new(calls::put(lent.lent_tray(), self.entry), &[])
    }

    fn smaller(&self) -> Vec<Put> {
        let without = |place: usize| {
            let mut tray = self.tray;
            tray.entries.copy_within(place + 1.., place);
            tray.entries[MOST_IN_BATCH - 1] = 0;
            tray.count -= 1;
            Put { tray, entry: self.entry }
        };
        (0..self.tray.count.min(16) as usize).map(without).collect()
    }

    fn show(&self) -> String {
        format!("tray {}, entry {:#x}", show::tray(&self.tray), self.entry)
    }
}

/// Trays of every count with a new entry at every place and with every entry they hold; entries 0 and the greatest.
pub fn boundaries(run: &mut Run) -> Held {
    for count in 0..=16u64 {
        let batch: Vec<u64> = (1..=count).map(|entry| 10 * entry).collect();
        let tray = tray_of(&batch);
        let number = if count < 16 { 0 } else { 6 };
        for place in 0..=count {
            run.expect("a new entry at each place", number, &Put { tray, entry: 10 * place + 5 })?;
        }
        for &entry in &batch {
            run.expect("each entry that the tray holds", 5, &Put { tray, entry })?;
        }
        for entry in [0, u64::MAX] {
            run.expect("the least and the greatest entry", number, &Put { tray, entry })?;
        }
    }
    let zero = RawTray { count: 1, ..RawTray::default() };
    run.expect("0 into a tray that holds it", 5, &Put { tray: zero, entry: 0 })?;
    run.expect("0 into the empty tray", 0, &Put { tray: RawTray::default(), entry: 0 })?;
    Ok(())
}

pub fn compare(run: &mut Run, random: &mut Random, turn: usize) -> Held {
    let tray = some_tray(random);
    run.hold("a sound tray", &Put { tray, entry: some_entry(random) })?;
    if tray.count > 0 {
        let entry = tray.entries[random.below(tray.count as usize)];
        run.expect("an entry that the tray holds", 5, &Put { tray, entry })?;
    }
    let full = tray_of(&batch_of(random, MOST_IN_BATCH));
    run.hold("a full tray", &Put { tray: full, entry: some_entry(random) })?;
    let clause = &BATCH_CLAUSES[turn % BATCH_CLAUSES.len()];
    let tray = unsound_tray(random, clause);
    let entry = if random.chance(50) { *random.pick(&tray.entries) } else { some_entry(random) };
    run.expect(clause.0, 2, &Put { tray, entry })?;
    Ok(())
}
