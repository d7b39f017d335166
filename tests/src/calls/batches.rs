//! Entries, batches and logs.

use crate::random::Random;
use std::collections::BTreeSet;

pub const MOST_IN_BATCH: usize = 16;
pub const MOST_IN_LOG: usize = 4096;

pub type Batch = Vec<u64>;

/// An entry of a narrow span, so that equal ones come often; at either end of the numbers; or any.
pub fn some_entry(random: &mut Random) -> u64 {
    match random.below(8) {
        0 => *random.pick(&[0, 1, u64::MAX, u64::MAX - 1, 1 << 32, 1 << 48, 1 << 63]),
        1..=3 => random.below(24) as u64,
        4 | 5 => (random.below(3) as u64) << 48 | (random.below(4) as u64) << 32 | random.below(9) as u64,
        _ => random.any(),
    }
}

/// Up to so many entries, strictly ascending.
pub fn some_entries(random: &mut Random, most: usize) -> Batch {
    (0..most).map(|_| some_entry(random)).collect::<BTreeSet<u64>>().into_iter().collect()
}

/// A batch of any count, the least and the greatest more often.
pub fn some_batch(random: &mut Random) -> Batch {
    let count = *random.pick(&[0, 1, 1, 2, 3, 5, 8, 15, 16, 16]);
    batch_of(random, count)
}

/// Exactly so many entries, strictly ascending.
pub fn batch_of(random: &mut Random, count: usize) -> Batch {
    let mut batch = some_entries(random, count);
    while batch.len() < count {
        batch.push(random.any());
        batch.sort();
        batch.dedup();
    }
    batch
}

/// A few batches that are easily taken for each other: the empty one, one that another begins with, one that differs from
/// it in its last entry, and any other.
pub fn alike(random: &mut Random) -> Vec<Batch> {
    let count = random.between(1, MOST_IN_BATCH - 1);
    let mut shorter = batch_of(random, count);
    if shorter[count - 1] == u64::MAX {
        shorter = (1..=count as u64).collect();
    }
    let next = shorter[count - 1] + 1;
    let longer = [shorter.as_slice(), &[next]].concat();
    let other_end = [&shorter[..count - 1], &[next]].concat();
    vec![Batch::new(), shorter, longer, other_end, some_batch(random)]
}

/// A log of exactly so many entries, with gaps in it. Meters and intervals are few.
pub fn log_of(random: &mut Random, length: usize) -> Vec<u64> {
    let widest = *random.pick(&[2, 1 << 20, 1 << 33, 1 << 40]);
    let mut entry = random.below(5) as u64;
    let mut log = Vec::with_capacity(length);
    for _ in 0..length {
        log.push(entry);
        entry += 1 + random.below(widest) as u64;
    }
    log
}

/// The list with two neighbours equal or out of order; lists of one entry and less are taken to two.
pub fn disordered(random: &mut Random, mut entries: Vec<u64>) -> Vec<u64> {
    while entries.len() < 2 {
        entries.push(entries.last().map_or(1, |last| last.saturating_add(1)));
    }
    let place = random.below(entries.len() - 1);
    if random.chance(50) {
        entries[place + 1] = entries[place];
    } else {
        entries.swap(place, place + 1);
    }
    entries
}
