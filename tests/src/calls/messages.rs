//! Messages: votes of every kind back to back, and messages damaged in each way.

use super::batches::batch_of;
use super::sizes::all_bits;
use super::states::Scene;
use crate::random::Random;
pub use crate::schedules::play::Vote;

pub const MOST_IN_MESSAGE: usize = 3960;

/// A mask for a vote on this primary in this round: enough witnesses, one too few, the primary left out, all, none, any.
fn some_mask(random: &mut Random, scene: &Scene, primary: usize) -> u16 {
    let (n, round) = (scene.sizes.n as usize, scene.phase as usize);
    let all = all_bits(scene.sizes.n);
    let others: Vec<usize> = (0..n).filter(|&node| node != primary).collect();
    let mut with = |count: usize| -> u16 {
        let witnesses = random.shuffled(others.clone());
        witnesses.iter().take(count).map(|node| 1 << node).sum()
    };
    let mask = with(round.saturating_sub(1));
    match random.below(8) {
        0..=2 => mask | 1 << primary,
        3 => mask,
        4 => (mask & mask.wrapping_sub(1)) | 1 << primary,
        5 => all & !(1 << primary),
        6 => all,
        _ => random.some_of(all),
    }
}

pub fn some_vote(random: &mut Random, scene: &Scene) -> Vote {
    let primary = random.below(scene.sizes.n as usize);
    let batch = random.pick(&scene.pools[primary]).clone();
    Vote { primary, mask: some_mask(random, scene, primary), batch }
}

/// The same batch again and again, each time with more witnesses.
fn growing(random: &mut Random, scene: &Scene) -> Vec<Vote> {
    let first = some_vote(random, scene);
    let all = all_bits(scene.sizes.n);
    let mut votes = vec![Vote { mask: random.some_of(first.mask), ..first.clone() }, first];
    for _ in 0..random.below(3) {
        let last = votes.last().expect("two votes").clone();
        votes.push(Vote { mask: last.mask | random.some_of(all), ..last });
    }
    votes
}

/// Every batch of one primary, each accepted in this round if the hall is large enough.
fn every_batch(random: &mut Random, scene: &Scene) -> Vec<Vote> {
    let primary = random.below(scene.sizes.n as usize);
    let mask = all_bits(scene.sizes.n);
    random.shuffled(scene.pools[primary].clone()).into_iter().map(|batch| Vote { primary, mask, batch }).collect()
}

pub fn some_votes(random: &mut Random, scene: &Scene) -> Vec<Vote> {
    let mut votes = Vec::new();
    for _ in 0..random.below(5) {
        match random.below(6) {
            0 => votes.extend(growing(random, scene)),
            1 => votes.extend(every_batch(random, scene)),
            _ => votes.push(some_vote(random, scene)),
        }
    }
    votes
}

/// Votes back to back, within the limit.
pub fn bytes(votes: &[Vote]) -> Vec<u8> {
    let mut message = Vec::new();
    for record in votes.iter().map(Vote::bytes) {
        if message.len() + record.len() <= MOST_IN_MESSAGE {
            message.extend(record);
        }
    }
    message
}

pub fn some_message(random: &mut Random, scene: &Scene) -> Vec<u8> {
    if random.chance(4) {
        return filled(random, scene, MOST_IN_MESSAGE);
    }
    bytes(&some_votes(random, scene))
}

/// Readable records up to exactly so many bytes, a multiple of 4.
pub fn filled(random: &mut Random, scene: &Scene, length: usize) -> Vec<u8> {
    let mut message = Vec::new();
    while message.len() + 132 <= length {
        let primary = random.below(scene.sizes.n as usize);
        let mask = some_mask(random, scene, primary);
        message.extend(Vote { primary, mask, batch: batch_of(random, 16) }.bytes());
    }
    let no_vote = Vote { primary: 0, mask: 1, batch: Vec::new() }.bytes();
    while message.len() < length {
        message.extend(&no_vote);
    }
    message
}

/// A way to damage a message, by its name. What does it is handed a readable message.
pub struct Damage {
    pub name: &'static str,
    pub make: fn(&mut Random, &Scene, Vec<u8>) -> Vec<u8>,
    /// Whether what comes out is surely unreadable.
    pub surely: bool,
}

const fn damage(name: &'static str, surely: bool, make: fn(&mut Random, &Scene, Vec<u8>) -> Vec<u8>) -> Damage {
    Damage { name, make, surely }
}

pub const DAMAGES: &[Damage] = &[
    damage("a message cut at any place", false, |random, _, mut message| {
        message.truncate(random.below(message.len() + 1));
        message
    }),
    damage("a bit flipped", false, |random, _, mut message| {
        if !message.is_empty() {
            let place = random.below(message.len());
            message[place] ^= 1 << random.below(8);
        }
        message
    }),
    damage("a byte left out", false, |random, _, mut message| {
        if !message.is_empty() {
            message.remove(random.below(message.len()));
        }
        message
    }),
    damage("one to three bytes more", true, |random, _, mut message| {
        message.extend((0..random.between(1, 3)).map(|_| 0));
        message
    }),
    damage("k is 17, all its bytes there", true, |random, scene, message| insert(random, scene, message, 17, |_| {})),
    damage("k is huge", true, |random, scene, message| {
        let count = *random.pick(&[18, 32, 128, 255]);
        insert(random, scene, message, count, |_| {})
    }),
    damage("k is one more than there are bytes for", true, |random, scene, message| {
        let mut record = some_vote(random, scene).bytes();
        record[1] += 1;
        [message, record].concat()
    }),
    damage("the primary is n", true, |random, scene, message| {
        let n = scene.sizes.n as u8;
        insert(random, scene, message, 2, |record| record[0] = n)
    }),
    damage("the primary is 255", true, |random, scene, message| insert(random, scene, message, 2, |record| record[0] = 255)),
    damage("mask bit n is set", false, |random, scene, message| {
        let n = scene.sizes.n as usize;
        insert(random, scene, message, 2, |record| record[2 + n / 8 % 2] |= 1 << (n % 8))
    }),
    damage("entries out of order", true, |random, scene, message| {
        insert(random, scene, message, 2, |record| record[4..20].rotate_left(8))
    }),
    damage("equal neighbours", true, |random, scene, message| {
        insert(random, scene, message, 2, |record| record.copy_within(4..12, 12))
    }),
    damage("any bytes", false, |random, _, message| message.iter().map(|_| random.any() as u8).collect()),
    damage("3,961 bytes", true, |random, scene, _| [filled(random, scene, MOST_IN_MESSAGE), vec![0]].concat()),
    damage("3,964 bytes of readable records", true, |random, scene, _| filled(random, scene, MOST_IN_MESSAGE + 4)),
];

/// Puts a record of so many entries among the message's records, after `spoil` has changed it.
fn insert(random: &mut Random, scene: &Scene, message: Vec<u8>, count: usize, spoil: impl Fn(&mut [u8])) -> Vec<u8> {
    let primary = random.below(scene.sizes.n as usize);
    let mask = some_mask(random, scene, primary);
    let mut record = Vote { primary, mask, batch: batch_of(random, count) }.bytes();
    spoil(&mut record);
    let starts: Vec<usize> = records(&message).chain([message.len()]).collect();
    let place = *random.pick(&starts);
    [&message[..place], &record, &message[place..]].concat()
}

/// Where the records of a message begin that is cut into whole ones.
pub fn records(message: &[u8]) -> impl Iterator<Item = usize> + '_ {
    let mut start = 0;
    std::iter::from_fn(move || {
        let begins = start;
        start += 4 + 8 * usize::from(*message.get(begins + 1)?);
        Some(begins)
    })
}
