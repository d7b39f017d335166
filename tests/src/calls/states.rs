//! States: sound ones in every phase, and ones unsound in each clause of soundness.

use super::batches::{alike, Batch};
use super::sizes::{some_sizes, Sizes, HUGE};
use super::trays::BATCH_CLAUSES;
use crate::random::Random;
use second::{RawBatch, RawKept, RawNode};

/// A node's place in a hall, and the few batches that votes are about, for each primary.
#[derive(Clone)]
pub struct Scene {
    pub sizes: Sizes,
    pub phase: u64,
    pub pools: Vec<Vec<Batch>>,
}

impl Scene {
    pub fn new(random: &mut Random, sizes: Sizes, phase: u64) -> Scene {
        Scene { sizes, phase, pools: (0..sizes.n).map(|_| alike(random)).collect() }
    }

    /// A hall of some sizes, the node in the phase that `choose` takes of f and chance.
    pub fn some(random: &mut Random, choose: fn(&mut Random, u64) -> u64) -> Scene {
        let sizes = some_sizes(random);
        let phase = choose(random, sizes.f);
        Scene::new(random, sizes, phase)
    }

    /// A sound state in this scene.
    pub fn state(&self, random: &mut Random) -> RawNode {
        let Sizes { n, f, me } = self.sizes;
        let mut node = RawNode { n, f, me, phase: self.phase, ..RawNode::default() };
        if self.phase > 0 {
            let own: &Batch = random.pick(&self.pools[me as usize]);
            node.own = batch(own);
        }
        for (primary, pool) in self.pools.iter().enumerate() {
            if self.phase > 1 && primary as u64 != me {
                node.kept[primary] = some_kept(random, pool);
            }
        }
        node
    }
}

pub fn batch(entries: &[u64]) -> RawBatch {
    RawBatch::from(entries)
}

pub fn kept(batches: &[&Batch]) -> RawKept {
    let mut kept = RawKept { count: batches.len() as u64, ..RawKept::default() };
    for (place, batch) in [&mut kept.first, &mut kept.second].into_iter().zip(batches) {
        *place = RawBatch::from(batch.as_slice());
    }
    kept
}

/// None, one, or two different batches of a pool.
fn some_kept(random: &mut Random, pool: &[Batch]) -> RawKept {
    let (one, other) = (random.pick(pool), random.pick(pool));
    match random.below(3) {
        0 => kept(&[]),
        2 if one != other => kept(&[one, other]),
        _ => kept(&[one]),
    }
}

/// A clause of a state's soundness, by the name of its breach. What breaks it is handed a sound state with some other
/// primary, which a node alone has not. It answers nothing where there is no such breach of that state.
pub struct Clause {
    pub name: &'static str,
    break_it: Break,
}

type Break = fn(&mut Random, &mut RawNode, Option<usize>) -> Option<()>;

/// Sizes.
const SIZES: &[Clause] = &[
    clause("n is 0", |_, node, _| set(&mut node.n, 0)),
    clause("n is 17", |_, node, _| set(&mut node.n, 17)),
    clause("n is huge", |random, node, _| set(&mut node.n, *random.pick(&HUGE))),
    clause("2f is n or the next number", |_, node, _| set(&mut node.f, node.n.div_ceil(2))),
    clause("f is huge", |random, node, _| set(&mut node.f, *random.pick(&[1 << 31, 1 << 32, 1 << 63, u64::MAX]))),
    clause("the own number is n", |_, node, _| set(&mut node.me, node.n)),
    clause("the own number is huge", |random, node, _| set(&mut node.me, *random.pick(&HUGE))),
    clause("phase f + 3", |_, node, _| set(&mut node.phase, node.f + 3)),
    clause("a huge phase", |random, node, _| set(&mut node.phase, *random.pick(&[1 << 32, (1 << 32) + 1, 1 << 63, u64::MAX]))),
];

/// What may stand where.
const PLACES: &[Clause] = &[
    clause("an own batch in phase 0", |random, node, _| {
        node.own = nonempty(random);
        *node = RawNode { phase: 0, kept: RawNode::default().kept, ..*node };
        Some(())
    }),
    clause("an own place not zero in phase 0", |random, node, _| {
        *node = RawNode { phase: 0, own: RawBatch::default(), kept: RawNode::default().kept, ..*node };
        set(random_place(random, &mut node.own.entries), 1)
    }),
    clause("a batch kept in phase 0", |random, node, other| {
        *node = RawNode { phase: 0, own: RawBatch::default(), kept: RawNode::default().kept, ..*node };
        keep(random, node, other?)
    }),
    clause("a batch kept in phase 1", |random, node, other| {
        *node = RawNode { phase: 1, kept: RawNode::default().kept, ..*node };
        keep(random, node, other?)
    }),
    clause("a batch kept for itself", |random, node, _| {
        let me = node.me as usize;
        keep(random, node, me)
    }),
    clause("the empty batch kept for itself", |_, node, _| set(&mut node.kept[node.me as usize].count, 1)),
    clause("a kept place of its own number not zero", |random, node, _| {
        let me = node.me as usize;
        set(random_place(random, &mut node.kept[me].first.entries), 7)
    }),
    clause("a batch kept for a number from n up", |random, node, _| {
        let primary = above(random, node)?;
        keep(random, node, primary)
    }),
    clause("the empty batch kept for a number from n up", |random, node, _| {
        let primary = above(random, node)?;
        set(&mut node.kept[primary].count, 1)
    }),
    clause("a kept place of a number from n up not zero", |random, node, _| {
        let primary = above(random, node)?;
        set(random_place(random, &mut node.kept[primary].second.entries), u64::MAX)
    }),
];

/// What is kept for another primary.
const KEPT: &[Clause] = &[
    clause("three batches kept", |random, node, other| {
        node.kept[other?] = two(random);
        set(&mut node.kept[other?].count, 3)
    }),
    clause("a huge count of batches kept", |random, node, other| {
        node.kept[other?] = two(random);
        set(&mut node.kept[other?].count, *random.pick(&[256, 258, 1 << 32, (1 << 32) + 1, 1 << 63, u64::MAX]))
    }),
    clause("the same batch kept twice", |random, node, other| {
        let batch = nonempty(random);
        node.kept[other?] = RawKept { count: 2, first: batch, second: batch };
        Some(())
    }),
    clause("the empty batch kept twice", |_, node, other| {
        node.kept[other?] = RawKept { count: 2, ..RawKept::default() };
        Some(())
    }),
    clause("one batch kept, the second place not zero", |random, node, other| {
        node.kept[other?] = RawKept { count: 1, ..two(random) };
        Some(())
    }),
    clause("one batch kept, an entry in the second place", |random, node, other| {
        node.kept[other?] = RawKept { count: 1, second: RawBatch::default(), ..two(random) };
        set(random_place(random, &mut node.kept[other?].second.entries), 1)
    }),
    clause("one batch kept, a count in the second place", |random, node, other| {
        node.kept[other?] = RawKept { count: 1, second: RawBatch::default(), ..two(random) };
        set(&mut node.kept[other?].second.count, 1)
    }),
    clause("none kept, the first place not zero", |random, node, other| {
        node.kept[other?] = RawKept { first: nonempty(random), ..RawKept::default() };
        Some(())
    }),
    clause("none kept, the second place not zero", |random, node, other| {
        node.kept[other?] = RawKept { second: nonempty(random), ..RawKept::default() };
        Some(())
    }),
    clause("none kept, a count in the first place", |_, node, other| {
        node.kept[other?] = RawKept::default();
        set(&mut node.kept[other?].first.count, 1)
    }),
    clause("none kept, an entry in a place", |random, node, other| {
        node.kept[other?] = RawKept::default();
        set(random_place(random, &mut node.kept[other?].first.entries), 1)
    }),
];

const fn clause(name: &'static str, break_it: Break) -> Clause {
    Clause { name, break_it }
}

fn set(place: &mut u64, number: u64) -> Option<()> {
    *place = number;
    Some(())
}

fn random_place<'a>(random: &mut Random, places: &'a mut [u64; 16]) -> &'a mut u64 {
    &mut places[random.below(16)]
}

fn nonempty(random: &mut Random) -> RawBatch {
    batch(&alike(random)[1 + random.below(3)])
}

/// Two different batches, neither of them empty.
fn two(random: &mut Random) -> RawKept {
    let pool = alike(random);
    kept(&[&pool[1], &pool[2]])
}

fn keep(random: &mut Random, node: &mut RawNode, primary: usize) -> Option<()> {
    node.kept[primary] = RawKept { count: 1, first: nonempty(random), ..RawKept::default() };
    Some(())
}

/// A number from n up that has a place in a state.
fn above(random: &mut Random, node: &RawNode) -> Option<usize> {
    (node.n < 16).then(|| random.between(node.n as usize, 15))
}

/// One breach of soundness: of the sizes, of what may stand where, of what is kept, or of one of the batches.
#[derive(Clone, Copy)]
pub enum Breach {
    Clause(&'static Clause),
    /// The clause of a batch and which batch it is: the own one, a first or a second kept one.
    Batch(usize, Which),
}

#[derive(Clone, Copy, PartialEq, Eq)]
pub enum Which {
    Own,
    First,
    Second,
}

/// All breaches there are, each once.
pub fn breaches() -> Vec<Breach> {
    let clauses = SIZES.iter().chain(PLACES).chain(KEPT).map(Breach::Clause);
    let batches = [Which::Own, Which::First, Which::Second];
    let of_batches =
        batches.into_iter().flat_map(|which| (0..BATCH_CLAUSES.len()).map(move |clause| Breach::Batch(clause, which)));
    clauses.chain(of_batches).collect()
}

impl Breach {
    pub fn name(self) -> &'static str {
        match self {
            Breach::Clause(clause) => clause.name,
            Breach::Batch(clause, which) => NAMES[clause][which as usize],
        }
    }

    /// The sound state with this breach, unless there is no such state: the node is alone, or n is 16.
    pub fn of(self, random: &mut Random, sound: &RawNode) -> Option<RawNode> {
        let mut node = *sound;
        let others: Vec<usize> = (0..sound.n as usize).filter(|&primary| primary as u64 != sound.me).collect();
        let other = (!others.is_empty()).then(|| *random.pick(&others));
        match self {
            Breach::Clause(clause) => (clause.break_it)(random, &mut node, other)?,
            Breach::Batch(clause, which) => {
                let batch = which.batch_of(random, &mut node, other)?;
                (BATCH_CLAUSES[clause].1)(random, &mut batch.count, &mut batch.entries);
            }
        }
        Some(node)
    }
}

impl Which {
    /// This batch of the state; one kept for another primary is made to be there.
    fn batch_of<'a>(self, random: &mut Random, node: &'a mut RawNode, other: Option<usize>) -> Option<&'a mut RawBatch> {
        if self == Which::Own {
            return Some(&mut node.own);
        }
        let kept = &mut node.kept[other?];
        *kept = two(random);
        if self == Which::Second {
            return Some(&mut kept.second);
        }
        (kept.count, kept.second) = (1, RawBatch::default());
        Some(&mut kept.first)
    }
}

/// The clauses of `BATCH_CLAUSES`, of the own batch, of a first and of a second kept batch.
const NAMES: [[&str; 3]; BATCH_CLAUSES.len()] = [
    ["own: a count of 17", "first kept: a count of 17", "second kept: a count of 17"],
    ["own: a huge count", "first kept: a huge count", "second kept: a huge count"],
    ["own: entries out of order", "first kept: entries out of order", "second kept: entries out of order"],
    ["own: equal neighbours", "first kept: equal neighbours", "second kept: equal neighbours"],
    ["own: an unused place not zero", "first kept: an unused place not zero", "second kept: an unused place not zero"],
    ["own: one entry too many", "first kept: one entry too many", "second kept: one entry too many"],
];
