//! Lawful schedules. Faulty nodes know what correct nodes really sent, since the hall runs beside the generator;
//! every bit of a correct node that they show is one that it has sent.

use super::{Expected, Generated};
use crate::random::Random;
use second::entry::entry;
use second::message;
use second::rehearsal::print::print_entry;
use second::rehearsal::{Hall, Send};
use second::sizes::{bit, Sizes, MOST_IN_MESSAGE};

pub type Batch = Vec<u64>;

/// A record as the generator speaks of it.
#[derive(Clone, Debug, PartialEq, Eq)]
pub struct Vote {
    pub primary: usize,
    pub mask: u16,
    pub batch: Batch,
}

impl Vote {
    pub fn bytes(&self) -> Vec<u8> {
        let mut bytes = vec![self.primary as u8, self.batch.len() as u8];
        bytes.extend(self.mask.to_le_bytes());
        self.batch.iter().for_each(|entry| bytes.extend(entry.to_be_bytes()));
        bytes
    }
}

pub fn bytes(votes: &[Vote]) -> Vec<u8> {
    votes.iter().flat_map(Vote::bytes).collect()
}

/// What a faulty node puts into a message.
#[derive(Clone, Copy, Debug, PartialEq, Eq)]
pub enum Trick {
    /// A batch of its own with its own bit, another for each receiver perhaps.
    Opening,
    /// A faulty node's batch with some of the bits that may be shown for it.
    Colluding,
    /// The same with exactly as many bits as the round asks for, or one less.
    JustEnough,
    TooFew,
    /// A record that a correct node sent, as it was or with other lawful bits.
    Replay,
    ReplayChanged,
    /// Enough bits, but not the primary's.
    NoPrimary,
    /// A batch that a correct primary never opened with, without its bit.
    LiedAbout,
    /// A record whose primary is the receiver.
    AboutReceiver,
    /// Three and more batches of one primary.
    Third,
    /// The same batch with too few bits first, then with enough, then with more.
    TooFewThenEnough,
    /// The same batch in pieces, each with too few bits, which only together would be enough.
    InPieces,
    /// The largest message.
    Full,
    /// A message in which one thing makes it unreadable.
    Unreadable,
}

use Trick::*;

pub const EVERYTHING: &[Trick] = &[
    Opening,
    Colluding,
    JustEnough,
    TooFew,
    Replay,
    ReplayChanged,
    NoPrimary,
    LiedAbout,
    AboutReceiver,
    Third,
    TooFewThenEnough,
    InPieces,
    Unreadable,
];

/// How a hall is played: what faulty nodes do, how often they send, and how many messages at most.
struct Manner {
    kind: &'static str,
    tricks: &'static [Trick],
    percent: usize,
    most_sends: usize,
}

const MANNERS: &[Manner] = &[
    Manner { kind: "lawful: all nodes are correct", tricks: &[], percent: 0, most_sends: 0 },
    Manner { kind: "lawful: faulty nodes are silent", tricks: &[], percent: 0, most_sends: 0 },
    Manner { kind: "lawful: primaries equivocate", tricks: &[Opening], percent: 70, most_sends: 999 },
    Manner { kind: "lawful: faulty nodes collude", tricks: &[Colluding, Opening], percent: 50, most_sends: 999 },
    Manner { kind: "lawful: one send, just enough witnesses", tricks: &[JustEnough], percent: 100, most_sends: 1 },
    Manner { kind: "lawful: one send, one witness too few", tricks: &[TooFew], percent: 100, most_sends: 1 },
    Manner { kind: "lawful: two sends late", tricks: &[JustEnough, JustEnough, TooFew], percent: 100, most_sends: 2 },
    Manner { kind: "lawful: three sends late", tricks: &[JustEnough, TooFew, InPieces], percent: 100, most_sends: 3 },
    Manner { kind: "lawful: replays", tricks: &[Replay, ReplayChanged, Opening], percent: 40, most_sends: 999 },
    Manner { kind: "lawful: without the primary's bit", tricks: &[NoPrimary, LiedAbout], percent: 40, most_sends: 999 },
    Manner { kind: "lawful: about the receiver", tricks: &[AboutReceiver, Opening], percent: 50, most_sends: 999 },
    Manner { kind: "lawful: third batches", tricks: &[Third], percent: 40, most_sends: 999 },
    Manner { kind: "lawful: a third batch in one send", tricks: &[Third], percent: 100, most_sends: 1 },
    Manner { kind: "lawful: too few, then enough", tricks: &[TooFewThenEnough], percent: 100, most_sends: 2 },
    Manner { kind: "lawful: one send in pieces", tricks: &[InPieces], percent: 100, most_sends: 1 },
    Manner { kind: "lawful: unreadable messages", tricks: &[Unreadable, Opening], percent: 60, most_sends: 999 },
    Manner { kind: "lawful: one unreadable message", tricks: &[Unreadable], percent: 100, most_sends: 1 },
    Manner { kind: "lawful: full messages", tricks: &[Full], percent: 100, most_sends: 7 },
    Manner { kind: "lawful: everything, often", tricks: EVERYTHING, percent: 60, most_sends: 999 },
    Manner { kind: "lawful: everything, seldom", tricks: EVERYTHING, percent: 10, most_sends: 6 },
];

const SPECIAL: usize = 2;

pub fn lawful(random: &mut Random, turn: usize) -> Generated {
    let turn = turn % (MANNERS.len() + SPECIAL);
    let (kind, play) = match MANNERS.get(turn) {
        Some(manner) => (manner.kind, Play::by(random, manner)),
        None if turn == MANNERS.len() => ("lawful: every send there can be", Play::with_every_send(random)),
        None => ("lawful: a file of 65,535 or 65,536 bytes", Play::at_the_limit(random)),
    };
    Generated { kind, file: play.draft().file(), expected: Expected::Good }
}

/// A play of all tricks, for those who forge in it or damage its text. It has faulty nodes, at least two sends and
/// a tray of two entries.
pub fn rich(random: &mut Random) -> Play {
    let manner = Manner { kind: "", tricks: EVERYTHING, percent: 40, most_sends: 12 };
    loop {
        let n = random.between(3, 9);
        let f = random.between(1, (n - 1) / 2);
        let mut play = Play::setting(random, n, f, 1);
        play.run(random, &manner, &mut |_, _| None);
        if play.sends.len() >= 2 && play.trays.iter().any(|tray| tray.len() >= 2) {
            return play;
        }
    }
}

pub struct Play {
    pub sizes: Sizes,
    pub faulty: Vec<usize>,
    pub trays: Vec<Batch>,
    pub sends: Vec<Send>,
    /// The few batches that each node's votes are about.
    pub pools: Vec<Vec<Batch>>,
}

/// One send to come: where it stands and what is known there.
pub struct Place<'a> {
    pub round: usize,
    pub from: usize,
    pub to: usize,
    pub hall: &'a Hall,
    pub play: &'a Play,
    /// The records that correct nodes sent up to this round.
    pub heard: &'a [Vote],
}

/// Puts another message in place of the one that the tricks give.
pub type Instead<'a> = dyn FnMut(&mut Random, &Place) -> Option<Vec<u8>> + 'a;

/// Files stay below their limit by this.
const ROOM: usize = 60_000;

impl Play {
    fn by(random: &mut Random, manner: &Manner) -> Play {
        let (n, f) = some_sizes(random, manner.most_sends > 0);
        let least = if manner.tricks.is_empty() { 0 } else { 1 };
        let mut play = Play::setting(random, n, f, least.min(f));
        if manner.kind == MANNERS[0].kind {
            play.faulty.clear();
        }
        play.run(random, manner, &mut |_, _| None);
        play
    }

    /// Nodes, trays and the batches that votes will be about, before anything is sent.
    pub fn setting(random: &mut Random, n: usize, f: usize, least_faulty: usize) -> Play {
        let count = random.between(least_faulty, f).max(if random.chance(60) { f } else { 0 });
        let mut faulty = random.shuffled((0..n).collect());
        faulty.truncate(count);
        faulty.sort();
        let span = *random.pick(&[3, 8, 40, 1000]);
        let trays: Vec<Batch> = (0..n).map(|_| some_batch(random, span)).collect();
        let pools = trays.iter().map(|tray| pool(random, tray, span)).collect();
        Play { sizes: Sizes { n, f }, faulty, trays, sends: Vec::new(), pools }
    }

    /// All rounds, with the hall beside.
    fn run(&mut self, random: &mut Random, manner: &Manner, instead: &mut Instead) {
        let rounds: Vec<usize> = (1..=self.sizes.last_round()).collect();
        let few = manner.most_sends < 5;
        // Where sends are few they are meant to come late as often as early.
        let chosen = if few && !self.faulty.is_empty() { some_places(random, self, manner.most_sends) } else { Vec::new() };
        let sends_here = |random: &mut Random, place: (usize, usize, usize)| {
            if few {
                chosen.contains(&place)
            } else {
                random.chance(manner.percent)
            }
        };
        let mut hall = Hall::open(self.sizes, &self.faulty, &self.trays);
        let mut heard = Vec::new();
        let mut size = self.draft().file().len();
        for round in rounds {
            let before = self.sends.len();
            hear(&hall, &mut heard);
            for from in self.faulty.clone() {
                for to in self.correct() {
                    if self.sends.len() >= manner.most_sends || !sends_here(random, (round, from, to)) {
                        continue;
                    }
                    let place = Place { round, from, to, hall: &hall, play: self, heard: &heard };
                    let message = instead(random, &place).unwrap_or_else(|| place.message(random, manner.tricks));
                    size += 2 * message.len() + 20;
                    if (1..=MOST_IN_MESSAGE).contains(&message.len()) && size < ROOM {
                        self.send(round, from, to, message);
                    }
                }
            }
            hall.step(&self.sends[before..].iter().collect::<Vec<_>>());
        }
    }

    /// All rounds with these tricks, and another message where `instead` gives one.
    pub fn run_with(&mut self, random: &mut Random, tricks: &'static [Trick], instead: &mut Instead) {
        let manner = Manner { kind: "", tricks, percent: 40, most_sends: 40 };
        self.run(random, &manner, instead);
    }

    fn send(&mut self, round: usize, from: usize, to: usize, message: Vec<u8>) {
        let line = 4 + self.sizes.n + self.sends.len();
        self.sends.push(Send { line, round, from, to, message });
    }

    pub fn correct(&self) -> Vec<usize> {
        (0..self.sizes.n).filter(|node| !self.faulty.contains(node)).collect()
    }

    pub fn faulty_mask(&self) -> u16 {
        self.faulty.iter().map(|&node| bit(node)).sum()
    }

    /// Every faulty node sends to every correct one in every round: short messages, for the greatest count of lines.
    fn with_every_send(random: &mut Random) -> Play {
        let n = *random.pick(&[16, 16, 15, 9]);
        let f = (n - 1) / 2;
        let mut play = Play::setting(random, n, f, f);
        play.pools.iter_mut().flatten().for_each(|batch| batch.truncate(1));
        let manner = Manner { kind: "", tricks: &[Opening, TooFew, JustEnough], percent: 100, most_sends: 999 };
        play.run(random, &manner, &mut |_, _| None);
        play
    }

    /// A schedule as long as one may be: a valid one, filled up by unreadable messages.
    fn at_the_limit(random: &mut Random) -> Play {
        let length = 65_536 - random.below(2);
        let mut play = Play::setting(random, 5, 2, 2);
        let places: Vec<(usize, usize)> =
            play.faulty.iter().flat_map(|&from| play.correct().into_iter().map(move |to| (from, to))).collect();
        let parity = (0..play.sizes.n).find(|&node| play.faulty.contains(&node)).unwrap();
        play.trays[parity] = vec![entry(1, 1, 1)];
        let mut rest = length - play.draft().file().len();
        let overhead = "send=1,0,1,\n".len();
        for round in 1..=3 {
            for &(from, to) in &places {
                if rest <= overhead + 1 {
                    break;
                }
                let most = (rest - overhead) / 2;
                // What is left after this one has to hold another whole line, or nothing.
                let size = if most > MOST_IN_MESSAGE { MOST_IN_MESSAGE.min(most - 20) } else { most };
                play.send(round, from, to, vec![0xff; size]);
                rest -= overhead + 2 * size;
            }
        }
        if play.draft().file().len() < length {
            play.trays[parity] = vec![entry(1, 1, 10)];
        }
        assert_eq!(play.draft().file().len(), length);
        play
    }

    pub fn draft(&self) -> Draft {
        let Sizes { n, f } = self.sizes;
        let list = |pieces: Vec<String>| pieces.join(",");
        let mut lines = vec![format!("n={n}"), format!("f={f}")];
        lines.push(format!("faulty={}", list(self.faulty.iter().map(usize::to_string).collect())));
        for tray in &self.trays {
            lines.push(format!("tray={}", list(tray.iter().map(|&entry| print_entry(entry)).collect())));
        }
        for Send { round, from, to, message, .. } in &self.sends {
            lines.push(format!("send={round},{from},{to},{}", hex(message)));
        }
        lines.push("end=".into());
        Draft { sizes: self.sizes, faulty: self.faulty.clone(), lines: lines.into_iter().map(String::into_bytes).collect() }
    }
}

/// The lines of a schedule, without their LF.
#[derive(Clone)]
pub struct Draft {
    pub sizes: Sizes,
    pub faulty: Vec<usize>,
    pub lines: Vec<Vec<u8>>,
}

impl Draft {
    pub fn file(&self) -> Vec<u8> {
        self.lines.iter().flat_map(|line| line.iter().copied().chain([b'\n'])).collect()
    }

    /// The line numbers of the sends.
    pub fn sends(&self) -> std::ops::RangeInclusive<usize> {
        4 + self.sizes.n..=self.lines.len() - 1
    }
}

pub fn hex(bytes: &[u8]) -> String {
    let digit = |value: u8| char::from_digit(value.into(), 16).expect("half a byte");
    bytes.iter().flat_map(|byte| [digit(byte >> 4), digit(byte & 15)]).collect()
}

/// All n from 1 to 16 and all f; small halls more often, since there more happens in fewer lines.
fn some_sizes(random: &mut Random, faulty: bool) -> (usize, usize) {
    let n = match random.below(10) {
        0 if !faulty => random.between(1, 2),
        0..=5 => random.between(3, 6),
        6..=8 => random.between(7, 11),
        _ => random.between(12, 16),
    };
    let most = (n - 1) / 2;
    let f = if random.chance(60) { most } else { random.between(usize::from(faulty), most) };
    (n, f)
}

/// Where few sends stand: any round, from any faulty node, to any correct one, the last rounds more often.
fn some_places(random: &mut Random, play: &Play, count: usize) -> Vec<(usize, usize, usize)> {
    let last = play.sizes.last_round();
    let one = |random: &mut Random| {
        let round = match random.below(4) {
            0 => last,
            1 => last.max(2) - 1,
            _ => random.between(1, last),
        };
        (round, *random.pick(&play.faulty), *random.pick(&play.correct()))
    };
    (0..count).map(|_| one(random)).collect()
}

fn some_entry(random: &mut Random, span: usize) -> u64 {
    match random.below(20) {
        0 => *random.pick(&[0, u64::MAX, entry(u16::MAX, 0, 0), entry(0, u16::MAX, 0), entry(0, 0, u32::MAX)]),
        1 => random.any(),
        _ => entry(random.below(span.min(5)) as u16, random.below(span.min(9)) as u16, random.below(span) as u32),
    }
}

fn some_batch(random: &mut Random, span: usize) -> Batch {
    let count = match random.below(10) {
        0..=1 => 0,
        2..=7 => random.between(1, 3),
        8 => random.between(4, 15),
        _ => 16,
    };
    let mut batch: Batch = (0..count).map(|_| some_entry(random, span)).collect();
    batch.sort();
    batch.dedup();
    batch
}

/// Three to five different batches that differ little: the tray itself, one entry more, one less, one other.
fn pool(random: &mut Random, tray: &Batch, span: usize) -> Vec<Batch> {
    let mut pool = vec![tray.clone()];
    while pool.len() < 3 || random.chance(30) && pool.len() < 5 {
        let mut batch = random.pick(&pool).clone();
        match random.below(4) {
            0 => drop(batch.pop()),
            1 if batch.len() < 16 => batch.push(some_entry(random, span)),
            2 if !batch.is_empty() => {
                let changed = random.below(batch.len());
                batch[changed] = some_entry(random, span);
            }
            _ => batch = some_batch(random, span),
        }
        batch.sort();
        batch.dedup();
        if !pool.contains(&batch) {
            pool.push(batch);
        }
    }
    random.shuffled(pool)
}

/// Adds what correct nodes send in the round to come.
fn hear(hall: &Hall, heard: &mut Vec<Vote>) {
    for member in hall.correct() {
        let votes = message::read(hall.sizes().n, &member.outbox).unwrap_or_default();
        heard.extend(votes.iter().map(|vote| Vote { primary: vote.primary, mask: vote.mask, batch: vote.entries().collect() }));
    }
}

impl Place<'_> {
    /// The bits that may be shown for this primary and batch: all faulty nodes', and those of its real voters.
    pub fn showable(&self, primary: usize, batch: &Batch) -> u16 {
        let voted =
            self.hall.correct().iter().filter(|member| member.voted.iter().any(|vote| vote.0 == primary && vote.1 == *batch));
        voted.map(|member| bit(member.number)).sum::<u16>() | self.play.faulty_mask()
    }

    /// So many of the showable bits, the primary's among them where it is showable; all of them if they are fewer.
    fn lawful_mask(&self, random: &mut Random, primary: usize, batch: &Batch, count: usize) -> u16 {
        let showable = self.showable(primary, batch);
        let mut mask = showable & bit(primary);
        let others = (0..self.play.sizes.n).filter(|&node| showable & !mask & bit(node) != 0).collect();
        for node in random.shuffled(others) {
            if (mask.count_ones() as usize) < count {
                mask |= bit(node);
            }
        }
        mask
    }

    fn vote(&self, random: &mut Random, primary: usize, count: usize) -> Vote {
        let batch = random.pick(&self.play.pools[primary]).clone();
        Vote { primary, mask: self.lawful_mask(random, primary, &batch, count), batch }
    }

    pub fn message(&self, random: &mut Random, tricks: &[Trick]) -> Vec<u8> {
        let count = if random.chance(70) { 1 } else { random.between(2, 5) };
        let mut message = Vec::new();
        for _ in 0..count {
            match *random.pick(tricks) {
                Unreadable => return self.unreadable(random, message),
                trick => message.extend(bytes(&self.votes(random, trick))),
            }
        }
        message.truncate(if message.len() > MOST_IN_MESSAGE { 0 } else { message.len() });
        message
    }

    pub fn votes(&self, random: &mut Random, trick: Trick) -> Vec<Vote> {
        let faulty = *random.pick(&self.play.faulty);
        let all = self.play.sizes.n;
        match trick {
            Opening => vec![Vote { mask: bit(self.from), ..self.vote(random, self.from, 1) }],
            Colluding => {
                let vote = self.vote(random, faulty, all);
                vec![Vote { mask: random.some_of(vote.mask) | bit(faulty), ..vote }]
            }
            JustEnough => vec![self.vote(random, faulty, self.round)],
            TooFew => vec![self.vote(random, faulty, self.round - 1)],
            Replay | ReplayChanged => self.replay(random, trick == ReplayChanged),
            NoPrimary => {
                let vote = self.vote(random, faulty, all);
                vec![Vote { mask: vote.mask & !bit(faulty), ..vote }]
            }
            LiedAbout => {
                let correct = *random.pick(&self.play.correct());
                vec![self.about(random, correct)]
            }
            AboutReceiver => vec![self.about(random, self.to)],
            Third => (0..random.between(3, 5)).map(|_| self.vote(random, faulty, self.round)).collect(),
            TooFewThenEnough => {
                let batch = random.pick(&self.play.pools[faulty]).clone();
                let counts = [self.round - 1, self.round, all];
                counts
                    .map(|count| Vote {
                        primary: faulty,
                        mask: self.lawful_mask(random, faulty, &batch, count),
                        batch: batch.clone(),
                    })
                    .into()
            }
            InPieces => self.pieces(random, faulty),
            Full => self.full(random),
            Unreadable => Vec::new(),
        }
    }

    /// A record that a correct node sent; or the same primary and batch with other bits that may be shown for it.
    fn replay(&self, random: &mut Random, changed: bool) -> Vec<Vote> {
        if self.heard.is_empty() {
            return Vec::new();
        }
        let vote = random.pick(self.heard).clone();
        let showable = self.showable(vote.primary, &vote.batch);
        let mask = if changed { random.some_of(showable) } else { vote.mask & showable };
        vec![Vote { mask, ..vote }]
    }

    /// A record about a correct primary, with bits that may be shown: its own bit only for its own batch.
    fn about(&self, random: &mut Random, primary: usize) -> Vote {
        let batch = random.pick(&self.play.pools[primary]).clone();
        let showable = self.showable(primary, &batch);
        let mask = if random.chance(50) { showable } else { random.some_of(showable) };
        Vote { primary, mask, batch }
    }

    /// All bits that may be shown for a batch, spread over several records of it.
    fn pieces(&self, random: &mut Random, primary: usize) -> Vec<Vote> {
        let batch = random.pick(&self.play.pools[primary]).clone();
        let showable = self.showable(primary, &batch) & !bit(primary);
        let others = (0..self.play.sizes.n).filter(|&node| showable & bit(node) != 0);
        others.map(|node| Vote { primary, mask: bit(primary) | bit(node), batch: batch.clone() }).collect()
    }

    /// Thirty records of sixteen entries: 3,960 bytes.
    fn full(&self, random: &mut Random) -> Vec<Vote> {
        let one = |random: &mut Random| {
            let primary = random.below(self.play.sizes.n);
            let first = 1000 * random.below(3) as u64;
            let batch: Batch = (first..first + 16).collect();
            Vote { primary, mask: self.lawful_mask(random, primary, &batch, self.round), batch }
        };
        (0..30).map(|_| one(random)).collect()
    }

    /// Good records with one thing wrong at the end of them, or in the last of them.
    pub fn unreadable(&self, random: &mut Random, mut message: Vec<u8>) -> Vec<u8> {
        let Sizes { n, .. } = self.play.sizes;
        if message.is_empty() || random.chance(50) {
            message.extend(self.vote(random, self.from, self.round).bytes());
        }
        let high = if n < 16 { bit(random.between(n, 15)) } else { 0 };
        let vote = |primary, mask, batch: &[u64]| Vote { primary, mask, batch: batch.to_vec() }.bytes();
        let own = bit(self.from);
        let wrong = match random.below(10) {
            0 => vec![self.from as u8],
            1 => vec![self.from as u8, 0, 1],
            2 => vec![self.from as u8, 1, own as u8, (own >> 8) as u8, 0, 0, 0, 0, 0, 0, 0],
            3 => vote(n, own, &[]),
            4 => vote(255, own, &[]),
            5 => vote(self.from, own | high, &[2, if high == 0 { 2 } else { 3 }]),
            6 => vote(self.from, own, &[5, 5]),
            7 => vote(self.from, own, &[5, 7, 6]),
            8 => vote(self.from, own, &(0..17).collect::<Vec<u64>>()),
            _ => {
                let cut = random.between(1, 3);
                message.truncate(message.len() - cut);
                Vec::new()
            }
        };
        message.extend(wrong);
        message
    }
}
