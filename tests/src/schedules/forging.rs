//! Schedules in which a faulty node shows a correct node's bit for a primary and batch which that node has not
//! itself sent in that round or before; and some that come close and are lawful.

use super::play::{bytes, Batch, Place, Play, Trick, Vote, EVERYTHING};
use super::{Expected, Generated};
use crate::random::Random;
use second::rehearsal::hall::Member;
use second::rehearsal::Send;
use second::sizes::{bit, MOST_IN_MESSAGE};

/// Gives a forged vote at this place, if there is one of its kind.
type Forgery = fn(&mut Random, &Place) -> Option<Vote>;

struct Kind {
    kind: &'static str,
    tricks: &'static [Trick],
    forgery: Forgery,
    form: Form,
}

/// How the forged vote stands in the file.
#[derive(Clone, Copy, PartialEq, Eq)]
enum Form {
    /// Alone or among others in a message.
    Plain,
    /// After as many lawful records as a message takes.
    LastOfMany,
    /// In a message that is unreadable: it shows nothing.
    InUnreadable,
    /// Before a line of bad form, which is the one that counts.
    BeforeBadLine,
    /// Twice: the first counts.
    Twice,
}

use Form::*;
use Trick::*;

const KINDS: &[Kind] = &[
    Kind { kind: "forged: a batch that nobody sent", tricks: EVERYTHING, forgery: unheard_of, form: Plain },
    Kind { kind: "forged: another node's vote", tricks: EVERYTHING, forgery: another_nodes, form: Plain },
    Kind {
        kind: "forged: a vote one round too early",
        tricks: &[Opening, JustEnough, Colluding],
        forgery: too_early,
        form: Plain,
    },
    Kind { kind: "forged: a dropped third batch", tricks: &[Third, Opening], forgery: dropped, form: Plain },
    Kind { kind: "forged: what was kept in the last round", tricks: &[JustEnough, Opening], forgery: kept_last, form: Plain },
    Kind { kind: "forged: another batch of a correct primary", tricks: EVERYTHING, forgery: other_opening, form: Plain },
    Kind { kind: "forged: the same batch of another primary", tricks: EVERYTHING, forgery: other_primary, form: Plain },
    Kind { kind: "forged: a batch that begins alike", tricks: &[Opening, Colluding, Replay], forgery: begins_alike, form: Plain },
    Kind { kind: "forged: the receiver's own bit", tricks: EVERYTHING, forgery: receivers_bit, form: Plain },
    Kind { kind: "forged: in a record that the receiver passes over", tricks: EVERYTHING, forgery: about_receiver, form: Plain },
    Kind { kind: "forged: what was accepted by nobody", tricks: &[TooFew, NoPrimary], forgery: not_accepted, form: Plain },
    Kind { kind: "forged: the last record of many", tricks: EVERYTHING, forgery: another_nodes, form: LastOfMany },
    Kind { kind: "forged: before a line of bad form", tricks: EVERYTHING, forgery: unheard_of, form: BeforeBadLine },
    Kind { kind: "forged: two of them", tricks: EVERYTHING, forgery: another_nodes, form: Twice },
    Kind { kind: "lawful: forged in an unreadable message", tricks: EVERYTHING, forgery: another_nodes, form: InUnreadable },
];

pub fn forged(random: &mut Random, turn: usize) -> Generated {
    let kind = &KINDS[turn % KINDS.len()];
    loop {
        let n = random.between(3, 9);
        let f = random.between(1, (n - 1) / 2);
        let mut play = Play::setting(random, n, f, 1);
        if let Some(line) = forge(random, &mut play, kind) {
            let (file, expected) = finish(random, &play, kind.form, line);
            return Generated { kind: kind.kind, file, expected };
        }
    }
}

/// Plays with the forged vote in it and says at which line it stands.
fn forge(random: &mut Random, play: &mut Play, kind: &Kind) -> Option<usize> {
    let mut patience = random.below(6);
    let mut forged: Vec<Vec<u8>> = Vec::new();
    let most = if kind.form == Twice { 2 } else { 1 };
    play.run_with(random, kind.tricks, &mut |random, place| {
        if forged.len() == most {
            return None;
        }
        let vote = (kind.forgery)(random, place)?;
        if patience > 0 {
            patience -= 1;
            return None;
        }
        let message = message_around(random, place, vote, kind.form)?;
        forged.push(message.clone());
        Some(message)
    });
    let first = forged.first()?;
    play.sends.iter().find(|send| send.message == *first).map(|send| send.line)
}

fn message_around(random: &mut Random, place: &Place, vote: Vote, form: Form) -> Option<Vec<u8>> {
    let lawful = |random: &mut Random| bytes(&place.votes(random, JustEnough));
    let (mut before, mut after) = (Vec::new(), Vec::new());
    match form {
        LastOfMany => {
            let room = MOST_IN_MESSAGE - vote.bytes().len();
            let record = lawful(random);
            before = record.repeat(room / record.len());
        }
        InUnreadable => after = place.unreadable(random, Vec::new()),
        _ => {
            if random.chance(40) {
                before = lawful(random);
            }
            if random.chance(40) {
                after = lawful(random);
            }
        }
    }
    let message = [before, vote.bytes(), after].concat();
    (message.len() <= MOST_IN_MESSAGE).then_some(message)
}

fn finish(random: &mut Random, play: &Play, form: Form, line: usize) -> (Vec<u8>, Expected) {
    let mut draft = play.draft();
    match form {
        InUnreadable => (draft.file(), Expected::Good),
        BeforeBadLine => {
            let bad = random.between(line + 1, draft.lines.len());
            draft.lines[bad - 1].extend(b",");
            (draft.file(), Expected::Bad(bad))
        }
        _ => (draft.file(), Expected::Bad(line)),
    }
}

fn has_voted(member: &Member, primary: usize, batch: &Batch) -> bool {
    member.voted.iter().any(|vote| vote.0 == primary && vote.1 == *batch)
}

impl Place<'_> {
    fn member(&self, random: &mut Random) -> &Member {
        random.pick(self.hall.correct())
    }

    /// This vote with this node's bit, if that bit is forged, and with some of the bits that may be shown.
    fn forging(&self, random: &mut Random, member: &Member, primary: usize, batch: Batch) -> Option<Vote> {
        if has_voted(member, primary, &batch) {
            return None;
        }
        let showable = self.showable(primary, &batch);
        let mask = random.some_of(showable) | showable & bit(primary) | bit(member.number);
        Some(Vote { primary, mask, batch })
    }
}

fn unheard_of(random: &mut Random, place: &Place) -> Option<Vote> {
    let member = place.member(random);
    let primary = *random.pick(&place.play.faulty);
    let batch = vec![random.any() | 1 << 63];
    place.forging(random, member, primary, batch)
}

fn another_nodes(random: &mut Random, place: &Place) -> Option<Vote> {
    let member = place.member(random);
    let vote = random.pick(place.heard).clone();
    place.forging(random, member, vote.primary, vote.batch)
}

/// What a node sends in the next round, given what has been sent so far in this one.
fn too_early(random: &mut Random, place: &Place) -> Option<Vote> {
    let next = after_this_round(place);
    let member = place.member(random);
    let later = next.iter().find(|later| later.number == member.number)?;
    let new = &later.voted[member.voted.len()..];
    let (primary, batch) = if new.is_empty() { return None } else { random.pick(new).clone() };
    place.forging(random, member, primary, batch)
}

fn kept_last(random: &mut Random, place: &Place) -> Option<Vote> {
    if place.round != place.play.sizes.last_round() {
        return None;
    }
    let next = after_this_round(place);
    let mut new: Vec<(&Member, usize, Batch)> = Vec::new();
    for (member, later) in place.hall.correct().iter().zip(&next) {
        for primary in 0..place.play.sizes.n {
            let before = member.node.kept(primary).len();
            new.extend(later.node.kept(primary)[before..].iter().map(|batch| (member, primary, batch.clone())));
        }
    }
    let (member, primary, batch) = if new.is_empty() { return None } else { random.pick(&new).clone() };
    place.forging(random, member, primary, batch)
}

fn after_this_round(place: &Place) -> Vec<Member> {
    let mut hall = place.hall.clone();
    let sends: Vec<&Send> = place.play.sends.iter().filter(|send| send.round == place.round).collect();
    hall.step(&sends);
    hall.correct().to_vec()
}

/// A batch of a primary for which the node keeps two others.
fn dropped(random: &mut Random, place: &Place) -> Option<Vote> {
    let member = place.member(random);
    let primary = *random.pick(&place.play.faulty);
    if member.node.kept(primary).len() < 2 {
        return None;
    }
    let batch = random.pick(&place.play.pools[primary]).clone();
    place.forging(random, member, primary, batch)
}

fn other_opening(random: &mut Random, place: &Place) -> Option<Vote> {
    let member = place.member(random);
    let batch = random.pick(&place.play.pools[member.number]).clone();
    place.forging(random, member, member.number, batch)
}

fn other_primary(random: &mut Random, place: &Place) -> Option<Vote> {
    let member = place.member(random);
    let batch = random.pick(&member.voted).1.clone();
    let primary = random.below(place.play.sizes.n);
    place.forging(random, member, primary, batch)
}

/// A batch that the node has voted for, with one entry more, one less or the last one changed.
fn begins_alike(random: &mut Random, place: &Place) -> Option<Vote> {
    let member = place.member(random);
    let (primary, mut batch) = random.pick(&member.voted).clone();
    let last = batch.pop();
    match (random.below(3), last) {
        (0, _) => {}
        (1, Some(last)) => batch.push(last.checked_add(1)?),
        (_, Some(last)) => batch.extend([last, last.checked_add(1)?]),
        (_, None) => batch.push(1),
    }
    (batch.len() <= 16).then_some(())?;
    place.forging(random, member, primary, batch)
}

fn receivers_bit(random: &mut Random, place: &Place) -> Option<Vote> {
    let receiver = place.hall.correct().iter().find(|member| member.number == place.to)?;
    let primary = random.below(place.play.sizes.n);
    let batch = random.pick(&place.play.pools[primary]).clone();
    place.forging(random, receiver, primary, batch)
}

fn about_receiver(random: &mut Random, place: &Place) -> Option<Vote> {
    let member = place.member(random);
    let batch = random.pick(&place.play.pools[place.to]).clone();
    place.forging(random, member, place.to, batch)
}

/// A batch that was sent to the node and that it had no reason to accept.
fn not_accepted(random: &mut Random, place: &Place) -> Option<Vote> {
    let send = place.play.sends.iter().rfind(|send| send.round < place.round)?;
    let vote = second::record::read(place.play.sizes.n, &send.message)?;
    let member = place.hall.correct().iter().find(|member| member.number == send.to)?;
    place.forging(random, member, vote.primary, vote.entries().collect())
}
