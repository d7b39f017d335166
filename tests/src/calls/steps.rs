//! The round step.

use super::call::{Answer, Call, Lent};
use super::inboxes::{pack, smaller_inboxes, some_messages, well_cut, ReadInbox, ILL_CUTS};
use super::library;
use super::messages::{bytes, some_votes, Vote, DAMAGES, MOST_IN_MESSAGE};
use super::run::{Held, Run};
use super::show;
use super::sizes::{all_bits, every_hall, Sizes};
use super::states::{batch, breaches, Scene};
use crate::random::Random;
use second::{calls, RawNode};

#[derive(Clone, PartialEq)]
pub struct Step {
    pub node: RawNode,
    pub inbox: Vec<u8>,
    pub room: usize,
}

impl Call for Step {
    const NAME: &'static str = "step";
    const VALUES: &'static [&'static str] = &["length", "unreadable"];
    const ROWS: &'static [u64] = &[2, 3, 4, 9];

    fn lent(&self) -> Lent {
        Lent::node(&self.node).with_bytes(self.room)
    }

    fn proved(&self, lent: &mut Lent) -> Answer {
        let stepped = raudokiin::calls::step(library::block(&self.node), &self.inbox, lent.lent_bytes());
        *lent.lent_node() = library::node(&stepped.node);
        Answer::new(stepped.number, &[stepped.length as u64, stepped.unreadable.into()])
    }

    fn second(&self, lent: &mut Lent) -> Answer {
        let (node, outbox) = lent.node_and_bytes();
        let stepped = calls::step(node, &self.inbox, outbox);
        Answer::new(stepped.number, &[stepped.length, stepped.unreadable.into()])
    }

    fn smaller(&self) -> Vec<Step> {
        let inboxes = smaller_inboxes(self.node.n.min(16), &self.inbox).into_iter().map(|inbox| Step { inbox, ..self.clone() });
        let nodes = show::smaller_nodes(&self.node).into_iter().map(|node| Step { node, ..self.clone() });
        let rooms = show::lower_room(self.room).into_iter().map(|room| Step { room, ..self.clone() });
        inboxes.chain(nodes).chain(rooms).collect()
    }

    fn show(&self) -> String {
        format!("node {}\n  inbox {}\n  room for {} bytes", show::node(&self.node), show::bytes(&self.inbox), self.room)
    }
}

/// Every phase of every hall, f + 3 included, with silence; outboxes of every length around what is passed on.
pub fn boundaries(run: &mut Run) -> Held {
    let mut random = Random::new(0);
    for sizes in every_hall() {
        for phase in 0..=sizes.f + 3 {
            let number = match phase {
                phase if phase > sizes.f + 2 => 2,
                phase if (1..=sizes.f + 1).contains(&phase) => 0,
                _ => 3,
            };
            let scene = Scene::new(&mut random, sizes, phase);
            let silence = vec![0; 2 * sizes.n as usize];
            let node = scene.state(&mut random);
            run.expect("every phase, silence", number, &Step { node, inbox: silence, room: 0 })?;
            let step = Step { node, inbox: well_cut(&mut random, &scene), room: MOST_IN_MESSAGE };
            run.expect("every phase", number, &step)?;
        }
    }
    every_ill_cut(run)?;
    outbox_lengths(run)?;
    largest_outboxes(run)
}

/// Every way to cut an inbox ill, in every hall.
fn every_ill_cut(run: &mut Run) -> Held {
    let mut random = Random::new(0);
    for sizes in every_hall() {
        for &(name, cut_ill) in ILL_CUTS {
            let scene = Scene::new(&mut random, sizes, 1);
            let messages = some_messages(&mut random, &scene);
            let step =
                Step { node: scene.state(&mut random), inbox: cut_ill(&mut random, &scene, messages), room: MOST_IN_MESSAGE };
            run.expect(name, 4, &step)?;
            run.expect(name, 4, &ReadInbox { n: sizes.n, me: sizes.me, inbox: step.inbox })?;
        }
    }
    Ok(())
}

/// Two batches of one primary and one of another in a hall of three, f + 1 = 2: every length of the outbox in both rounds.
fn outbox_lengths(run: &mut Run) -> Held {
    let votes = [(0, vec![]), (0, vec![1, 2]), (1, vec![3]), (0, vec![4])];
    let votes: Vec<Vote> = votes.into_iter().map(|(primary, batch)| Vote { primary, mask: 0b011, batch }).collect();
    let inbox = pack([bytes(&votes).as_slice(), &[], &[]]);
    let written = 4 + 20 + 12;
    for phase in 1..=2 {
        let node = RawNode { n: 3, f: 1, me: 2, phase, own: batch(&[9]), ..RawNode::default() };
        for room in 0..=written + 5 {
            let number = if phase == 1 && room < written { 9 } else { 0 };
            run.expect("an outbox of each length", number, &Step { node, inbox: inbox.clone(), room })?;
        }
    }
    Ok(())
}

/// Two full batches of every other primary: what is passed on is as long as it can be.
fn largest_outboxes(run: &mut Run) -> Held {
    for Sizes { n, f, me } in every_hall().filter(|sizes| sizes.f > 0) {
        let full = |start: u64| -> Vec<u64> { (start..start + 16).collect() };
        let vote = |primary, start| Vote { primary, mask: all_bits(n), batch: full(start) };
        let votes: Vec<Vote> =
            (0..n as usize).flat_map(|primary| [vote(primary, 7), vote(primary, 0), vote(primary, 8)]).collect();
        let half = votes.len() / 2;
        let messages = [bytes(&votes[..half]), bytes(&votes[half..])];
        let senders = (0..n).filter(|&sender| sender != me).take(2).collect::<Vec<_>>();
        let message = |slot| senders.iter().position(|&sender| sender == slot).map_or(&[][..], |which| &messages[which]);
        let inbox = pack((0..n).map(message));
        let node = RawNode { n, f, me, phase: 1, ..RawNode::default() };
        let written = 2 * (n as usize - 1) * 132;
        for room in [written - 1, written, written + 1, MOST_IN_MESSAGE, MOST_IN_MESSAGE + 1] {
            let number = if room < written { 9 } else { 0 };
            run.expect("the largest outbox", number, &Step { node, inbox: inbox.clone(), room })?;
        }
    }
    Ok(())
}

pub fn compare(run: &mut Run, random: &mut Random, turn: usize) -> Held {
    let scene = Scene::some(random, |random, f| random.between(1, f as usize + 1) as u64);
    let node = scene.state(random);
    let step = Step { node, inbox: well_cut(random, &scene), room: MOST_IN_MESSAGE };
    let done = run.expect("votes and damaged messages of all kinds", 0, &step)?;
    short_outboxes(run, random, &step, done.answer.values[0] as usize)?;
    out_of_order(run, random, &scene, &step, turn)?;
    let (name, cut_ill) = ILL_CUTS[turn % ILL_CUTS.len()];
    let messages = some_messages(random, &scene);
    let inbox = cut_ill(random, &scene, messages);
    run.expect(name, 4, &Step { inbox: inbox.clone(), ..step.clone() })?;
    run.expect("row 4 before row 9", 4, &Step { inbox, room: 0, ..step.clone() })?;
    one_damaged(run, random, &scene, turn)?;
    let all = breaches();
    let breach = all[turn % all.len()];
    if let Some(node) = breach.of(random, &node) {
        let room = if random.chance(20) { 0 } else { MOST_IN_MESSAGE };
        run.expect(breach.name(), 2, &Step { node, room, ..step })?;
    }
    Ok(())
}

/// The same step again with outboxes around the length that was written. In the last round nothing is refused.
fn short_outboxes(run: &mut Run, random: &mut Random, step: &Step, written: usize) -> Held {
    for room in [0, written.saturating_sub(1), random.below(written + 1), written, written + 1] {
        let number = if room < written { 9 } else { 0 };
        run.expect("an outbox around what is passed on", number, &Step { room, ..step.clone() })?;
    }
    Ok(())
}

/// Steps in phases that are none, with ill-cut inboxes and short outboxes too.
fn out_of_order(run: &mut Run, random: &mut Random, scene: &Scene, step: &Step, turn: usize) -> Held {
    let phase = if turn % 2 == 0 { 0 } else { scene.sizes.f + 2 };
    let node = Scene { phase, ..scene.clone() }.state(random);
    run.expect("outside the rounds", 3, &Step { node, ..step.clone() })?;
    let inbox = step.inbox[1..].to_vec();
    run.expect("row 3 before rows 4 and 9", 3, &Step { node, inbox: inbox.clone(), room: 0 })?;
    let unsound = RawNode { phase: scene.sizes.f + 3, ..node };
    run.expect("row 2 before rows 3, 4 and 9", 2, &Step { node: unsound, inbox, room: 0 })?;
    Ok(())
}

/// One message damaged in the turn's way, between two that are readable: it counts wholly as silence.
fn one_damaged(run: &mut Run, random: &mut Random, scene: &Scene, turn: usize) -> Held {
    let damage = &DAMAGES[turn % DAMAGES.len()];
    let mut messages: Vec<Vec<u8>> = (0..scene.sizes.n).map(|_| bytes(&some_votes(random, scene))).collect();
    let sender = random.below(messages.len());
    messages[sender] = (damage.make)(random, scene, messages[sender].clone());
    let inbox = pack(&messages);
    let stepped = run.expect(damage.name, 0, &Step { node: scene.state(random), inbox, room: MOST_IN_MESSAGE })?;
    let told = stepped.answer.values[1] >> sender & 1 == 1;
    let unreadable = damage.surely && sender as u64 != scene.sizes.me;
    assert!(told || !unreadable, "{}: the generator's own damage is readable", damage.name);
    Ok(())
}
