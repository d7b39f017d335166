//! Whole halls, run through both sides call by call: the state that a call hands back is the next call's.

use super::batches::{batch_of, log_of, some_batch, some_entries};
use super::inboxes::{pack, ILL_CUTS};
use super::logs::{Bar, Close};
use super::messages::{bytes, records, some_message, some_votes, DAMAGES, MOST_IN_MESSAGE};
use super::opening::{New, Open};
use super::run::{Held, Run};
use super::signing::Signers;
use super::sizes::{all_bits, Sizes};
use super::states::Scene;
use super::steps::Step;
use super::trays::Put;
use crate::random::Random;
use second::{RawNode, RawTray};

const KIND: &str = "a hall";

/// A correct node: its state and what it sends next.
struct Station {
    me: u64,
    node: RawNode,
    outbox: Vec<u8>,
    log: Option<Vec<u64>>,
}

struct Hall {
    n: u64,
    f: u64,
    correct: Vec<Station>,
    /// The batches that faulty nodes speak of, those of correct nodes among them.
    scene: Scene,
    /// All that correct nodes have sent, for replays.
    sent: Vec<Vec<u8>>,
}

/// Halls of n = 1 to 16 in turn.
pub fn compare(run: &mut Run, random: &mut Random, turn: usize) -> Held {
    let n = turn as u64 % 16 + 1;
    let most = (n as usize - 1) / 2;
    let f = if random.chance(50) { most } else { random.below(most + 1) } as u64;
    let mut hall = open(run, random, n, f)?;
    for round in 1..=f + 1 {
        take_round(run, random, &mut hall, round)?;
    }
    close(run, random, &mut hall)?;
    sign(run, random, &hall)
}

fn open(run: &mut Run, random: &mut Random, n: u64, f: u64) -> Held<Hall> {
    let mut scene = Scene::new(random, Sizes { n, f, me: 0 }, 1);
    let faulty = random.shuffled((0..n).collect()).split_off(n as usize - random.below(f as usize + 1));
    let mut correct = Vec::new();
    for me in (0..n).filter(|node| !faulty.contains(node)) {
        let node = *run.expect(KIND, 0, &New(Sizes { n, f, me }))?.lent.lent_node();
        let tray = fill(run, random)?;
        scene.pools[me as usize].push(tray.entries[..tray.count as usize].to_vec());
        let mut open = Open { node, tray, room: random.below(4 + 8 * tray.count as usize) };
        run.expect("a hall, first without room", 9, &open)?;
        open.room = MOST_IN_MESSAGE;
        let mut opened = run.expect(KIND, 0, &open)?;
        let outbox = opened.lent.bytes()[..opened.answer.values[0] as usize].to_vec();
        correct.push(Station { me, node: *opened.lent.lent_node(), outbox, log: None });
    }
    Ok(Hall { n, f, correct, scene, sent: Vec::new() })
}

/// A tray filled entry by entry in any order, some entries twice, some too many.
fn fill(run: &mut Run, random: &mut Random) -> Held<RawTray> {
    let mut tray = RawTray::default();
    let entries = if random.chance(20) { batch_of(random, 18) } else { some_batch(random) };
    for entry in random.shuffled(entries.clone()).into_iter().chain(entries.first().copied()) {
        tray = *run.hold(KIND, &Put { tray, entry })?.lent.lent_tray();
    }
    Ok(tray)
}

fn take_round(run: &mut Run, random: &mut Random, hall: &mut Hall, round: u64) -> Held {
    hall.sent.extend(hall.correct.iter().map(|station| station.outbox.clone()));
    hall.scene.phase = round;
    let mut after = Vec::new();
    for station in &hall.correct {
        let messages = deliver(random, hall, station.me);
        let inbox = pack(&messages);
        let step = Step { node: station.node, inbox, room: MOST_IN_MESSAGE };
        if random.chance(20) {
            let (_, cut_ill) = random.pick(ILL_CUTS);
            let scene = Scene { sizes: Sizes { me: station.me, ..hall.scene.sizes }, ..hall.scene.clone() };
            let inbox = cut_ill(random, &scene, messages);
            run.expect("a hall, first with an ill-cut inbox", 4, &Step { inbox, ..step.clone() })?;
        }
        let mut stepped = run.expect(KIND, 0, &step)?;
        let length = stepped.answer.values[0] as usize;
        if length > 0 && random.chance(20) {
            run.expect("a hall, first without room", 9, &Step { room: random.below(length), ..step })?;
        }
        after.push((*stepped.lent.lent_node(), stepped.lent.bytes()[..length].to_vec()));
    }
    for (station, (node, outbox)) in hall.correct.iter_mut().zip(after) {
        (station.node, station.outbox) = (node, outbox);
    }
    Ok(())
}

/// What each sender's slot holds: correct nodes' outboxes whole, anything of faulty ones, the own slot odd.
fn deliver(random: &mut Random, hall: &Hall, to: u64) -> Vec<Vec<u8>> {
    let mut messages = Vec::new();
    for from in 0..hall.n {
        let message = match hall.correct.iter().find(|station| station.me == from && from != to) {
            Some(station) => station.outbox.clone(),
            None => lie(random, hall),
        };
        messages.push(message);
    }
    messages
}

/// Votes on batches of the hall, replays with more bits, several of them back to back, damaged messages, silence.
fn lie(random: &mut Random, hall: &Hall) -> Vec<u8> {
    match random.below(6) {
        0 => Vec::new(),
        1 => replay(random, hall),
        2 => {
            let mut message = [replay(random, hall), bytes(&some_votes(random, &hall.scene)), replay(random, hall)].concat();
            if message.len() > MOST_IN_MESSAGE && random.chance(90) {
                message = replay(random, hall);
            }
            message
        }
        3 => {
            let message = some_message(random, &hall.scene);
            (random.pick(DAMAGES).make)(random, &hall.scene, message)
        }
        _ => some_message(random, &hall.scene),
    }
}

/// A message that a correct node sent, as it was or with more witnesses.
fn replay(random: &mut Random, hall: &Hall) -> Vec<u8> {
    let mut message = random.pick(&hall.sent).clone();
    let more = random.some_of(all_bits(hall.n)).to_le_bytes();
    let starts: Vec<usize> = records(&message).collect();
    for start in starts {
        if random.chance(60) {
            message[start + 2] |= more[0];
            message[start + 3] |= more[1];
        }
    }
    message
}

fn close(run: &mut Run, random: &mut Random, hall: &mut Hall) -> Held {
    let long = if random.chance(20) { 4096 - random.below(60) } else { random.below(40) };
    let old = if random.chance(50) { some_entries(random, 40) } else { log_of(random, long) };
    for station in &mut hall.correct {
        let close = Close { node: station.node, old: old.clone(), room: 4096 };
        let closed = run.hold(KIND, &close)?;
        if closed.answer.number == 0 {
            let length = closed.answer.values[0] as usize;
            station.log = Some(closed.lent.entries()[..length].to_vec());
            run.expect("a hall, the output just long enough", 0, &Close { room: length, ..close })?;
        }
    }
    Ok(())
}

/// Distinct logs are numbered; faulty nodes speak with any of the numbers.
fn sign(run: &mut Run, random: &mut Random, hall: &Hall) -> Held {
    let mut logs: Vec<&Vec<u64>> = Vec::new();
    for log in hall.correct.iter().filter_map(|station| station.log.as_ref()) {
        if !logs.contains(&log) {
            logs.push(log);
        }
    }
    let mark = |number: usize| -> [u8; 32] { std::array::from_fn(|place| if place == 0 { number as u8 } else { 0 }) };
    let number_of = |station: &Station| logs.iter().position(|&log| Some(log) == station.log.as_ref());
    for station in &hall.correct {
        let Some((number, log)) = number_of(station).zip(station.log.as_ref()) else {
            continue;
        };
        let mut slots = Vec::new();
        for node in 0..hall.n {
            let speaker = hall.correct.iter().find(|station| station.me == node);
            let number = speaker.map_or(Some(random.below(logs.len())), number_of);
            slots.push(number.is_some().into());
            slots.extend(mark(number.unwrap_or(0)));
        }
        let sizes = Sizes { n: hall.n, f: hall.f, me: station.me };
        run.hold(KIND, &Signers { sizes, mark: mark(number), slots })?;
        if !log.is_empty() {
            let entry = *random.pick(log);
            let bar = Bar { log: log.clone(), meter: (entry >> 48) as u16, first: 0, last: (entry >> 32) as u16 };
            run.expect(KIND, 0, &bar)?;
        }
    }
    Ok(())
}
