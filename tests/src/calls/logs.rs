//! The close and the bar.

use super::batches::{disordered, log_of, some_entries, some_entry, MOST_IN_LOG};
use super::call::{Answer, Call, Lent};
use super::library;
use super::run::{Held, Run};
use super::show;
use super::sizes::every_hall;
use super::states::{batch, breaches, kept, Scene};
use crate::random::Random;
use second::{calls, RawNode};

#[derive(Clone, PartialEq)]
pub struct Close {
    pub node: RawNode,
    pub old: Vec<u64>,
    pub room: usize,
}

impl Call for Close {
    const NAME: &'static str = "close";
    const VALUES: &'static [&'static str] = &["length"];
    const ROWS: &'static [u64] = &[2, 3, 7, 8, 9];

    fn lent(&self) -> Lent {
        Lent::default().with_entries(self.room)
    }

    fn proved(&self, lent: &mut Lent) -> Answer {
        let closed = raudokiin::calls::close(library::block(&self.node), &self.old, lent.lent_entries());
        Answer::new(closed.number, &[closed.length as u64])
    }

    fn second(&self, lent: &mut Lent) -> Answer {
        let closed = calls::close(&self.node, &self.old, lent.lent_entries());
        Answer::new(closed.number, &[closed.value])
    }

    fn smaller(&self) -> Vec<Close> {
        let nodes = show::smaller_nodes(&self.node).into_iter().map(|node| Close { node, ..self.clone() });
        let logs = show::cuts(&self.old).into_iter().map(|old| Close { old, ..self.clone() });
        let rooms = show::lower_room(self.room).into_iter().map(|room| Close { room, ..self.clone() });
        nodes.chain(logs).chain(rooms).collect()
    }

    fn show(&self) -> String {
        let old = show::entries(&self.old);
        format!("node {}\n  old log of {old}\n  room for {} entries", show::node(&self.node), self.room)
    }
}

#[derive(Clone, PartialEq)]
pub struct Bar {
    pub log: Vec<u64>,
    pub meter: u16,
    pub first: u16,
    pub last: u16,
}

impl Call for Bar {
    const NAME: &'static str = "bar";
    const VALUES: &'static [&'static str] = &["sum"];
    const ROWS: &'static [u64] = &[7, 11];

    fn lent(&self) -> Lent {
        Lent::default()
    }

    fn proved(&self, _: &mut Lent) -> Answer {
        let bar = raudokiin::calls::bar(&self.log, self.meter, self.first, self.last);
        Answer::new(bar.number, &[bar.sum])
    }

    fn second(&self, _: &mut Lent) -> Answer {
        let bar = calls::bar(&self.log, self.meter, self.first, self.last);
        Answer::new(bar.number, &[bar.value])
    }

    fn smaller(&self) -> Vec<Bar> {
        show::cuts(&self.log).into_iter().map(|log| Bar { log, ..self.clone() }).collect()
    }

    fn show(&self) -> String {
        format!("log of {}, meter {}, intervals {} to {}", show::entries(&self.log), self.meter, self.first, self.last)
    }
}

/// A node alone whose rounds are over.
pub fn alone(own: &[u64]) -> RawNode {
    RawNode { n: 1, phase: 2, own: batch(own), ..RawNode::default() }
}

/// Even numbers, so that odd ones are new.
pub fn even_log(length: usize) -> Vec<u64> {
    (0..length as u64).map(|entry| 2 * entry).collect()
}

/// Every phase of every hall; old logs of 4,095, 4,096 and 4,097 entries with none to two new ones; outputs of each
/// length; each number of batches kept.
pub fn close_boundaries(run: &mut Run) -> Held {
    let mut random = Random::new(0);
    for sizes in every_hall() {
        for phase in 0..=sizes.f + 3 {
            let number = match phase {
                phase if phase > sizes.f + 2 => 2,
                phase if phase < sizes.f + 2 => 3,
                _ => 0,
            };
            let node = Scene::new(&mut random, sizes, phase).state(&mut random);
            run.expect("every phase", number, &Close { node, old: even_log(3), room: 300 })?;
        }
    }
    for length in [4080, 4094, 4095, 4096, 4097, 4098, 5000] {
        for own in [&[][..], &[0], &[1], &[8, 9], &[1, 3], &[1, 3, 5]] {
            let together = length + own.iter().filter(|&&entry| entry % 2 == 1).count();
            let number = match (length, together) {
                (4097.., _) => 7,
                (_, 4097..) => 8,
                _ => 0,
            };
            let close = Close { node: alone(own), old: even_log(length), room: MOST_IN_LOG };
            run.expect("old logs around 4,096 entries", number, &close)?;
            run.expect(
                "old logs around 4,096 entries, no room",
                if number == 0 { 9 } else { number },
                &Close { room: 0, ..close },
            )?;
        }
    }
    for room in 0..=14 {
        let close = Close { node: alone(&[3, 4, 7, 99]), old: even_log(9), room };
        run.expect("an output of each length", if room < 12 { 9 } else { 0 }, &close)?;
    }
    decisions(run)
}

/// None, one and two batches kept, the empty one among them, and the own batch.
fn decisions(run: &mut Run) -> Held {
    let (none, some, other) = (vec![], vec![5, 6], vec![6, 7]);
    let keeps =
        [kept(&[]), kept(&[&none]), kept(&[&some]), kept(&[&some, &other]), kept(&[&none, &some]), kept(&[&other, &none])];
    for first in keeps {
        for second in keeps {
            let mut node = RawNode { n: 3, f: 1, me: 1, phase: 3, own: batch(&[6, 8]), ..RawNode::default() };
            (node.kept[0], node.kept[2]) = (first, second);
            run.expect("every number of batches kept", 0, &Close { node, old: vec![1, 6, 20], room: 9 })?;
        }
    }
    Ok(())
}

pub fn compare_close(run: &mut Run, random: &mut Random, turn: usize) -> Held {
    let scene = Scene::some(random, |_, f| f + 2);
    let node = scene.state(random);
    let close = Close { node, old: some_old_log(random, turn), room: MOST_IN_LOG };
    let done = run.hold("a sound state and a log", &close)?;
    let length = done.answer.values[0] as usize;
    if done.answer.number == 0 && length > 0 {
        for room in [length - 1, length, length + 1, random.below(length)] {
            run.expect("an output around the new log", if room < length { 9 } else { 0 }, &Close { room, ..close.clone() })?;
        }
    }
    bad_logs(run, random, &scene, &close)?;
    let all = breaches();
    let breach = all[turn % all.len()];
    if let Some(node) = breach.of(random, &node) {
        let old = if random.chance(20) { vec![2, 1] } else { close.old };
        run.expect(breach.name(), 2, &Close { node, old, room: if random.chance(20) { 0 } else { MOST_IN_LOG } })?;
    }
    Ok(())
}

/// Short logs mostly, with the entries that batches have; long ones now and then.
fn some_old_log(random: &mut Random, turn: usize) -> Vec<u64> {
    match turn % 8 {
        0 => log_of(random, MOST_IN_LOG),
        1 => {
            let length = MOST_IN_LOG - random.below(300);
            log_of(random, length)
        }
        2 => {
            let length = random.below(MOST_IN_LOG);
            log_of(random, length)
        }
        3 => Vec::new(),
        _ => some_entries(random, 60),
    }
}

/// Logs that do not ascend or are too long, also where other rows are broken.
fn bad_logs(run: &mut Run, random: &mut Random, scene: &Scene, close: &Close) -> Held {
    let bad = disordered(random, close.old.clone());
    run.expect("an old log that does not ascend", 7, &Close { old: bad.clone(), ..close.clone() })?;
    let long = log_of(random, MOST_IN_LOG + 1);
    run.expect("row 7 before rows 8 and 9", 7, &Close { old: long, room: 0, ..close.clone() })?;
    let full = even_log(MOST_IN_LOG);
    run.expect("row 8 before row 9", 8, &Close { node: alone(&[1]), old: full.clone(), room: random.below(MOST_IN_LOG) })?;
    let phase = random.below(scene.sizes.f as usize + 2) as u64;
    let early = Scene { phase, ..scene.clone() }.state(random);
    run.expect("before phase f + 2", 3, &Close { node: early, ..close.clone() })?;
    run.expect("row 3 before rows 7 and 9", 3, &Close { node: early, old: bad.clone(), room: 0 })?;
    run.expect("row 3 before rows 8 and 9", 3, &Close { node: RawNode { phase: 1, ..alone(&[1]) }, old: full, room: 0 })?;
    let unsound = RawNode { n: 17, ..early };
    run.expect("row 2 before rows 3, 7 and 9", 2, &Close { node: unsound, old: bad, room: 0 })?;
    Ok(())
}

/// A log of meters 0 to 3 with whole ranges of watt-hours; each interval at both ends; the greatest sum.
pub fn bar_boundaries(run: &mut Run) -> Held {
    let greatest: Vec<u64> = (0..MOST_IN_LOG as u64).map(|interval| 7 << 48 | interval << 32 | u64::from(u32::MAX)).collect();
    for (first, last) in [(0, 4095), (0, u16::MAX), (1, 4095), (0, 4094), (4095, 4095), (4096, 5000)] {
        run.expect("the greatest sum", 0, &Bar { log: greatest.clone(), meter: 7, first, last })?;
    }
    for length in [0, 1, 4095, 4096, 4097, 4098] {
        let number = if length > MOST_IN_LOG { 7 } else { 0 };
        run.expect("logs around 4,096 entries", number, &Bar { log: even_log(length), meter: 0, first: 0, last: 9 })?;
    }
    let ends = [0, 1, u16::MAX - 1, u16::MAX];
    let log: Vec<u64> = [0, 1, u16::MAX]
        .iter()
        .flat_map(|&meter| {
            ends.iter().flat_map(move |&interval| [0, 3, u32::MAX].map(|hours| second::entry::entry(meter, interval, hours)))
        })
        .collect();
    for meter in [0, 1, 2, u16::MAX] {
        for first in ends {
            for last in ends {
                let number = if first > last { 11 } else { 0 };
                run.expect("meters and intervals at both ends", number, &Bar { log: log.clone(), meter, first, last })?;
            }
        }
    }
    Ok(())
}

pub fn compare_bar(run: &mut Run, random: &mut Random, turn: usize) -> Held {
    let log = if turn % 8 == 0 { log_of(random, MOST_IN_LOG) } else { some_entries(random, 200) };
    let entry = if log.is_empty() { some_entry(random) } else { *random.pick(&log) };
    let (meter, interval) = ((entry >> 48) as u16, (entry >> 32) as u16);
    let (before, after) = (random.below(3) as u16, random.below(3) as u16);
    let bar = Bar { log, meter, first: interval.saturating_sub(before), last: interval.saturating_add(after) };
    run.expect("a bar around an entry", 0, &bar)?;
    run.expect("a bar of all intervals", 0, &Bar { first: 0, last: u16::MAX, ..bar.clone() })?;
    run.expect("a bar of one interval", 0, &Bar { first: interval, last: interval, ..bar.clone() })?;
    let first = interval.max(1);
    run.expect("first after last", 11, &Bar { first, last: first - 1, ..bar.clone() })?;
    let bad = disordered(random, bar.log.clone());
    run.expect("a log that does not ascend", 7, &Bar { log: bad.clone(), ..bar.clone() })?;
    run.expect("row 7 before row 11", 7, &Bar { log: bad, first, last: first - 1, ..bar })?;
    Ok(())
}
