//! The fresh node and its opening.

use super::call::{Answer, Call, Lent};
use super::library;
use super::run::{Held, Run};
use super::show;
use super::sizes::{broken_sizes, every_hall, every_n, some_sizes, Sizes, HUGE};
use super::states::{breaches, Scene};
use super::trays::{some_tray, tray_of, unsound_tray, BATCH_CLAUSES};
use crate::random::Random;
use second::{calls, RawNode, RawTray};

#[derive(Clone, PartialEq)]
pub struct New(pub Sizes);

impl Call for New {
    const NAME: &'static str = "new";
    const VALUES: &'static [&'static str] = &[];
    const ROWS: &'static [u64] = &[1];

    /// A refused fresh node is a node of zeros.
    fn lent(&self) -> Lent {
        Lent::node(&RawNode::default())
    }

    fn proved(&self, lent: &mut Lent) -> Answer {
        let made = raudokiin::calls::new(self.0.n as usize, self.0.f as usize, self.0.me as usize);
        *lent.lent_node() = library::node(&made.node);
        Answer::new(made.number, &[])
    }

    fn second(&self, lent: &mut Lent) -> Answer {
        let (number, node) = calls::new(self.0.n, self.0.f, self.0.me);
        *lent.lent_node() = node;
        Answer::new(number, &[])
    }

    fn smaller(&self) -> Vec<New> {
        let Sizes { n, f, me } = self.0;
        let n_lower = show::lower(n).into_iter().map(|n| New(Sizes { n, ..self.0 }));
        let f_lower = show::lower(f).into_iter().map(|f| New(Sizes { f, ..self.0 }));
        let me_lower = show::lower(me).into_iter().map(|me| New(Sizes { me, ..self.0 }));
        n_lower.chain(f_lower).chain(me_lower).collect()
    }

    fn show(&self) -> String {
        format!("{:?}", self.0)
    }
}

#[derive(Clone, PartialEq)]
pub struct Open {
    pub node: RawNode,
    pub tray: RawTray,
    pub room: usize,
}

impl Call for Open {
    const NAME: &'static str = "open";
    const VALUES: &'static [&'static str] = &["length"];
    const ROWS: &'static [u64] = &[2, 3, 9];

    fn lent(&self) -> Lent {
        Lent::node(&self.node).with_bytes(self.room)
    }

    fn proved(&self, lent: &mut Lent) -> Answer {
        let opened = raudokiin::calls::open(library::block(&self.node), library::lent_tray(&self.tray), lent.lent_bytes());
        *lent.lent_node() = library::node(&opened.node);
        Answer::new(opened.number, &[opened.length as u64])
    }

    fn second(&self, lent: &mut Lent) -> Answer {
        let (node, outbox) = lent.node_and_bytes();
        let opened = calls::open(node, &self.tray, outbox);
        Answer::new(opened.number, &[opened.value])
    }

    fn smaller(&self) -> Vec<Open> {
        let nodes = show::smaller_nodes(&self.node).into_iter().map(|node| Open { node, ..self.clone() });
        let rooms = show::lower_room(self.room).into_iter().map(|room| Open { room, ..self.clone() });
        nodes
            .chain(rooms)
            .chain([Open { tray: RawTray::default(), ..self.clone() }].into_iter().filter(|_| self.tray.count > 0))
            .collect()
    }

    fn show(&self) -> String {
        format!("node {}\n  tray {}\n  room for {} bytes", show::node(&self.node), show::tray(&self.tray), self.room)
    }
}

/// Every n with every f and own number, in size and out of it.
pub fn new_boundaries(run: &mut Run) -> Held {
    for n in every_n() {
        for f in (0..=9).chain(HUGE) {
            for me in (0..=17).chain(HUGE) {
                run.hold("every n, f and own number", &New(Sizes { n, f, me }))?;
            }
        }
    }
    Ok(())
}

pub fn compare_new(run: &mut Run, random: &mut Random, _: usize) -> Held {
    run.expect("sizes that are kept", 0, &New(some_sizes(random)))?;
    run.expect("sizes that are broken", 1, &New(broken_sizes(random)))?;
    let any = Sizes { n: random.any(), f: random.any(), me: random.any() };
    run.hold("any numbers", &New(any))?;
    Ok(())
}

/// Every phase of every hall, f + 3 included; an outbox of each length for each count of the tray.
pub fn open_boundaries(run: &mut Run) -> Held {
    let mut random = Random::new(0);
    for sizes in every_hall() {
        for phase in 0..=sizes.f + 3 {
            let number = if phase > sizes.f + 2 { 2 } else { 3 * u64::from(phase > 0) };
            let node = Scene::new(&mut random, sizes, phase).state(&mut random);
            for room in [132, 0] {
                let number = if room == 0 && number == 0 { 9 } else { number };
                run.expect("every phase", number, &Open { node, tray: some_tray(&mut random), room })?;
            }
        }
    }
    for count in 0..=16u64 {
        let tray = tray_of(&(0..count).map(|entry| entry << 33 | entry).collect::<Vec<_>>());
        let size = 4 + 8 * count as usize;
        for room in 0..=size + 3 {
            let node = RawNode { n: 16, f: 7, me: count.min(15), ..RawNode::default() };
            run.expect("an outbox of each length", if room < size { 9 } else { 0 }, &Open { node, tray, room })?;
        }
    }
    Ok(())
}

pub fn compare_open(run: &mut Run, random: &mut Random, turn: usize) -> Held {
    let scene = Scene::some(random, |_, _| 0);
    let fresh = Open { node: scene.state(random), tray: some_tray(random), room: 132 + random.below(9) };
    run.expect("a fresh node", 0, &fresh)?;
    let size = 4 + 8 * fresh.tray.count as usize;
    run.expect("an outbox too short", 9, &Open { room: random.below(size), ..fresh.clone() })?;
    let later = Scene::some(random, |random, f| random.between(1, f as usize + 2) as u64).state(random);
    run.expect("outside phase 0", 3, &Open { node: later, ..fresh.clone() })?;
    run.expect("row 3 before row 9", 3, &Open { node: later, room: random.below(4), ..fresh.clone() })?;
    let clause = &BATCH_CLAUSES[turn % BATCH_CLAUSES.len()];
    let tray = unsound_tray(random, clause);
    run.expect(clause.0, 2, &Open { tray, ..fresh.clone() })?;
    run.expect("an unsound tray: row 2 before rows 3 and 9", 2, &Open { node: later, tray, room: 0 })?;
    let all = breaches();
    let breach = all[turn % all.len()];
    let sound = if random.chance(50) { fresh.node } else { later };
    if let Some(node) = breach.of(random, &sound) {
        run.expect(breach.name(), 2, &Open { node, room: if random.chance(20) { 0 } else { 200 }, ..fresh })?;
    }
    Ok(())
}
