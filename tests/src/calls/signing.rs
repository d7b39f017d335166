//! The signing count.

use super::call::{Answer, Call, Lent};
use super::run::{Held, Run};
use super::show;
use super::sizes::{broken_sizes, every_hall, every_n, some_sizes, Sizes, HUGE};
use crate::random::Random;
use second::calls;

const SLOT: usize = 33;

#[derive(Clone, PartialEq)]
pub struct Signers {
    pub sizes: Sizes,
    pub mark: [u8; 32],
    pub slots: Vec<u8>,
}

impl Call for Signers {
    const NAME: &'static str = "signers";
    const VALUES: &'static [&'static str] = &["mask"];
    const ROWS: &'static [u64] = &[1, 4, 10];

    fn lent(&self) -> Lent {
        Lent::default()
    }

    fn proved(&self, _: &mut Lent) -> Answer {
        let Sizes { n, f, me } = self.sizes;
        let count = raudokiin::calls::signers(n as usize, f as usize, me as usize, &self.mark, &self.slots);
        Answer::new(count.number, &[count.mask.into()])
    }

    fn second(&self, _: &mut Lent) -> Answer {
        let Sizes { n, f, me } = self.sizes;
        let count = calls::signers(n, f, me, &self.mark, &self.slots);
        Answer::new(count.number, &[count.value])
    }

    fn smaller(&self) -> Vec<Signers> {
        let silent = |slot: usize| {
            let mut slots = self.slots.clone();
            slots[slot * SLOT..(slot + 1) * SLOT].fill(0);
            Signers { slots, ..self.clone() }
        };
        (0..self.slots.len() / SLOT).map(silent).filter(|smaller| smaller.slots != self.slots).collect()
    }

    fn show(&self) -> String {
        format!("{:?}\n  mark {}\n  slots {}", self.sizes, show::bytes(&self.mark), show::bytes(&self.slots))
    }
}

/// A slot of this first byte and mark.
fn slot(first: u8, mark: &[u8; 32]) -> Vec<u8> {
    [&[first][..], mark].concat()
}

fn some_mark(random: &mut Random) -> [u8; 32] {
    if random.chance(30) {
        return [random.below(3) as u8; 32];
    }
    std::array::from_fn(|_| random.any() as u8)
}

/// Speaks with the mark, speaks with one bit of it changed, does not speak, or holds anything.
fn some_slot(random: &mut Random, mark: &[u8; 32]) -> Vec<u8> {
    match random.below(8) {
        0..=3 => slot(1, mark),
        4 => {
            let mut other = *mark;
            other[random.below(32)] ^= 1 << random.below(8);
            slot(1, &other)
        }
        5 => slot(*random.pick(&[0, 2, 3, 128, 129, 254, 255]), mark),
        6 => slot(0, &[0; 32]),
        _ => (0..SLOT).map(|_| random.any() as u8).collect(),
    }
}

/// All sizes with slots of every length around 33 × n; exactly f and f + 1 signers in every hall; every first byte; every
/// byte of the mark.
pub fn boundaries(run: &mut Run) -> Held {
    let mark = std::array::from_fn(|place| place as u8);
    for n in every_n() {
        for f in (0..=8).chain(HUGE) {
            for me in [0, 1, 15, 16, 17, u64::MAX] {
                let slots = slot(1, &mark).repeat(n.min(18) as usize);
                run.hold("every n, f and own number", &Signers { sizes: Sizes { n, f, me }, mark, slots })?;
            }
        }
    }
    for sizes in every_hall() {
        for signing in 0..=sizes.n {
            let spoken = |node: u64| slot(if node < signing { 1 } else { 0 }, &mark);
            let slots: Vec<u8> = (0..sizes.n).flat_map(spoken).collect();
            let enough = signing + u64::from(sizes.me >= signing) > sizes.f;
            run.expect("each number of signers", if enough { 0 } else { 10 }, &Signers { sizes, mark, slots: slots.clone() })?;
            for cut in [1, SLOT] {
                let short = slots[..slots.len() - cut].to_vec();
                run.expect("slots too short", 4, &Signers { sizes, mark, slots: short })?;
                let long = [slots.clone(), slot(1, &mark)[..cut].to_vec()].concat();
                run.expect("slots too long", 4, &Signers { sizes, mark, slots: long })?;
            }
        }
    }
    bytes_of_slots(run, mark)
}

fn bytes_of_slots(run: &mut Run, mark: [u8; 32]) -> Held {
    let sizes = Sizes { n: 3, f: 1, me: 1 };
    let with = |other: Vec<u8>, own: Vec<u8>| Signers { sizes, mark, slots: [other, own, slot(0, &mark)].concat() };
    for first in 0..=255 {
        let number = if first == 1 { 0 } else { 10 };
        run.expect("every first byte", number, &with(slot(first, &mark), slot(1, &mark)))?;
        run.expect("every first byte of the own slot", 0, &with(slot(1, &mark), slot(first, &mark)))?;
    }
    for place in 0..32 {
        let mut other = mark;
        other[place] ^= 0x10;
        run.expect("every byte of the mark", 10, &with(slot(1, &other), slot(1, &mark)))?;
        run.expect("every byte of the own slot's mark", 0, &with(slot(1, &mark), slot(1, &other)))?;
    }
    Ok(())
}

pub fn compare(run: &mut Run, random: &mut Random, _: usize) -> Held {
    let sizes = some_sizes(random);
    let mark = some_mark(random);
    let slots: Vec<u8> = (0..sizes.n).flat_map(|_| some_slot(random, &mark)).collect();
    let signers = Signers { sizes, mark, slots };
    run.hold("slots of all kinds", &signers)?;
    let few = vec![0; SLOT * sizes.n as usize];
    run.expect("nobody else speaks", if sizes.f == 0 { 0 } else { 10 }, &Signers { slots: few.clone(), ..signers.clone() })?;
    let length = *random.pick(&[0, 1, few.len() - 1, few.len() + 1, few.len() + SLOT, few.len() - SLOT, 33 * 17]);
    let ill = vec![1; length];
    run.expect("row 4 before row 10", 4, &Signers { slots: ill.clone(), ..signers.clone() })?;
    let sizes = broken_sizes(random);
    run.expect("sizes that are broken", 1, &Signers { sizes, ..signers.clone() })?;
    run.expect("row 1 before rows 4 and 10", 1, &Signers { sizes, slots: ill, ..signers })?;
    Ok(())
}
