//! Numbers of nodes, of faulty nodes, and own numbers: those that keep the sizes, and those that break them.

use crate::random::Random;

/// Numbers that no size takes. Twice 2^63 wraps to 0, and each of some others is small in its low bits.
pub const HUGE: [u64; 9] = [18, 255, 257, 65_536 + 3, 1 << 32, (1 << 32) + 3, 1 << 63, (1 << 63) + 1, u64::MAX];

/// n from 0 to 17 and huge.
pub fn every_n() -> impl Iterator<Item = u64> {
    (0..=17).chain(HUGE)
}

/// n, f and an own number that keep the sizes.
#[derive(Clone, Copy, Debug, PartialEq, Eq)]
pub struct Sizes {
    pub n: u64,
    pub f: u64,
    pub me: u64,
}

/// Every n with every f that it takes, and an own number that goes round with them.
pub fn every_hall() -> impl Iterator<Item = Sizes> {
    let pairs = (1..=16).flat_map(|n| (0..n).filter(move |f| 2 * f < n).map(move |f| (n, f)));
    pairs.enumerate().map(|(turn, (n, f))| Sizes { n, f, me: turn as u64 % n })
}

pub fn some_sizes(random: &mut Random) -> Sizes {
    let n = random.between(1, 16) as u64;
    let f = if random.chance(40) { (n - 1) / 2 } else { random.below((n as usize).div_ceil(2)) as u64 };
    Sizes { n, f, me: random.below(n as usize) as u64 }
}

/// One of the three breaks the sizes.
pub fn broken_sizes(random: &mut Random) -> Sizes {
    let sizes = some_sizes(random);
    match random.below(4) {
        0 => Sizes { n: *random.pick(&[0, 17]), ..sizes },
        1 => Sizes { n: *random.pick(&HUGE), ..sizes },
        2 => Sizes { f: *random.pick(&[sizes.n.div_ceil(2), sizes.n, 1 << 63, u64::MAX]), ..sizes },
        _ => Sizes { me: *random.pick(&[sizes.n, sizes.n + 1, 1 << 32, u64::MAX]), ..sizes },
    }
}

/// The mask of all n nodes.
pub fn all_bits(n: u64) -> u16 {
    ((1u32 << n) - 1) as u16
}
