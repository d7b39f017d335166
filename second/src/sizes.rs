//! n nodes, 1 to 16, numbered from 0; f with 2f < n.

use crate::Refusal;

pub const MOST_NODES: usize = 16;
pub const MOST_IN_BATCH: usize = 16;
pub const MOST_IN_LOG: usize = 4096;
/// 15 primaries × 2 records × 132 bytes.
pub const MOST_IN_MESSAGE: usize = 3960;

/// An n and an f that keep the sizes.
#[derive(Clone, Copy, Debug, PartialEq, Eq)]
pub struct Sizes {
    pub n: usize,
    pub f: usize,
}

impl Sizes {
    pub fn new(n: u64, f: u64) -> Result<Sizes, Refusal> {
        let n = nodes(n)?;
        match usize::try_from(f) {
            Ok(f) if f < n && 2 * f < n => Ok(Sizes { n, f }),
            _ => Err(Refusal::Sizes),
        }
    }

    /// The rounds are numbered 1 to f + 1.
    pub fn last_round(self) -> usize {
        self.f + 1
    }

    /// The phase in which the rounds are over.
    pub fn over(self) -> usize {
        self.f + 2
    }
}

/// A number of nodes, for those calls that are handed n alone.
pub fn nodes(n: u64) -> Result<usize, Refusal> {
    match usize::try_from(n) {
        Ok(n) if (1..=MOST_NODES).contains(&n) => Ok(n),
        _ => Err(Refusal::Sizes),
    }
}

/// The number of one of n nodes.
pub fn member(n: usize, node: u64) -> Result<usize, Refusal> {
    match usize::try_from(node) {
        Ok(node) if node < n => Ok(node),
        _ => Err(Refusal::Sizes),
    }
}

/// Bit j of a mask, for node j.
pub fn bit(node: usize) -> u16 {
    1 << node
}

/// No bit n or above is set.
pub fn within(n: usize, mask: u16) -> bool {
    (n..MOST_NODES).all(|node| mask & bit(node) == 0)
}
