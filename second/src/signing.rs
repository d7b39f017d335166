//! Signers are the node itself and every other node whose slot speaks with an equal mark.

use crate::sizes::{bit, member, Sizes};
use crate::Refusal;

pub const MARK: usize = 32;
/// A slot is one byte and a mark.
pub const SLOT: usize = 1 + MARK;

/// A slot speaks when its first byte is 1.
const SPEAKS: u8 = 1;

pub fn signers(n: u64, f: u64, me: u64, mark: &[u8; MARK], slots: &[u8]) -> Result<u16, Refusal> {
    let sizes = Sizes::new(n, f)?;
    let me = member(sizes.n, me)?;
    if slots.len() != SLOT * sizes.n {
        return Err(Refusal::IllCut);
    }
    let signs = |(node, slot): (usize, &[u8])| node == me || (slot[0] == SPEAKS && slot[1..] == mark[..]);
    let mask = slots.chunks_exact(SLOT).enumerate().filter(|&slot| signs(slot)).map(|(node, _)| bit(node)).sum::<u16>();
    if (mask.count_ones() as usize) < sizes.f + 1 {
        return Err(Refusal::FewSigners);
    }
    Ok(mask)
}
