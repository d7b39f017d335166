//! States and trays as libhost.a takes them: blocks of numbers, in the order in which the second program names them.

use raudokiin::{Node, Tray};
use second::{RawBatch, RawKept, RawNode, RawTray};
use std::iter::once;

const WORD: usize = 8;

fn batch_words(batch: &RawBatch) -> impl Iterator<Item = u64> + '_ {
    once(batch.count).chain(batch.entries)
}

fn kept_words(kept: &RawKept) -> impl Iterator<Item = u64> + '_ {
    once(kept.count).chain(batch_words(&kept.first)).chain(batch_words(&kept.second))
}

/// The block of a node.
pub fn block(node: &RawNode) -> Node {
    let numbers = [node.n, node.f, node.me, node.phase];
    let words = numbers.into_iter().chain(batch_words(&node.own)).chain(node.kept.iter().flat_map(kept_words));
    let mut bytes = [0; Node::SIZE];
    for (place, word) in bytes.chunks_exact_mut(WORD).zip(words) {
        place.copy_from_slice(&word.to_ne_bytes());
    }
    Node::from_bytes(&bytes)
}

fn batch_from(words: &mut impl Iterator<Item = u64>) -> Option<RawBatch> {
    let mut batch = RawBatch { count: words.next()?, ..RawBatch::default() };
    for entry in &mut batch.entries {
        *entry = words.next()?;
    }
    Some(batch)
}

fn node_from(words: &mut impl Iterator<Item = u64>) -> Option<RawNode> {
    let (n, f, me, phase) = (words.next()?, words.next()?, words.next()?, words.next()?);
    let mut node = RawNode { n, f, me, phase, own: batch_from(words)?, ..RawNode::default() };
    for kept in &mut node.kept {
        *kept = RawKept { count: words.next()?, first: batch_from(words)?, second: batch_from(words)? };
    }
    Some(node)
}

/// The node of a block.
pub fn node(block: &Node) -> RawNode {
    let bytes = block.to_bytes();
    let mut words = bytes.chunks_exact(WORD).map(|word| u64::from_ne_bytes(word.try_into().expect("eight bytes")));
    node_from(&mut words).expect("a block has 581 numbers")
}

pub fn lent_tray(tray: &RawTray) -> Tray {
    Tray { count: tray.count as usize, entries: tray.entries }
}

pub fn tray(lent: &Tray) -> RawTray {
    RawTray { count: lent.count as u64, entries: lent.entries }
}
