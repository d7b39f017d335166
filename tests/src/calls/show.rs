//! Inputs and outcomes in words, and inputs made smaller.

use second::{RawBatch, RawKept, RawNode, RawTray};

/// So many elements are shown of a long list.
const MOST: usize = 160;

pub fn bytes(bytes: &[u8]) -> String {
    let text: String = bytes.iter().take(MOST).map(|byte| format!("{byte:02x}")).collect();
    let more = if bytes.len() > MOST { ".." } else { "" };
    format!("{} bytes [{text}{more}]", bytes.len())
}

pub fn entries(entries: &[u64]) -> String {
    let text: Vec<String> = entries.iter().take(MOST / 4).map(|entry| format!("{entry:#x}")).collect();
    let more = if entries.len() > MOST / 4 { ", .." } else { "" };
    format!("{} entries [{}{more}]", entries.len(), text.join(", "))
}

/// The count and the places up to the last that is not zero.
fn places(count: u64, entries: &[u64; 16]) -> String {
    let used = entries.iter().rposition(|&entry| entry != 0).map_or(0, |last| last + 1);
    let text: Vec<String> = entries[..used].iter().map(|entry| format!("{entry:#x}")).collect();
    format!("{count}:[{}]", text.join(", "))
}

pub fn tray(tray: &RawTray) -> String {
    places(tray.count, &tray.entries)
}

fn batch(batch: &RawBatch) -> String {
    places(batch.count, &batch.entries)
}

pub fn node(node: &RawNode) -> String {
    let mut text = format!("n={} f={} me={} phase={} own={}", node.n, node.f, node.me, node.phase, batch(&node.own));
    for (primary, kept) in node.kept.iter().enumerate().filter(|(_, kept)| **kept != RawKept::default()) {
        text += &format!(" kept[{primary}]={} of {} {}", kept.count, batch(&kept.first), batch(&kept.second));
    }
    text
}

/// The list without one of its pieces, the pieces from halves down to single elements.
pub fn cuts<T: Clone>(list: &[T]) -> Vec<Vec<T>> {
    let mut all = Vec::new();
    let mut size = list.len().div_ceil(2);
    while size > 0 && all.len() < 200 {
        for start in (0..list.len()).step_by(size) {
            let end = list.len().min(start + size);
            all.push([&list[..start], &list[end..]].concat());
        }
        size /= 2;
    }
    all
}

/// Smaller numbers.
pub fn lower(number: u64) -> Vec<u64> {
    let mut all = vec![0, number / 2, number.saturating_sub(1)];
    all.retain(|&lower| lower < number);
    all.dedup();
    all
}

pub fn lower_room(room: usize) -> Vec<usize> {
    lower(room as u64).into_iter().map(|room| room as usize).collect()
}

/// The state with something of it empty.
pub fn smaller_nodes(node: &RawNode) -> Vec<RawNode> {
    let mut all = vec![RawNode { own: RawBatch::default(), ..*node }];
    for primary in 0..node.kept.len() {
        for kept in [RawKept::default(), RawKept { count: 1, second: RawBatch::default(), ..node.kept[primary] }] {
            let mut smaller = *node;
            smaller.kept[primary] = kept;
            all.push(smaller);
        }
    }
    all.retain(|smaller| weight(smaller) < weight(node));
    all
}

fn weight(node: &RawNode) -> usize {
    let kept: usize =
        node.kept.iter().map(|kept| nonzero(kept.count) + places_used(&kept.first) + places_used(&kept.second)).sum();
    kept + places_used(&node.own)
}

fn nonzero(number: u64) -> usize {
    usize::from(number != 0)
}

fn places_used(batch: &RawBatch) -> usize {
    nonzero(batch.count) + batch.entries.iter().filter(|&&entry| entry != 0).count()
}
