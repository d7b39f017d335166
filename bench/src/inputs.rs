//! What the calls are handed: a hall of sixteen nodes with sixteen meters each, one reading a meter and an interval.
use crate::plain;
use raudokiin::{calls, entry, Node, Tray, BATCH_MOST, MESSAGE_MOST, NODES_MOST, RECORD_MOST};
use second::{RawBatch, RawKept, RawNode};

/// The meters of a hall.
pub const METERS: usize = NODES_MOST * BATCH_MOST;
/// The interval that the nodes' batches are of; the old log has those before it.
pub const NOW: usize = 15;

fn reading(meter: usize, interval: usize) -> u64 {
    entry(meter as u16, interval as u16, 1000 + (7 * meter + interval) as u32)
}

/// The readings of a node's meters, of now or of the interval after it.
pub fn batch_of(primary: usize, which: usize) -> [u64; BATCH_MOST] {
    std::array::from_fn(|i| reading(BATCH_MOST * primary + i, NOW + which))
}

/// The readings of now where a node's meters do not stand together: those of every other node lie between them.
pub fn spread_batch_of(primary: usize) -> [u64; BATCH_MOST] {
    std::array::from_fn(|i| reading(NODES_MOST * i + primary, NOW))
}

/// A log with the readings of every meter in so many intervals.
pub fn log_of(intervals: usize) -> Vec<u64> {
    (0..METERS).flat_map(|meter| (0..intervals).map(move |interval| reading(meter, interval))).collect()
}

/// A log with one meter's readings alone.
pub fn log_of_one_meter(length: usize) -> Vec<u64> {
    (0..length).map(|interval| reading(0, interval)).collect()
}

pub fn tray_of(entries: &[u64]) -> Tray {
    let mut tray = Tray::default();
    for &entry in entries {
        assert_eq!(calls::put(&mut tray, entry), 0);
    }
    tray
}

pub fn record_of(n: usize, primary: usize, mask: u16, entries: &[u64]) -> Vec<u8> {
    let mut record = vec![0; RECORD_MOST];
    let written = calls::write_record(n, primary, mask, entries, &mut record);
    assert_eq!(written.number, 0);
    record.truncate(written.size);
    record
}

/// What full messages say, two records of sixteen entries for each primary.
#[derive(Clone, Copy)]
pub enum Says {
    /// The same two batches of a primary from everyone: the first message fills what is kept.
    Two,
    /// One batch of a primary, twice: every record is compared with the batch kept.
    OneTwice,
}

/// 3,960 bytes: thirty records, over the primaries from the sender on.
pub fn full_message(n: usize, sender: usize, says: Says) -> Vec<u8> {
    let record = |i: usize| {
        let primary = (sender + i / 2) % n;
        let which = match says {
            Says::Two => i % 2,
            Says::OneTwice => 0,
        };
        record_of(n, primary, 1 << primary | 1 << sender, &batch_of(primary, which))
    };
    let message: Vec<u8> = (0..MESSAGE_MOST / RECORD_MOST).flat_map(record).collect();
    assert_eq!(message.len(), MESSAGE_MOST);
    message
}

/// Messages by sender, each after its length in two bytes.
pub fn inbox_of<'a>(messages: impl IntoIterator<Item = &'a [u8]>) -> Vec<u8> {
    let mut inbox = Vec::new();
    for message in messages {
        inbox.extend((message.len() as u16).to_le_bytes());
        inbox.extend(message);
    }
    inbox
}

/// A full message from everyone but the node itself.
pub fn full_inbox(n: usize, me: usize, says: Says) -> Vec<u8> {
    let messages: Vec<Vec<u8>> = (0..n).map(|sender| if sender == me { Vec::new() } else { full_message(n, sender, says) }).collect();
    inbox_of(messages.iter().map(Vec::as_slice))
}

/// The last of n nodes after its opening; as many may be faulty as the sizes allow.
pub fn opened(n: usize, batch: [u64; BATCH_MOST]) -> Node {
    let mut node = Node::new(n, (n - 1) / 2, n - 1).unwrap();
    node.open(&tray_of(&batch), &mut [0; RECORD_MOST]).unwrap();
    node
}

/// The last of sixteen nodes after its rounds: it decided these batches.
pub fn decided(batch: impl Fn(usize) -> [u64; BATCH_MOST]) -> Node {
    let mut node = opened(NODES_MOST, batch(NODES_MOST - 1));
    let openings: Vec<Vec<u8>> = (0..NODES_MOST).map(|primary| record_of(NODES_MOST, primary, 1 << primary, &batch(primary))).collect();
    let mut inbox = inbox_of(openings.iter().map(Vec::as_slice));
    for _ in 0..8 {
        node.step(&inbox, &mut [0; MESSAGE_MOST]).unwrap();
        inbox = vec![0; 2 * NODES_MOST];
    }
    node
}

/// The numbers of a node's block, one after the other.
fn numbers_of(node: &Node) -> impl Iterator<Item = u64> {
    let bytes = node.to_bytes();
    (0..Node::SIZE / 8).map(move |i| u64::from_ne_bytes(bytes[8 * i..8 * i + 8].try_into().unwrap()))
}

/// The same state for the second program.
pub fn raw_of(node: &Node) -> RawNode {
    fn batch(numbers: &mut impl Iterator<Item = u64>) -> RawBatch {
        RawBatch { count: numbers.next().unwrap(), entries: std::array::from_fn(|_| numbers.next().unwrap()) }
    }
    let mut rest = numbers_of(node);
    let [n, f, me, phase] = std::array::from_fn(|_| rest.next().unwrap());
    let own = batch(&mut rest);
    let kept = std::array::from_fn(|_| RawKept { count: rest.next().unwrap(), first: batch(&mut rest), second: batch(&mut rest) });
    RawNode { n, f, me, phase, own, kept }
}

/// The same state for the plain loop.
pub fn plain_of(node: &Node) -> plain::State {
    fn batch(numbers: &mut impl Iterator<Item = u64>) -> plain::Batch {
        plain::Batch { count: numbers.next().unwrap() as usize, entries: std::array::from_fn(|_| numbers.next().unwrap()) }
    }
    let mut rest = numbers_of(node);
    let [n, f, me, phase] = std::array::from_fn(|_| rest.next().unwrap() as usize);
    let own = batch(&mut rest);
    let kept = std::array::from_fn(|_| plain::Kept { count: rest.next().unwrap() as usize, batches: std::array::from_fn(|_| batch(&mut rest)) });
    plain::State { n, f, me, phase, own, kept }
}
