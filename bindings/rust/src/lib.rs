//! The calls of a Logres log node for Rust hosts, over the proved library libhost.a (`rt lib` in crates/host).
//!
//! What each call does, and what a host owes beside memory (the key card's checks, the order to sign, well-cut inboxes), stands in
//! `bindings/c/raudokiin.h`. Here borrows see to it that a lent output overlaps no input. [`calls`] has each call with its whole answer in numbers; the
//! types below wrap them as Rust is used to: a refusal is an `Err`.
pub mod calls;
pub mod ffi;

pub use ffi::{Node, Tray};

/// Nodes of a hall, at most.
pub const NODES_MOST: usize = 16;
/// Entries of a batch, at most.
pub const BATCH_MOST: usize = 16;
/// Entries of a log, at most.
pub const LOG_MOST: usize = 4096;
/// Bytes of a record, at most.
pub const RECORD_MOST: usize = 132;
/// Bytes of a message, at most.
pub const MESSAGE_MOST: usize = 3960;
/// Bytes of a log mark.
pub const MARK_SIZE: usize = 32;
/// Bytes of a slot: 1 where it speaks, then a mark.
pub const SLOT_SIZE: usize = 33;

/// A refusal's number, 1 to 11.
#[derive(Clone, Copy, PartialEq, Eq, Debug)]
pub struct Refusal(pub u8);

fn unless_refused<T>(number: u8, value: T) -> Result<T, Refusal> {
    if number == 0 {
        Ok(value)
    } else {
        Err(Refusal(number))
    }
}

/// An entry: meter, interval, watt-hours.
pub fn entry(meter: u16, interval: u16, watt_hours: u32) -> u64 {
    u64::from(meter) << 48 | u64::from(interval) << 32 | u64::from(watt_hours)
}

impl Tray {
    /// Puts an entry at its place.
    pub fn put(&mut self, entry: u64) -> Result<(), Refusal> {
        unless_refused(calls::put(self, entry), ())
    }
}

/// What a step tells beside the node and the outbox.
#[derive(Clone, Copy, PartialEq, Eq, Debug)]
pub struct Stepped {
    /// How much of the outbox is to be sent.
    pub length: usize,
    /// The senders whose message was unreadable.
    pub unreadable: u16,
}

impl Node {
    /// Bytes of a node's block.
    pub const SIZE: usize = 4648;

    /// A fresh node.
    pub fn new(n: usize, f: usize, me: usize) -> Result<Node, Refusal> {
        let made = calls::new(n, f, me);
        unless_refused(made.number, made.node)
    }

    /// Opens with the tray's entries; how much of the outbox is to be sent in round 1. The node stays as it is where it is refused.
    pub fn open(&mut self, tray: &Tray, outbox: &mut [u8]) -> Result<usize, Refusal> {
        let opened = calls::open(*self, *tray, outbox);
        *self = opened.node;
        unless_refused(opened.number, opened.length)
    }

    /// Takes the next round. The node stays as it is where it is refused.
    pub fn step(&mut self, inbox: &[u8], outbox: &mut [u8]) -> Result<Stepped, Refusal> {
        let stepped = calls::step(*self, inbox, outbox);
        *self = stepped.node;
        unless_refused(stepped.number, Stepped { length: stepped.length, unreadable: stepped.unreadable })
    }

    /// The new log, over the front of the output; its length.
    pub fn close(&self, old: &[u64], output: &mut [u64]) -> Result<usize, Refusal> {
        let closed = calls::close(*self, old, output);
        unless_refused(closed.number, closed.length)
    }

    /// The block's bytes, to be stored.
    pub fn to_bytes(&self) -> [u8; Node::SIZE] {
        let mut bytes = [0; Node::SIZE];
        for (place, number) in bytes.chunks_exact_mut(8).zip(self.block) {
            place.copy_from_slice(&number.to_ne_bytes());
        }
        bytes
    }

    /// A block from bytes that were stored, or from any others: a call refuses it by 2 unless it is a sound state.
    pub fn from_bytes(bytes: &[u8; Node::SIZE]) -> Node {
        let mut block = [0; 581];
        for (number, place) in block.iter_mut().zip(bytes.chunks_exact(8)) {
            *number = u64::from_ne_bytes(place.try_into().expect("eight bytes"));
        }
        Node { block }
    }
}

/// The signers of the own mark.
pub fn signers(n: usize, f: usize, me: usize, mark: &[u8; MARK_SIZE], slots: &[u8]) -> Result<u16, Refusal> {
    let count = calls::signers(n, f, me, mark, slots);
    unless_refused(count.number, count.mask)
}

/// The watt-hours of a meter from one interval to another, both included.
pub fn bar(log: &[u64], meter: u16, first: u16, last: u16) -> Result<u64, Refusal> {
    let bar = calls::bar(log, meter, first, last);
    unless_refused(bar.number, bar.sum)
}

/// A readable record: its vote, and where the next one starts.
#[derive(Clone, Copy, PartialEq, Eq, Debug)]
pub struct Vote {
    pub primary: usize,
    pub mask: u16,
    pub count: usize,
    pub next: usize,
}

/// What a part of a message starts with; `None` where it is unreadable.
pub fn read_record(n: usize, part: &[u8]) -> Result<Option<Vote>, Refusal> {
    let told = calls::read_record(n, part);
    let vote = Vote { primary: told.primary, mask: told.mask, count: told.count, next: told.next };
    unless_refused(told.number, told.readable.then_some(vote))
}

/// The entries' bytes of that record, as that part of the caller's own; empty where it is unreadable or refused.
pub fn batch_bytes(n: usize, part: &[u8]) -> &[u8] {
    let batch = calls::batch_bytes(n, part);
    &part[batch.start..batch.start + batch.size]
}

/// How many votes a message says; `None` where it is unreadable.
pub fn read_message(n: usize, message: &[u8]) -> Result<Option<usize>, Refusal> {
    let told = calls::read_message(n, message);
    unless_refused(told.number, told.readable.then_some(told.votes))
}

/// Writes one vote as one record; its size.
pub fn write_record(n: usize, primary: usize, mask: u16, entries: &[u64], output: &mut [u8]) -> Result<usize, Refusal> {
    let told = calls::write_record(n, primary, mask, entries, output);
    unless_refused(told.number, told.size)
}

/// The senders, the own left out, whose message is unreadable.
pub fn read_inbox(n: usize, me: usize, inbox: &[u8]) -> Result<u16, Refusal> {
    let heard = calls::read_inbox(n, me, inbox);
    unless_refused(heard.number, heard.unreadable)
}
