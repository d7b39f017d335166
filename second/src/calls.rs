//! The calls with the document's refusal numbers, over any values at all. Number 0 is done. A refusal answers
//! its number, counts and masks 0, and changes nothing.

use crate::entry::Entry;
use crate::signing::MARK;
use crate::sizes::{member, nodes};
use crate::{bar as bars, inbox, message, record, rehearsal as rehearsals, signing};
use crate::{Node, RawNode, RawTray, Refusal, Tray};

/// A number and one value: a length, a place, a mask or a sum.
#[derive(Clone, Copy, Debug, Default, PartialEq, Eq)]
pub struct Answer {
    pub number: u64,
    pub value: u64,
}

impl<T: TryInto<u64>> From<Result<T, Refusal>> for Answer {
    fn from(outcome: Result<T, Refusal>) -> Answer {
        match outcome {
            Ok(value) => Answer { number: 0, value: value.try_into().unwrap_or(u64::MAX) },
            Err(refusal) => Answer { number: refusal.number(), value: 0 },
        }
    }
}

/// A fresh node, or a node of zeros with the refusal number.
pub fn new(n: u64, f: u64, me: u64) -> (u64, RawNode) {
    match Node::new(n, f, me) {
        Ok(node) => (0, RawNode::from(&node)),
        Err(refusal) => (refusal.number(), RawNode::default()),
    }
}

pub fn put(tray: &mut RawTray, entry: Entry) -> u64 {
    let outcome = Tray::try_from(&*tray).and_then(|mut with| with.put(entry).map(|()| with));
    match outcome {
        Ok(with) => {
            *tray = RawTray::from(&with);
            0
        }
        Err(refusal) => refusal.number(),
    }
}

/// The place that an entry would take in a sound tray: how many entries are below it.
pub fn place(tray: &RawTray, entry: Entry) -> Answer {
    Tray::try_from(tray).map(|tray| tray.place(entry) as u64).into()
}

/// The length written into the outbox.
pub fn open(node: &mut RawNode, tray: &RawTray, outbox: &mut [u8]) -> Answer {
    fn opened(raw: &mut RawNode, tray: &RawTray, outbox: &mut [u8]) -> Result<usize, Refusal> {
        let mut node = Node::try_from(&*raw)?;
        let length = node.open(&Tray::try_from(tray)?, outbox)?;
        *raw = RawNode::from(&node);
        Ok(length)
    }
    opened(node, tray, outbox).into()
}

#[derive(Clone, Copy, Debug, Default, PartialEq, Eq)]
pub struct StepAnswer {
    pub number: u64,
    pub length: u64,
    pub unreadable: u16,
}

pub fn step(node: &mut RawNode, inbox: &[u8], outbox: &mut [u8]) -> StepAnswer {
    fn stepped(raw: &mut RawNode, inbox: &[u8], outbox: &mut [u8]) -> Result<StepAnswer, Refusal> {
        let mut node = Node::try_from(&*raw)?;
        let done = node.step(inbox, outbox)?;
        *raw = RawNode::from(&node);
        Ok(StepAnswer { number: 0, length: done.length as u64, unreadable: done.unreadable })
    }
    stepped(node, inbox, outbox).unwrap_or_else(|refusal| StepAnswer { number: refusal.number(), ..StepAnswer::default() })
}

/// The length of the new log, one place of the output an entry.
pub fn close(node: &RawNode, old: &[Entry], output: &mut [Entry]) -> Answer {
    Node::try_from(node).and_then(|node| node.close(old, output)).into()
}

/// The mask of signers.
pub fn signers(n: u64, f: u64, me: u64, mark: &[u8; MARK], slots: &[u8]) -> Answer {
    signing::signers(n, f, me, mark, slots).into()
}

/// The sum of watt-hours.
pub fn bar(log: &[Entry], meter: u16, first: u16, last: u16) -> Answer {
    bars::bar(log, meter, first, last).into()
}

/// How a record reads.
#[derive(Clone, Copy, Debug, PartialEq, Eq)]
pub enum RecordReading {
    Refused(u64),
    Unreadable,
    /// The next place counts from the start of the part that was handed in.
    Vote {
        primary: u64,
        mask: u16,
        count: u64,
        next: u64,
    },
}

pub fn read_record(n: u64, part: &[u8]) -> RecordReading {
    match nodes(n).map(|n| record::read(n, part)) {
        Err(refusal) => RecordReading::Refused(refusal.number()),
        Ok(None) => RecordReading::Unreadable,
        Ok(Some(vote)) => RecordReading::Vote {
            primary: vote.primary as u64,
            mask: vote.mask,
            count: vote.count() as u64,
            next: vote.size() as u64,
        },
    }
}

/// The batch's bytes as that part of what was handed in.
pub fn batch_bytes(n: u64, part: &[u8]) -> &[u8] {
    match nodes(n).map(|n| record::read(n, part)) {
        Ok(Some(vote)) => vote.batch,
        // "that part is empty": a part of what was handed in all the same. Its place is not said; every part has a start.
        Ok(None) | Err(_) => &part[..0],
    }
}

/// How a message reads.
#[derive(Clone, Copy, Debug, PartialEq, Eq)]
pub enum MessageReading {
    Refused(u64),
    Unreadable,
    Votes(u64),
}

pub fn read_message(n: u64, message: &[u8]) -> MessageReading {
    match nodes(n).map(|n| message::read(n, message)) {
        Err(refusal) => MessageReading::Refused(refusal.number()),
        Ok(None) => MessageReading::Unreadable,
        Ok(Some(votes)) => MessageReading::Votes(votes.len() as u64),
    }
}

/// The length of the record written.
pub fn write_record(n: u64, primary: u64, mask: u16, entries: &[Entry], output: &mut [u8]) -> Answer {
    nodes(n).and_then(|n| record::write(n, primary, mask, entries, output)).into()
}

/// The mask of the senders whose message is unreadable, never the own bit.
pub fn read_inbox(n: u64, me: u64, inbox: &[u8]) -> Answer {
    fn read(n: u64, me: u64, inbox: &[u8]) -> Result<u16, Refusal> {
        let n = nodes(n)?;
        let me = member(n, me)?;
        inbox::unreadable(n, me, inbox).ok_or(Refusal::IllCut)
    }
    read(n, me, inbox).into()
}

/// The messages of an inbox, as parts of it; none with a refusal.
pub fn cut_inbox(n: u64, inbox: &[u8]) -> (u64, Vec<&[u8]>) {
    match nodes(n).and_then(|n| inbox::cut(n, inbox).ok_or(Refusal::IllCut)) {
        Ok(messages) => (0, messages),
        Err(refusal) => (refusal.number(), Vec::new()),
    }
}

/// The length of the text written.
pub fn rehearsal(schedule: &[u8], output: &mut [u8]) -> Answer {
    let text = rehearsals::rehearse(schedule);
    let written = output.get_mut(..text.len()).ok_or(Refusal::ShortOutput);
    written.map(|place| place.copy_from_slice(&text)).map(|()| text.len()).into()
}
