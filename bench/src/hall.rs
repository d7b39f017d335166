//! A hall of sixteen nodes in one process, run by either program through the same host.
use crate::inputs::{batch_of, inbox_of, log_of, record_of, tray_of, METERS, NOW};
use raudokiin::{Node, Tray, BATCH_MOST, LOG_MOST, MARK_SIZE, MESSAGE_MOST, NODES_MOST, RECORD_MOST};
use second::{calls as seconds, RawNode, RawTray};

const F: usize = 7;

/// What a host calls of a program; every call is done.
pub trait Program {
    type Node;
    fn new(me: usize) -> Self::Node;
    fn open(node: &mut Self::Node, tray: &Tray, outbox: &mut [u8]) -> usize;
    fn step(node: &mut Self::Node, inbox: &[u8], outbox: &mut [u8]) -> usize;
    fn close(node: &Self::Node, old: &[u64], output: &mut [u64]) -> usize;
    fn signers(me: usize, mark: &[u8; MARK_SIZE], slots: &[u8]) -> u16;
}

pub struct Proved;

impl Program for Proved {
    type Node = Node;

    fn new(me: usize) -> Node {
        Node::new(NODES_MOST, F, me).unwrap()
    }

    fn open(node: &mut Node, tray: &Tray, outbox: &mut [u8]) -> usize {
        node.open(tray, outbox).unwrap()
    }

    fn step(node: &mut Node, inbox: &[u8], outbox: &mut [u8]) -> usize {
        node.step(inbox, outbox).unwrap().length
    }

    fn close(node: &Node, old: &[u64], output: &mut [u64]) -> usize {
        node.close(old, output).unwrap()
    }

    fn signers(me: usize, mark: &[u8; MARK_SIZE], slots: &[u8]) -> u16 {
        raudokiin::signers(NODES_MOST, F, me, mark, slots).unwrap()
    }
}

pub struct Second;

fn done(answer: seconds::Answer) -> u64 {
    assert_eq!(answer.number, 0);
    answer.value
}

impl Program for Second {
    type Node = RawNode;

    fn new(me: usize) -> RawNode {
        let (number, node) = seconds::new(NODES_MOST as u64, F as u64, me as u64);
        assert_eq!(number, 0);
        node
    }

    fn open(node: &mut RawNode, tray: &Tray, outbox: &mut [u8]) -> usize {
        done(seconds::open(node, &RawTray { count: tray.count as u64, entries: tray.entries }, outbox)) as usize
    }

    fn step(node: &mut RawNode, inbox: &[u8], outbox: &mut [u8]) -> usize {
        let answer = seconds::step(node, inbox, outbox);
        assert_eq!(answer.number, 0);
        answer.length as usize
    }

    fn close(node: &RawNode, old: &[u64], output: &mut [u64]) -> usize {
        done(seconds::close(node, old, output)) as usize
    }

    fn signers(me: usize, mark: &[u8; MARK_SIZE], slots: &[u8]) -> u16 {
        done(seconds::signers(NODES_MOST as u64, F as u64, me as u64, mark, slots)) as u16
    }
}

/// The nodes below `faulty` are faulty.
pub struct Hall {
    faulty: usize,
    trays: Vec<Tray>,
    old: Vec<u64>,
    /// What a faulty node sends to everyone in each round.
    lie: Vec<u8>,
}

/// What each correct node holds in the end.
#[derive(PartialEq)]
pub struct Outcome {
    logs: Vec<Vec<u64>>,
    signers: Vec<u16>,
}

/// Two batches of each faulty node, shown by all of them, over and over.
fn lie_of(faulty: usize) -> Vec<u8> {
    let mask = (1 << faulty) - 1;
    let records = (0..faulty).flat_map(|primary| (0..2).map(move |which| record_of(NODES_MOST, primary, mask, &batch_of(primary, which))));
    records.collect::<Vec<_>>().iter().cycle().take(MESSAGE_MOST / RECORD_MOST).flatten().copied().collect()
}

impl Hall {
    pub fn new(faulty: usize) -> Hall {
        let trays = (0..NODES_MOST).map(|node| tray_of(&batch_of(node, 0))).collect();
        Hall { faulty, trays, old: log_of(NOW), lie: lie_of(faulty) }
    }

    pub fn run<P: Program>(&self) -> Outcome {
        let mut nodes: Vec<P::Node> = (0..NODES_MOST).map(P::new).collect();
        let mut sent: Vec<Vec<u8>> = vec![self.lie.clone(); NODES_MOST];
        for me in self.faulty..NODES_MOST {
            sent[me] = told(RECORD_MOST, |outbox| P::open(&mut nodes[me], &self.trays[me], outbox));
        }
        for _round in 1..=F + 1 {
            let inbox = inbox_of(sent.iter().map(Vec::as_slice));
            for me in self.faulty..NODES_MOST {
                sent[me] = told(MESSAGE_MOST, |outbox| P::step(&mut nodes[me], &inbox, outbox));
            }
        }
        let close = |me: usize| told(LOG_MOST, |output| P::close(&nodes[me], &self.old, output));
        let logs: Vec<Vec<u64>> = (self.faulty..NODES_MOST).map(close).collect();
        let signers = self.signers_of::<P>(&logs);
        Outcome { logs, signers }
    }

    /// Distinct logs are numbered, and the number is the mark's first byte. Every correct node speaks.
    fn signers_of<P: Program>(&self, logs: &[Vec<u64>]) -> Vec<u16> {
        let mark = |log: &Vec<u64>| std::array::from_fn(|i| if i == 0 { logs.iter().position(|other| other == log).unwrap() as u8 } else { 0 });
        let marks: Vec<[u8; MARK_SIZE]> = logs.iter().map(mark).collect();
        let mut slots = vec![[0u8; 1 + MARK_SIZE]; self.faulty];
        slots.extend(marks.iter().map(|mark| std::array::from_fn(|i| if i == 0 { 1 } else { mark[i - 1] })));
        let slots = slots.concat();
        (self.faulty..NODES_MOST).zip(&marks).map(|(me, mark)| P::signers(me, mark, &slots)).collect()
    }
}

/// What a call wrote over the front of a lent output.
fn told<T: Clone + Default>(room: usize, call: impl FnOnce(&mut [T]) -> usize) -> Vec<T> {
    let mut output = vec![T::default(); room];
    let length = call(&mut output);
    output.truncate(length);
    output
}

impl Outcome {
    /// All correct nodes hold the old log with the batches of the correct ones, and count each other.
    pub fn check(&self, faulty: usize) {
        let mut log = log_of(NOW);
        log.extend((faulty..NODES_MOST).flat_map(|node| batch_of(node, 0)));
        log.sort();
        assert_eq!(log.len(), NOW * METERS + (NODES_MOST - faulty) * BATCH_MOST);
        assert!(self.logs.len() == NODES_MOST - faulty && self.logs.iter().all(|its| *its == log));
        assert!(self.signers.iter().all(|mask| *mask == u16::MAX << faulty));
    }
}
