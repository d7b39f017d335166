//! A hall of three nodes in one process, the document's own schedule: node 0 is faulty and shows its batch to node 1 alone. Transport and clocks are loops
//! here, and no key card checks anything: a real host checks before it hands over (bindings/c/raudokiin.h).
use raudokiin::{bar, entry, signers, Node, Refusal, Tray, LOG_MOST, MARK_SIZE, MESSAGE_MOST, SLOT_SIZE};

const N: usize = 3;
const F: usize = 1;
const LIAR: usize = 0;

/// What node 0 shows to node 1 in round 1: primary 0, witness 0, entry 3.5.70.
const LIE: [u8; 12] = [0, 1, 1, 0, 0, 3, 0, 5, 0, 0, 0, 70];

/// What one correct node holds and hands around.
struct Station {
    me: usize,
    node: Node,
    outbox: Vec<u8>,
    log: Vec<u64>,
}

fn start(me: usize, reading: u64) -> Result<Station, Refusal> {
    let mut tray = Tray::default();
    tray.put(reading)?;
    assert_eq!(tray.put(reading), Err(Refusal(5)), "an entry was put twice");
    let mut node = Node::new(N, F, me)?;
    let mut outbox = vec![0; MESSAGE_MOST];
    let length = node.open(&tray, &mut outbox)?;
    outbox.truncate(length);
    Ok(Station { me, node, outbox, log: Vec::new() })
}

/// The inbox of node `me` in a round: the outboxes of the others, whole; the own slot is silence.
fn deliver(hall: &[Station], round: usize, me: usize) -> Vec<u8> {
    let mut inbox = Vec::new();
    for j in 0..N {
        let message: &[u8] = match hall.iter().find(|station| station.me == j && j != me) {
            Some(station) => &station.outbox,
            None if j == LIAR && round == 1 && me == 1 => &LIE,
            None => &[],
        };
        inbox.extend((message.len() as u16).to_le_bytes());
        inbox.extend(message);
    }
    inbox
}

fn run_round(hall: &mut [Station], round: usize) -> Result<(), Refusal> {
    let inboxes: Vec<Vec<u8>> = hall.iter().map(|station| deliver(hall, round, station.me)).collect();
    for (station, inbox) in hall.iter_mut().zip(inboxes) {
        let mut outbox = vec![0; MESSAGE_MOST];
        let stepped = station.node.step(&inbox, &mut outbox)?;
        outbox.truncate(stepped.length);
        station.outbox = outbox;
    }
    Ok(())
}

/// A stand-in for the hash that makes a log's mark: a fold of its entries (FNV-1a), which no one should trust against a liar.
fn mark_of(log: &[u64]) -> [u8; MARK_SIZE] {
    let fold = log.iter().fold(14695981039346656037u64, |fold, entry| (fold ^ entry).wrapping_mul(1099511628211));
    let mut mark = [0; MARK_SIZE];
    mark[..8].copy_from_slice(&fold.to_le_bytes());
    mark
}

/// The slots that every correct node hands around: those of correct nodes speak.
fn slots_of(hall: &[Station]) -> Vec<u8> {
    let mut slots = vec![0; N * SLOT_SIZE];
    for station in hall {
        let slot = &mut slots[station.me * SLOT_SIZE..][..SLOT_SIZE];
        slot[0] = 1;
        slot[1..].copy_from_slice(&mark_of(&station.log));
    }
    slots
}

fn join(words: impl Iterator<Item = String>) -> String {
    words.collect::<Vec<_>>().join(",")
}

fn run() -> Result<(), Refusal> {
    let mut hall = vec![start(1, entry(1, 5, 40))?, start(2, entry(2, 5, 60))?];
    for round in 1..=F + 1 {
        run_round(&mut hall, round)?;
    }
    for station in &mut hall {
        let mut log = vec![0; LOG_MOST];
        let length = station.node.close(&[], &mut log)?;
        log.truncate(length);
        station.log = log;
    }
    let slots = slots_of(&hall);
    println!("n={N}\nf={F}");
    for station in &hall {
        let mask = signers(N, F, station.me, &mark_of(&station.log), &slots)?;
        println!("node={}", station.me);
        println!("log={}", join(station.log.iter().map(|e| format!("{}.{}.{}", e >> 48, e >> 32 & 0xffff, e & 0xffffffff))));
        println!("signers={}", join((0..N).filter(|j| mask >> j & 1 == 1).map(|j| j.to_string())));
    }
    println!("bar of meter 2 from interval 5 to 5: {}", bar(&hall[0].log, 2, 5, 5)?);
    Ok(())
}

fn main() {
    if let Err(Refusal(number)) = run() {
        eprintln!("hall: a call is refused: {number}");
        std::process::exit(1);
    }
}
