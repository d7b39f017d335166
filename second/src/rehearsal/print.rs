//! n, f, then for each correct node, ascending, its number, log and signers.

use super::hall::Hall;
use super::schedule::BadLine;
use crate::entry::{interval, meter, watt_hours, Entry};
use crate::sizes::{bit, MOST_NODES};

pub fn bad(BadLine(number): BadLine) -> String {
    format!("bad={number}\n")
}

pub fn outcome(hall: &Hall) -> String {
    let sizes = hall.sizes();
    let mut text = format!("n={}\nf={}\n", sizes.n, sizes.f);
    let logs = hall.logs();
    let signers = hall.signers(&logs);
    for ((member, log), mask) in hall.correct().iter().zip(&logs).zip(signers) {
        let entries = list(log.iter().map(|&entry| print_entry(entry)));
        let signers = list((0..MOST_NODES).filter(|&node| mask & bit(node) != 0).map(|node| node.to_string()));
        text += &format!("node={}\nlog={entries}\nsigners={signers}\n", member.number);
    }
    text
}

pub fn print_entry(entry: Entry) -> String {
    format!("{}.{}.{}", meter(entry), interval(entry), watt_hours(entry))
}

fn list(pieces: impl Iterator<Item = String>) -> String {
    pieces.collect::<Vec<_>>().join(",")
}
