//! How the times grow: a step over the number of nodes, a close and a bar over the length of the log.
use crate::calls::{for_good, log, node};
use crate::contest::Contest;
use crate::inputs::{batch_of, decided, full_inbox, log_of, Says, METERS, NOW};
use raudokiin::NODES_MOST;

pub struct Growth {
    pub name: &'static str,
    /// What grows.
    pub over: &'static str,
    pub points: Vec<Point>,
}

pub struct Point {
    pub at: usize,
    pub contest: Contest,
}

pub fn all() -> [Growth; 3] {
    let lengths = 1..=NOW + 1;
    let inbox = |n: usize| for_good(full_inbox(n, n - 1, Says::OneTwice));
    let steps = (1..=NODES_MOST).map(|n| Point { at: n, contest: node::step(n, inbox(n), "") });
    let closes = lengths
        .clone()
        .map(|intervals| Point { at: METERS * intervals, contest: log::close(intervals, decided(|primary| batch_of(primary, 0)), "") });
    let bars = lengths.map(|intervals| Point { at: METERS * intervals, contest: log::bar(log_of(intervals), "") });
    [
        Growth { name: "step", over: "nodes", points: steps.collect() },
        Growth { name: "close", over: "entries of the new log", points: closes.collect() },
        Growth { name: "bar", over: "entries of the log", points: bars.collect() },
    ]
}
