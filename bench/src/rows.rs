//! The rows of the table.
use crate::calls::{for_good, hall, log, node, wire};
use crate::contest::Contest;
use crate::inputs::{batch_of, decided, full_inbox, log_of, log_of_one_meter, spread_batch_of, Says};
use raudokiin::{LOG_MOST, NODES_MOST};

pub struct Row {
    pub contest: Contest,
    /// Bytes of stack, of the proved program and of the second one; none for what is not one call.
    pub stacks: Option<(usize, usize)>,
}

const SILENCE: [u8; 2 * NODES_MOST] = [0; 2 * NODES_MOST];

/// A step by both programs and by the plain loop.
fn full_step(says: Says, name: &str) -> Contest {
    let inbox = for_good(full_inbox(NODES_MOST, NODES_MOST - 1, says));
    node::step(NODES_MOST, inbox, name).and(node::plain_step(NODES_MOST, inbox))
}

pub fn all() -> Vec<Row> {
    let calls = [
        wire::read_record(),
        wire::write_record(),
        wire::read_message(),
        node::put(),
        node::open(),
        full_step(Says::Two, "step, n = 16, 15 messages of 3,960 bytes: two batches of each primary"),
        full_step(Says::OneTwice, "step, n = 16, 15 messages of 3,960 bytes: one batch of each primary, twice"),
        node::step(NODES_MOST, &SILENCE, "step, n = 16, everyone silent"),
        log::close(16, decided(|primary| batch_of(primary, 0)), "close, 3,840 old and 256 decided: 4,096"),
        log::close(1, decided(|primary| batch_of(primary, 0)), "close, none old and 256 decided: 256"),
        log::close(1, decided(spread_batch_of), "close, none old and 256 decided: 256, the nodes' meters spread"),
        log::bar(log_of(16), "bar over 4,096 entries, of which 16 count"),
        log::bar(log_of_one_meter(LOG_MOST), "bar over 4,096 entries, which all count"),
        log::signers(),
    ];
    let halls = [hall::hall(0, "a hall of 16, f = 7, all correct"), hall::hall(7, "a hall of 16, f = 7, 7 faulty")];
    let mut rows: Vec<Row> = calls.into_iter().map(|mut contest| Row { stacks: Some(contest.stacks()), contest }).collect();
    rows.extend(halls.map(|contest| Row { stacks: None, contest }));
    rows
}
