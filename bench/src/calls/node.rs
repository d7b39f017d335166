//! An entry put into a tray, an opening, a step.
use super::for_good;
use crate::contest::Contest;
use crate::inputs::{batch_of, opened, plain_of, raw_of, tray_of};
use raudokiin::{calls, Tray, BATCH_MOST, MESSAGE_MOST, NODES_MOST, RECORD_MOST};
use second::calls as seconds;
use second::RawTray;
use std::hint::black_box;

fn raw_tray(tray: &Tray) -> RawTray {
    RawTray { count: tray.count as u64, entries: tray.entries }
}

/// The entry goes below all others, so that each moves up.
pub fn put() -> Contest {
    let entries = batch_of(3, 0);
    let tray = tray_of(&entries[1..]);
    let raw = raw_tray(&tray);
    let (mut with, mut raw_with) = (tray, raw);
    assert_eq!(calls::put(&mut with, entries[0]) as u64, seconds::put(&mut raw_with, entries[0]));
    assert!(with.count == BATCH_MOST && raw_tray(&with) == raw_with, "an entry is put differently");
    Contest::new(
        "put an entry into a tray of 15",
        move || {
            let mut with = *black_box(&tray);
            black_box(calls::put(black_box(&mut with), black_box(entries[0])));
        },
        move || {
            let mut with = *black_box(&raw);
            black_box(seconds::put(black_box(&mut with), black_box(entries[0])));
        },
    )
}

pub fn open() -> Contest {
    let me = NODES_MOST - 1;
    let node = calls::new(NODES_MOST, 7, me).node;
    let tray = tray_of(&batch_of(me, 0));
    let (raw, raw_of_tray) = (raw_of(&node), raw_tray(&tray));
    let [outbox, seconds_outbox] = [[0u8; RECORD_MOST]; 2].map(for_good);
    let opened = calls::open(node, tray, outbox);
    let mut after = raw;
    let answer = seconds::open(&mut after, &raw_of_tray, seconds_outbox);
    assert_eq!((opened.number as u64, opened.length as u64), (answer.number, answer.value));
    assert!(opened.length == RECORD_MOST && raw_of(&opened.node) == after && outbox == seconds_outbox, "openings differ");
    Contest::new(
        "open with 16 entries, n = 16",
        move || {
            let (node, tray, outbox) = black_box((&node, &tray, &mut *outbox));
            black_box(&calls::open(*node, *tray, outbox));
        },
        move || {
            let mut after = *black_box(&raw);
            black_box(seconds::open(&mut after, black_box(&raw_of_tray), black_box(seconds_outbox)));
            black_box(&after);
        },
    )
}

/// Round 1 of the last of n nodes.
pub fn step(n: usize, inbox: &'static [u8], name: &str) -> Contest {
    let node = opened(n, batch_of(n - 1, 0));
    let raw = raw_of(&node);
    let [outbox, seconds_outbox] = [[0u8; MESSAGE_MOST]; 2].map(for_good);
    let stepped = calls::step(node, inbox, outbox);
    let mut after = raw;
    let answer = seconds::step(&mut after, inbox, seconds_outbox);
    assert_eq!((stepped.number as u64, stepped.length as u64, stepped.unreadable), (answer.number, answer.length, answer.unreadable));
    assert!(stepped.number == 0 && raw_of(&stepped.node) == after && outbox == seconds_outbox, "steps of {n} nodes differ");
    Contest::new(
        name,
        move || {
            let (node, inbox, outbox) = black_box((&node, inbox, &mut *outbox));
            black_box(&calls::step(*node, inbox, outbox));
        },
        move || {
            let mut after = *black_box(&raw);
            black_box(seconds::step(&mut after, black_box(inbox), black_box(seconds_outbox)));
            black_box(&after);
        },
    )
}

/// The same by the plain loop.
pub fn plain_step(n: usize, inbox: &'static [u8]) -> impl FnMut() + Send {
    let node = opened(n, batch_of(n - 1, 0));
    let state = plain_of(&node);
    let [outbox, plain_outbox] = [[0u8; MESSAGE_MOST]; 2].map(for_good);
    let stepped = calls::step(node, inbox, outbox);
    let mut after = state.clone();
    assert_eq!(after.step(inbox, plain_outbox), Some((stepped.length, stepped.unreadable)));
    assert!(stepped.number == 0 && plain_of(&stepped.node) == after && outbox == plain_outbox, "the plain step of {n} nodes differs");
    move || {
        let mut after = black_box(&state).clone();
        black_box(after.step(black_box(inbox), black_box(plain_outbox)));
        black_box(&after);
    }
}
