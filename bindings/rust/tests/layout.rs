//! libhost.a has the layouts that raudokiin.h and `ffi` state: what a call answers stands where they say, and each slice may be null with length 0.
use raudokiin::ffi::*;
use raudokiin::{calls, entry};
use std::ptr::{null, null_mut};

/// The number in the eight bytes at a place of a node's block.
fn number_at(node: &Node, place: usize) -> u64 {
    u64::from_ne_bytes(node.to_bytes()[place..place + 8].try_into().unwrap())
}

const OWN: usize = 32;
const KEPT: usize = OWN + 136;
const KEPT_SIZE: usize = 8 + 2 * 136;

#[test]
fn a_node_is_its_numbers_its_own_batch_and_sixteen_times_what_it_keeps() {
    let mut tray = Tray::default();
    assert_eq!(calls::put(&mut tray, 7), 0);
    assert_eq!(calls::put(&mut tray, 5), 0);
    assert_eq!(tray, Tray { count: 2, entries: [5, 7, 0, 0, 0, 0, 0, 0, 0, 0, 0, 0, 0, 0, 0, 0] });
    let made = calls::new(16, 7, 15);
    let mut outbox = [0xee; 40];
    let opened = calls::open(made.node, tray, &mut outbox);
    assert_eq!((made.number, opened.number, opened.length), (0, 0, 20));
    assert_eq!(outbox[..20], [15, 2, 0, 0x80, 0, 0, 0, 0, 0, 0, 0, 5, 0, 0, 0, 0, 0, 0, 0, 7]);
    assert_eq!(outbox[20..], [0xee; 20]);
    // Node 3 votes for a batch of node 2, which shows it too, in round 1.
    let record = [2, 1, 0b1100, 0, 0, 0, 0, 0, 0, 0, 0, 9];
    let mut inbox = vec![0; 2 * 16 + record.len()];
    inbox[6] = record.len() as u8;
    inbox[8..20].copy_from_slice(&record);
    let mut outbox = [0xee; 40];
    let stepped = calls::step(opened.node, &inbox, &mut outbox);
    assert_eq!((stepped.number, stepped.length, stepped.unreadable), (0, 12, 0));
    let told: Vec<u64> = [0, 8, 16, 24, OWN, OWN + 8, OWN + 16].iter().map(|&place| number_at(&stepped.node, place)).collect();
    assert_eq!(told, [16, 7, 15, 2, 2, 5, 7]);
    let kept = KEPT + 2 * KEPT_SIZE;
    let told: Vec<u64> = [kept, kept + 8, kept + 16, kept + 24].iter().map(|&place| number_at(&stepped.node, place)).collect();
    assert_eq!(told, [1, 1, 9, 0]);
    assert_eq!(KEPT + 16 * KEPT_SIZE, Node::SIZE);
    assert!(Node::from_bytes(&stepped.node.to_bytes()) == stepped.node);
}

#[test]
fn the_unreadable_senders_stand_before_the_node() {
    let node = calls::open(calls::new(2, 0, 0).node, Tray::default(), &mut [0; 4]).node;
    let stepped = calls::step(node, &[0, 0, 1, 0, 9], &mut []);
    assert_eq!((stepped.number, stepped.length, stepped.unreadable), (0, 0, 0b10));
    assert_eq!(calls::read_inbox(2, 0, &[0, 0, 1, 0, 9]), Heard { number: 0, unreadable: 0b10 });
    assert_eq!(calls::read_inbox(2, 2, &[]), Heard { number: 1, unreadable: 0 });
}

#[test]
fn answers_in_two_registers_stand_where_they_are_stated() {
    let record = [1, 2, 3, 0, 0, 0, 0, 0, 0, 0, 0, 5, 0, 0, 0, 0, 0, 0, 0, 6, 0xff];
    let told = ToldRecord { number: 0, readable: true, mask: 3, primary: 1, count: 2, next: 20 };
    assert_eq!(calls::read_record(2, &record), told);
    assert_eq!(calls::read_record(17, &record), ToldRecord { number: 1, readable: false, mask: 0, primary: 0, count: 0, next: 0 });
    assert_eq!(calls::batch_bytes(2, &record), BatchPart { start: 4, size: 16 });
    assert_eq!(calls::batch_bytes(2, &record[..19]), BatchPart { start: 0, size: 0 });
    assert_eq!(calls::batch_bytes(17, &record), BatchPart { start: 0, size: 0 });
    assert_eq!(calls::batch_bytes(2, &[1, 0, 3, 0, 0xff]), BatchPart { start: 4, size: 0 });
    assert_eq!(raudokiin::batch_bytes(2, &record), &record[4..20]);
    assert_eq!(calls::read_message(2, &record[..20]), ToldMessage { number: 0, readable: true, votes: 1 });
    assert_eq!(calls::read_message(2, &record), ToldMessage { number: 0, readable: false, votes: 0 });
    assert_eq!(calls::read_message(0, &record), ToldMessage { number: 1, readable: false, votes: 0 });
    let mut output = [0xee; 21];
    assert_eq!(calls::write_record(2, 1, 3, &[5, 6], &mut output), ToldWritten { number: 0, size: 20 });
    assert_eq!((&output[..20], output[20]), (&record[..20], 0xee));
    assert_eq!(calls::write_record(2, 1, 3, &[6, 5], &mut output), ToldWritten { number: 2, size: 0 });
    assert_eq!(calls::bar(&[entry(2, 5, 60), entry(2, 6, u32::MAX)], 2, 5, 6), MeterBar { number: 0, sum: 60 + u64::from(u32::MAX) });
    assert_eq!(calls::bar(&[], 2, 6, 5), MeterBar { number: 11, sum: 0 });
    assert_eq!(calls::signers(1, 0, 0, &[7; 32], &[0; 33]), SigningCount { number: 0, mask: 1 });
    assert_eq!(calls::signers(3, 1, 2, &[7; 32], &[0; 99]), SigningCount { number: 10, mask: 0 });
}

#[test]
fn a_slice_may_be_null_with_length_0() {
    let made = calls::new(1, 0, 0);
    let zeros = calls::new(0, 0, 0);
    assert_eq!(zeros.number, 1);
    assert_eq!(zeros.node.to_bytes(), [0; Node::SIZE]);
    // No pointer here is read or written: each has length 0.
    unsafe {
        assert_eq!(raudokiin_open(made.node, Tray::default(), null_mut(), 0).number, 9);
        let opened = raudokiin_open(made.node, Tray::default(), [0; 4].as_mut_ptr(), 4);
        assert_eq!(raudokiin_step(opened.node, null(), 0, null_mut(), 0).number, 4);
        let stepped = raudokiin_step(opened.node, [0; 2].as_ptr(), 2, null_mut(), 0);
        assert_eq!(stepped.number, 0);
        assert_eq!(raudokiin_close(stepped.node, null(), 0, null_mut(), 0), Closed { number: 0, length: 0 });
        assert_eq!(raudokiin_signers(1, 0, 0, [0; 32].as_ptr(), null(), 0).number, 4);
        assert_eq!(raudokiin_bar(null(), 0, 1, 0, 9), MeterBar { number: 0, sum: 0 });
        assert!(!raudokiin_read_record(1, null(), 0).readable);
        assert_eq!(raudokiin_batch_bytes(1, null(), 0), BatchPart { start: 0, size: 0 });
        assert_eq!(raudokiin_read_message(1, null(), 0), ToldMessage { number: 0, readable: true, votes: 0 });
        assert_eq!(raudokiin_write_record(1, 0, 1, null(), 0, null_mut(), 0).number, 9);
        assert_eq!(raudokiin_write_record(1, 0, 1, null(), 0, [0; 4].as_mut_ptr(), 4), ToldWritten { number: 0, size: 4 });
        assert_eq!(raudokiin_read_inbox(1, 0, null(), 0).number, 4);
    }
}
