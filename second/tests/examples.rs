//! The worked examples of document 01, P1 to P11 and those that are run only, each with the call's whole answer.

use second::calls::{self, Answer, RecordReading, StepAnswer};
use second::entry::entry;
use second::{RawBatch, RawNode, RawTray};

/// The 12 bytes of the document's send: primary 0, witness 0, entry 3.5.70.
const SENT: [u8; 12] = [0x00, 0x01, 0x01, 0x00, 0x00, 0x03, 0x00, 0x05, 0x00, 0x00, 0x00, 0x46];

const DONE: u64 = 0;

fn done(value: u64) -> Answer {
    Answer { number: DONE, value }
}

fn refused(number: u64) -> Answer {
    Answer { number, value: 0 }
}

fn tray(entries: &[u64]) -> RawTray {
    let mut tray = RawTray::default();
    for &entry in entries {
        assert_eq!(calls::put(&mut tray, entry), DONE);
    }
    tray
}

fn record(primary: u8, mask: u16, entries: &[u64]) -> Vec<u8> {
    let mut bytes = vec![primary, entries.len() as u8, mask as u8, (mask >> 8) as u8];
    entries.iter().for_each(|entry| bytes.extend(entry.to_be_bytes()));
    bytes
}

fn inbox(messages: &[&[u8]]) -> Vec<u8> {
    second::inbox::pack(messages.iter().copied())
}

fn opened(n: u64, f: u64, me: u64) -> RawNode {
    let (number, mut node) = calls::new(n, f, me);
    assert_eq!(number, DONE);
    assert_eq!(calls::open(&mut node, &RawTray::default(), &mut [0; 4]), done(4));
    node
}

fn stepped(node: &mut RawNode, messages: &[&[u8]]) -> (StepAnswer, Vec<u8>) {
    let mut outbox = vec![0xee; 4000];
    let answer = calls::step(node, &inbox(messages), &mut outbox);
    assert!(outbox[answer.length as usize..].iter().all(|&byte| byte == 0xee));
    outbox.truncate(answer.length as usize);
    (answer, outbox)
}

fn closed(node: &RawNode) -> Vec<u64> {
    let mut log = vec![u64::MAX; 4096];
    let answer = calls::close(node, &[], &mut log);
    assert_eq!(answer.number, DONE);
    assert!(log[answer.value as usize..].iter().all(|&entry| entry == u64::MAX));
    log.truncate(answer.value as usize);
    log
}

fn batch(entries: &[u64]) -> RawBatch {
    RawBatch::from(entries)
}

#[test]
fn p1_one_node_alone_logs_its_own_entry() {
    let (number, mut node) = calls::new(1, 0, 0);
    assert_eq!((number, node.n, node.phase), (DONE, 1, 0));
    let mut outbox = [0xee; 13];
    assert_eq!(calls::open(&mut node, &tray(&[entry(0, 0, 1)]), &mut outbox), done(12));
    assert_eq!(outbox, [0, 1, 1, 0, 0, 0, 0, 0, 0, 0, 0, 1, 0xee]);
    assert_eq!(calls::step(&mut node, &[0, 0], &mut []), StepAnswer::default());
    assert_eq!(node.phase, 2);
    assert_eq!(closed(&node), [entry(0, 0, 1)]);
}

#[test]
fn p2_the_bytes_of_the_send_read_as_a_vote() {
    let vote = RecordReading::Vote { primary: 0, mask: 1, count: 1, next: 12 };
    assert_eq!(calls::read_record(3, &SENT), vote);
    assert_eq!(calls::batch_bytes(3, &SENT), entry(3, 5, 70).to_be_bytes());
    let mut output = [0; 12];
    assert_eq!(calls::write_record(3, 0, 1, &[entry(3, 5, 70)], &mut output), done(12));
    assert_eq!(output, SENT);
}

#[test]
fn p3_a_record_with_k_17_is_unreadable() {
    let bytes = record(0, 1, &(0..17).collect::<Vec<_>>());
    assert_eq!(calls::read_record(3, &bytes), RecordReading::Unreadable);
    assert!(calls::batch_bytes(3, &bytes).is_empty());
}

#[test]
fn p4_equal_neighbouring_entries_are_unreadable() {
    assert_eq!(calls::read_record(3, &record(0, 1, &[7, 7])), RecordReading::Unreadable);
}

#[test]
fn p5_one_witness_in_round_2_is_readable_and_not_kept() {
    let mut node = opened(3, 1, 1);
    stepped(&mut node, &[&[], &[], &[]]);
    assert_eq!(stepped(&mut node, &[&SENT, &[], &[]]), (StepAnswer::default(), vec![]));
    assert_eq!((node.phase, node.kept[0].count), (3, 0));
}

#[test]
fn p6_two_batches_in_one_message_are_both_kept_and_decide_empty() {
    let mut node = opened(3, 1, 1);
    let message = [record(0, 1, &[4]), record(0, 1, &[3, 5])].concat();
    let (answer, outbox) = stepped(&mut node, &[&message, &[], &[]]);
    assert_eq!(answer, StepAnswer { number: DONE, length: 32, unreadable: 0 });
    assert_eq!(outbox, [record(0, 3, &[4]), record(0, 3, &[3, 5])].concat());
    assert_eq!((node.kept[0].count, node.kept[0].first, node.kept[0].second), (2, batch(&[4]), batch(&[3, 5])));
    stepped(&mut node, &[&[], &[], &[]]);
    assert_eq!(closed(&node), []);
}

#[test]
fn p7_a_third_batch_is_dropped_and_not_passed_on() {
    let mut node = opened(3, 1, 1);
    let message = [record(0, 1, &[4]), record(0, 1, &[3, 5]), record(0, 1, &[6])].concat();
    let (_, outbox) = stepped(&mut node, &[&message, &[], &[]]);
    assert_eq!(outbox, [record(0, 3, &[4]), record(0, 3, &[3, 5])].concat());
    assert_eq!((node.kept[0].count, node.kept[0].first, node.kept[0].second), (2, batch(&[4]), batch(&[3, 5])));
}

#[test]
fn p8_without_the_primarys_bit_nothing_is_kept() {
    let mut node = opened(3, 1, 1);
    stepped(&mut node, &[&[], &[], &[]]);
    let (answer, _) = stepped(&mut node, &[&[], &[], &record(0, 0b110, &[4])]);
    assert_eq!(answer, StepAnswer::default());
    assert_eq!((node.phase, node.kept[0].count), (3, 0));
}

#[test]
fn p9_a_mask_bit_of_no_node_is_unreadable() {
    assert_eq!(calls::read_record(3, &record(0, 0b1001, &[4])), RecordReading::Unreadable);
    assert_ne!(calls::read_record(4, &record(0, 0b1001, &[4])), RecordReading::Unreadable);
}

#[test]
fn p10_an_empty_batch_kept_is_a_kept_batch() {
    let mut node = opened(3, 1, 1);
    stepped(&mut node, &[&record(0, 1, &[]), &[], &[]]);
    assert_eq!(node.kept[0].count, 1);
    let mut alone = node;
    stepped(&mut alone, &[&[], &[], &[]]);
    assert_eq!(closed(&alone), []);
    stepped(&mut node, &[&[], &[], &record(0, 0b101, &[4])]);
    assert_eq!((node.kept[0].count, node.kept[0].first, node.kept[0].second), (2, batch(&[]), batch(&[4])));
    assert_eq!(closed(&node), []);
}

#[test]
fn p11_one_equal_mark_from_another_is_enough_and_none_is_10() {
    let mark = [9; 32];
    let mut slots = vec![0; 99];
    slots[33..66].copy_from_slice(&[1; 33]);
    assert_eq!(calls::signers(3, 1, 0, &mark, &slots), refused(10));
    slots[34..66].copy_from_slice(&mark);
    assert_eq!(calls::signers(3, 1, 0, &mark, &slots), done(0b011));
}

/// A node with f = 0 whose rounds are over and whose own batch is this.
fn over(own: &[u64]) -> RawNode {
    let (_, mut node) = calls::new(1, 0, 0);
    calls::open(&mut node, &tray(own), &mut [0; 132]);
    calls::step(&mut node, &[0, 0], &mut []);
    node
}

#[test]
fn an_old_log_of_4095_and_one_new_entry_is_done() {
    let old: Vec<u64> = (0..4095).collect();
    let mut log = vec![0; 4096];
    assert_eq!(calls::close(&over(&[9000]), &old, &mut log), done(4096));
    assert_eq!((&log[..4095], log[4095]), (&old[..], 9000));
}

#[test]
fn an_old_log_of_4095_and_two_new_entries_is_8() {
    let old: Vec<u64> = (0..4095).collect();
    let mut log = vec![7; 5000];
    assert_eq!(calls::close(&over(&[9000, 9001]), &old, &mut log), refused(8));
    assert_eq!(log, vec![7; 5000]);
    assert_eq!(calls::close(&over(&[4094, 9000]), &old, &mut log), done(4096));
}

#[test]
fn a_held_entry_into_a_full_tray_is_5() {
    let mut full = tray(&(0..16).map(|k| 2 * k).collect::<Vec<_>>());
    let before = full;
    assert_eq!(calls::put(&mut full, 30), 5);
    assert_eq!(calls::put(&mut full, 31), 6);
    assert_eq!(full, before);
}

pub const SCHEDULE: &[u8] = b"n=3\nf=1\nfaulty=0\ntray=\ntray=1.5.40\ntray=2.5.60\nsend=1,0,1,000101000003000500000046\nend=\n";

#[test]
fn the_whole_schedule_of_the_document() {
    let text = b"n=3\nf=1\nnode=1\nlog=1.5.40,2.5.60,3.5.70\nsigners=1,2\nnode=2\nlog=1.5.40,2.5.60,3.5.70\nsigners=1,2\n";
    let mut output = vec![0xee; text.len() + 1];
    assert_eq!(calls::rehearsal(SCHEDULE, &mut output), done(text.len() as u64));
    assert_eq!((&output[..text.len()], output[text.len()]), (&text[..], 0xee));
    assert_eq!(second::rehearsal::rehearse(SCHEDULE), text);
}

#[test]
fn the_whole_schedule_into_one_byte_less_is_9() {
    let length = second::rehearsal::rehearse(SCHEDULE).len();
    let mut output = vec![0xee; length - 1];
    assert_eq!(calls::rehearsal(SCHEDULE, &mut output), refused(9));
    assert_eq!(output, vec![0xee; length - 1]);
    assert_eq!(calls::rehearsal(SCHEDULE, &mut vec![0; length]), done(length as u64));
}
