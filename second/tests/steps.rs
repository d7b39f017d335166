//! What a step passes over, and what it passes on.

use second::calls::{self, StepAnswer};
use second::{RawBatch, RawKept, RawNode};

/// A sound node of n = 5, f = 2, number 1, in round 2, which keeps the empty batch for 3.
fn node() -> RawNode {
    let mut node = RawNode { n: 5, f: 2, me: 1, phase: 2, own: RawBatch::from(&[10, 20][..]), ..RawNode::default() };
    node.kept[3].count = 1;
    node
}

fn inbox(messages: [&[u8]; 5]) -> Vec<u8> {
    second::inbox::pack(messages)
}

#[test]
fn a_step_passes_over_its_own_slot() {
    let mut given = node();
    let accepted_elsewhere = [0, 0, 0b10001, 0];
    for own_slot in [&accepted_elsewhere[..], &[9]] {
        let answer = calls::step(&mut given, &inbox([&[], own_slot, &[], &[], &[]]), &mut []);
        assert_eq!(answer, StepAnswer::default());
        assert_eq!(given.kept, node().kept);
    }
}

#[test]
fn a_step_passes_over_every_record_of_which_it_is_the_primary() {
    let mut given = node();
    let about_me = [1, 0, 0b00011, 0];
    let answer = calls::step(&mut given, &inbox([&about_me, &[], &about_me, &[], &[]]), &mut []);
    assert_eq!((answer, given.kept), (StepAnswer::default(), node().kept));
}

#[test]
fn a_step_takes_the_mask_of_the_first_accepted_vote() {
    let mut given = node();
    let late = [0u8, 0, 1, 0].as_slice();
    let first = [0u8, 0, 0b10001, 0].as_slice();
    let second = [0u8, 0, 0b11101, 0].as_slice();
    let inbox = second::inbox::pack([late, first, &[], &[first, second].concat(), second]);
    let mut outbox = [0; 8];
    assert_eq!(calls::step(&mut given, &inbox, &mut outbox), StepAnswer { number: 0, length: 4, unreadable: 0 });
    assert_eq!(outbox, [0, 0, 0b10011, 0, 0, 0, 0, 0]);
}

#[test]
fn an_outbox_is_ordered_by_primary_then_as_kept() {
    let mut given = node();
    let batch = |primary: u8, entry: u8| vec![primary, 1, 0b11101, 0, 0, 0, 0, 0, 0, 0, 0, entry];
    let message = [batch(4, 1), batch(3, 9), batch(0, 7), batch(0, 2), batch(3, 1), batch(0, 1)].concat();
    let mut outbox = [0; 60];
    let answer = calls::step(&mut given, &inbox([&[], &[], &message, &[], &batch(2, 5)]), &mut outbox);
    assert_eq!(answer, StepAnswer { number: 0, length: 60, unreadable: 0 });
    let mut passed_on = [batch(0, 7), batch(0, 2), batch(2, 5), batch(3, 9), batch(4, 1)].concat();
    passed_on.iter_mut().skip(2).step_by(12).for_each(|mask| *mask = 0b11111);
    assert_eq!(outbox[..], passed_on);
    let nine = RawBatch::from(&[9][..]);
    assert_eq!(given.kept[3], RawKept { count: 2, first: RawBatch::default(), second: nine });
}
