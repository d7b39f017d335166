//! Every refusal of every call, the order of the rows, and that a refusal changes nothing.

use second::calls::{self, Answer, MessageReading, RecordReading, StepAnswer};
use second::entry::entry;
use second::{RawBatch, RawKept, RawNode, RawTray};

fn done(value: u64) -> Answer {
    Answer { number: 0, value }
}

fn refused(number: u64) -> Answer {
    Answer { number, value: 0 }
}

fn tray(entries: &[u64]) -> RawTray {
    let RawBatch { count, entries } = RawBatch::from(entries);
    RawTray { count, entries }
}

fn kept(batches: &[&[u64]]) -> RawKept {
    let place = |k: usize| batches.get(k).map_or(RawBatch::default(), |&batch| RawBatch::from(batch));
    RawKept { count: batches.len() as u64, first: place(0), second: place(1) }
}

/// A sound node of n = 5, f = 2, number 1, in this phase, which keeps for 0, 2 and 3 if the phase allows it.
fn node(phase: u64) -> RawNode {
    let mut node = RawNode { n: 5, f: 2, me: 1, phase, ..RawNode::default() };
    if phase > 0 {
        node.own = RawBatch::from(&[10, 20][..]);
    }
    if phase > 1 {
        node.kept[0] = kept(&[&[1]]);
        node.kept[2] = kept(&[&[], &[2]]);
        node.kept[3] = kept(&[&[]]);
    }
    node
}

const SILENCE: [u8; 10] = [0; 10];

#[test]
fn sizes_that_are_broken_are_1() {
    for (n, f, me) in [(0, 0, 0), (17, 0, 0), (16, 8, 0), (2, 1, 0), (3, 1, 3), (1, 0, 1), (1 << 40, 0, 0)] {
        assert_eq!(calls::new(n, f, me), (1, RawNode::default()));
        let slots = vec![1; 33 * n.min(20) as usize];
        assert_eq!(calls::signers(n, f, me, &[1; 32], &slots), refused(1));
        assert_eq!(calls::signers(n, f, me, &[1; 32], &[]), refused(1));
    }
    for f in [1 << 63, u64::MAX, (1 << 63) + 1] {
        assert_eq!(calls::new(3, f, 0).0, 1);
    }
    assert_eq!(calls::new(16, 7, 15).0, 0);
    for n in [0, 17, u64::MAX] {
        assert_eq!(calls::read_record(n, &[0; 4]), RecordReading::Refused(1));
        assert!(calls::batch_bytes(n, &[0, 1, 0, 0, 1, 2, 3, 4, 5, 6, 7, 8]).is_empty());
        assert_eq!(calls::read_message(n, &[]), MessageReading::Refused(1));
        assert_eq!(calls::write_record(n, 99, 0, &[2, 1], &mut []), refused(1));
        assert_eq!(calls::read_inbox(n, 0, &[]), refused(1));
        assert_eq!(calls::cut_inbox(n, &[]), (1, vec![]));
    }
    assert_eq!(calls::read_inbox(2, 2, &[0; 4]), refused(1));
}

#[test]
fn a_tray_that_is_not_sound_is_2() {
    let mut unsound = vec![
        RawTray { count: 17, ..tray(&[]) },
        RawTray { count: u64::MAX, ..tray(&[]) },
        RawTray { count: 2, ..tray(&[5]) },
        RawTray { count: 0, ..tray(&[5]) },
        tray(&[5, 5]),
        tray(&[6, 5]),
    ];
    let mut late = tray(&[5]);
    late.entries[15] = 1;
    unsound.push(late);
    for raw in unsound {
        let mut given = raw;
        assert_eq!(calls::put(&mut given, 5), 2);
        assert_eq!(given, raw);
        assert_eq!(calls::place(&raw, 5), refused(2));
        let mut fresh = calls::new(3, 1, 0).1;
        assert_eq!(calls::open(&mut fresh, &raw, &mut []), refused(2));
        let mut late = node(2);
        assert_eq!(calls::open(&mut late, &raw, &mut []), refused(2));
        assert_eq!((fresh, late), (calls::new(3, 1, 0).1, node(2)));
    }
    assert_eq!(calls::put(&mut RawTray { count: 1, ..tray(&[]) }, 5), 0);
}

#[test]
fn an_entry_goes_to_its_place() {
    let mut lent = tray(&[2, 4]);
    assert_eq!([1, 2, 3, 4, 5].map(|entry| calls::place(&lent, entry).value), [0, 0, 1, 1, 2]);
    assert_eq!(calls::put(&mut lent, 3), 0);
    assert_eq!(calls::put(&mut lent, 0), 0);
    assert_eq!(calls::put(&mut lent, u64::MAX), 0);
    assert_eq!(lent, tray(&[0, 2, 3, 4, u64::MAX]));
}

/// States that break one clause of soundness each.
fn unsound() -> Vec<(&'static str, RawNode)> {
    let with = |phase, change: &dyn Fn(&mut RawNode)| {
        let mut raw = node(phase);
        change(&mut raw);
        raw
    };
    let zeros = RawNode::default();
    vec![
        ("all zeros", zeros),
        ("n 17", with(2, &|node| node.n = 17)),
        ("f with 2f = n + 1", with(2, &|node| node.f = 3)),
        ("f that wraps", with(2, &|node| node.f = 1 << 63)),
        ("own number n", with(1, &|node| node.me = 5)),
        ("phase f + 3", with(4, &|node| node.phase = 5)),
        ("phase beyond all", with(4, &|node| node.phase = u64::MAX)),
        ("own batch in phase 0", with(0, &|node| node.own = RawBatch::from(&[1][..]))),
        ("own batch's unused place", with(0, &|node| node.own.entries[0] = 1)),
        ("own count 17", with(2, &|node| node.own.count = 17)),
        ("own batch not ascending", with(2, &|node| node.own.entries[1] = 10)),
        ("own batch's last place", with(2, &|node| node.own.entries[15] = 99)),
        ("kept in phase 0", with(0, &|node| node.kept[0] = kept(&[&[1]]))),
        ("kept in phase 1", with(1, &|node| node.kept[0] = kept(&[&[]]))),
        ("an unused kept place in phase 1", with(1, &|node| node.kept[0].second.entries[3] = 1)),
        ("kept for itself", with(2, &|node| node.kept[1] = kept(&[&[1]]))),
        ("a place of itself", with(2, &|node| node.kept[1].first.entries[0] = 1)),
        ("kept for n", with(2, &|node| node.kept[5] = kept(&[&[1]]))),
        ("kept for 15", with(2, &|node| node.kept[15].count = 1)),
        ("a place of 15", with(2, &|node| node.kept[15].second.entries[15] = 1)),
        ("three kept", with(2, &|node| node.kept[2].count = 3)),
        ("a count beyond all", with(2, &|node| node.kept[2].count = u64::MAX)),
        ("the same batch twice", with(2, &|node| node.kept[2] = kept(&[&[2], &[2]]))),
        ("the empty batch twice", with(2, &|node| node.kept[3].count = 2)),
        ("first not sound", with(2, &|node| node.kept[2].first = RawBatch { count: 17, ..RawBatch::default() })),
        ("second not sound", with(2, &|node| node.kept[2].second = RawBatch::from(&[3, 2][..]))),
        ("second beyond the count", with(2, &|node| node.kept[0].second = RawBatch::from(&[7][..]))),
        ("second's place beyond the count", with(2, &|node| node.kept[0].second.entries[0] = 1)),
        ("first's place beyond the count", with(2, &|node| node.kept[4].first.entries[0] = 1)),
        ("first's count beyond the count", with(2, &|node| node.kept[4].first.count = 1)),
    ]
}

#[test]
fn a_state_that_is_not_sound_is_2() {
    for (name, raw) in unsound() {
        let mut given = raw;
        let mut outbox = [7; 20];
        assert_eq!(calls::open(&mut given, &tray(&[]), &mut outbox), refused(2), "open: {name}");
        assert_eq!(
            calls::step(&mut given, &[1], &mut outbox),
            StepAnswer { number: 2, length: 0, unreadable: 0 },
            "step: {name}"
        );
        assert_eq!(calls::close(&given, &[2, 1], &mut []), refused(2), "close: {name}");
        assert_eq!((given, outbox), (raw, [7; 20]), "{name}");
    }
}

#[test]
fn every_phase_but_the_right_one_is_3() {
    for phase in 0..=4 {
        let mut given = node(phase);
        let mut outbox = [7; 100];
        let opens = calls::open(&mut given, &tray(&[]), &mut outbox);
        assert_eq!(opens, if phase == 0 { done(4) } else { refused(3) });
        let mut given = node(phase);
        let steps = calls::step(&mut given, &SILENCE, &mut outbox);
        assert_eq!(steps.number, if (1..=3).contains(&phase) { 0 } else { 3 });
        assert_eq!(given.phase, if (1..=3).contains(&phase) { phase + 1 } else { phase });
        let closes = calls::close(&node(phase), &[], &mut [0; 16]);
        assert_eq!(closes, if phase == 4 { done(3) } else { refused(3) });
    }
    assert_eq!(calls::open(&mut node(1), &tray(&[]), &mut []), refused(3));
    assert_eq!(calls::step(&mut node(0), &[], &mut []).number, 3);
    assert_eq!(calls::close(&node(3), &[2, 1], &mut []), refused(3));
}

#[test]
fn an_ill_cut_inbox_is_4() {
    let long = [&SILENCE[..], &[0]].concat();
    let whole = [0, 0, 0, 0, 2, 0, 1, 1, 0, 0, 0, 0];
    let ill: [&[u8]; 8] =
        [&[], &[0], &SILENCE[..9], &SILENCE[..8], &long, &whole[..11], &[255, 255], &[0, 0, 0, 0, 0, 0, 0, 0, 1, 0]];
    for inbox in ill {
        let mut given = node(2);
        assert_eq!(calls::step(&mut given, inbox, &mut []), StepAnswer { number: 4, length: 0, unreadable: 0 });
        assert_eq!(calls::read_inbox(5, 1, inbox), refused(4));
        assert_eq!(calls::cut_inbox(5, inbox), (4, vec![]));
        assert_eq!(given, node(2));
    }
    assert_eq!(calls::cut_inbox(5, &whole).1, [&[][..], &[], &[1, 1], &[], &[]]);
    assert_eq!(calls::read_inbox(5, 1, &whole), done(0b100));
    assert_eq!(calls::read_inbox(5, 2, &whole), done(0));
}

#[test]
fn a_stated_length_above_3960_that_fits_is_only_unreadable() {
    let empty_votes = [0, 0, 1, 0].repeat(991);
    let inbox = second::inbox::pack([&empty_votes[..3960], &[], &empty_votes[..], &[9], &[]]);
    let mut given = node(1);
    let answer = calls::step(&mut given, &inbox, &mut [0; 4]);
    assert_eq!(answer, StepAnswer { number: 0, length: 4, unreadable: 0b01100 });
    assert_eq!(given.kept[0], kept(&[&[]]));
    assert_eq!(calls::read_message(5, &empty_votes), MessageReading::Unreadable);
    assert_eq!(calls::read_message(5, &empty_votes[..3960]), MessageReading::Votes(990));
    assert_eq!(calls::read_message(5, &[]), MessageReading::Votes(0));
}

#[test]
fn slots_that_are_not_33_n_bytes_are_4() {
    for length in [0, 98, 100, 33 * 16] {
        assert_eq!(calls::signers(3, 1, 0, &[1; 32], &vec![1; length]), refused(4));
    }
    assert_eq!(calls::signers(3, 1, 0, &[1; 32], &[1; 99]), done(0b111));
}

#[test]
fn a_slot_speaks_by_1_alone_and_the_own_is_not_read() {
    let mut slots = vec![1; 99];
    slots[33] = 255;
    slots[66 + 32] = 2;
    assert_eq!(calls::signers(3, 0, 1, &[1; 32], &slots), done(0b011));
    assert_eq!(calls::signers(3, 1, 2, &[1; 32], &slots), done(0b101));
    slots[0] = 0;
    assert_eq!(calls::signers(3, 1, 2, &[1; 32], &slots), refused(10));
    assert_eq!(calls::signers(3, 0, 2, &[1; 32], &slots), done(0b100));
}

#[test]
fn a_log_that_does_not_ascend_or_is_too_long_is_7() {
    let too_long: Vec<u64> = (0..4097).collect();
    for log in [&[2, 1][..], &[1, 1], &too_long] {
        assert_eq!(calls::close(&node(4), log, &mut []), refused(7));
        assert_eq!(calls::bar(log, 0, 2, 1), refused(7));
    }
    assert_eq!(calls::bar(&too_long[..4096], 0, 0, 0), done(4095 * 4096 / 2));
}

#[test]
fn a_new_log_above_4096_is_8() {
    let full: Vec<u64> = (100..4196).collect();
    let mut output = [7; 4200];
    assert_eq!(calls::close(&node(4), &full, &mut output), refused(8));
    assert_eq!(output, [7; 4200]);
    let holding: Vec<u64> = [1, 10, 20].into_iter().chain(100..4193).collect();
    assert_eq!(calls::close(&node(4), &holding, &mut output), done(4096));
    assert_eq!(calls::close(&node(4), &holding, &mut [0; 4095]), refused(9));
}

#[test]
fn a_lent_output_that_is_too_short_is_9() {
    let mut fresh = calls::new(3, 1, 2).1;
    let mut outbox = [7; 20];
    assert_eq!(calls::open(&mut fresh, &tray(&[1]), &mut outbox[..11]), refused(9));
    assert_eq!((fresh, outbox), (calls::new(3, 1, 2).1, [7; 20]));
    assert_eq!(calls::open(&mut fresh, &tray(&[1]), &mut outbox[..12]), done(12));
    assert_eq!(outbox, [2, 1, 4, 0, 0, 0, 0, 0, 0, 0, 0, 1, 7, 7, 7, 7, 7, 7, 7, 7]);

    let mut given = node(1);
    let inbox = [0, 0, 0, 0, 4, 0, 2, 0, 4, 0, 0, 0, 4, 0, 0, 0, 17, 0];
    let mut outbox = [7; 9];
    assert_eq!(calls::step(&mut given, &inbox, &mut outbox[..7]), StepAnswer { number: 9, length: 0, unreadable: 0 });
    assert_eq!((given, outbox), (node(1), [7; 9]));
    assert_eq!(calls::step(&mut given, &inbox, &mut outbox), StepAnswer { number: 0, length: 8, unreadable: 0 });
    assert_eq!(outbox, [0, 0, 19, 0, 2, 0, 6, 0, 7]);

    assert_eq!(calls::close(&node(4), &[5], &mut [0; 3]), refused(9));
    let mut output = [7; 5];
    assert_eq!(calls::close(&node(4), &[5], &mut output), done(4));
    assert_eq!(output, [1, 5, 10, 20, 7]);

    assert_eq!(calls::write_record(3, 2, 7, &[1, 2], &mut [0; 19]), refused(9));
    assert_eq!(calls::write_record(3, 2, 7, &[1, 2], &mut [0; 20]), done(20));
}

#[test]
fn the_last_round_writes_nothing_and_is_never_9() {
    let mut given = node(3);
    let inbox = [4, 0, 0, 0, 21, 0, 0, 0, 0, 0, 0, 0, 0, 0];
    assert_eq!(calls::step(&mut given, &inbox, &mut []), StepAnswer::default());
    assert_eq!(given.kept[0], kept(&[&[1], &[]]));
}

#[test]
fn a_vote_that_no_readable_record_says_is_2() {
    let long: Vec<u64> = (0..17).collect();
    let mut output = [7; 200];
    for (primary, mask, entries) in [
        (3, 1, &[][..]),
        (u64::MAX, 1, &[]),
        (256, 1, &[]),
        (0, 8, &[]),
        (0, 1 << 15, &[]),
        (0, 1, &[1, 1]),
        (0, 1, &[2, 1]),
        (0, 1, &long),
    ] {
        assert_eq!(calls::write_record(3, primary, mask, entries, &mut output), refused(2));
        assert_eq!(calls::write_record(3, primary, mask, entries, &mut []), refused(2));
    }
    assert_eq!(output, [7; 200]);
    assert_eq!(calls::write_record(16, 15, u16::MAX, &long[..16], &mut output), done(132));
}

#[test]
fn fewer_than_f_plus_1_signers_are_10() {
    let mut slots = vec![1; 5 * 33];
    slots[0] = 0;
    slots[33] = 0;
    assert_eq!(calls::signers(5, 2, 0, &[1; 32], &slots), done(0b11101));
    slots[66] = 0;
    assert_eq!(calls::signers(5, 2, 0, &[1; 32], &slots), done(0b11001));
    slots[99] = 0;
    assert_eq!(calls::signers(5, 2, 0, &[1; 32], &slots), refused(10));
}

#[test]
fn a_bar_whose_first_interval_is_after_its_last_is_11() {
    let log = [entry(1, 4, 9), entry(1, 5, 1), entry(1, 5, u32::MAX), entry(1, 7, 100), entry(2, 5, 50)];
    assert_eq!(calls::bar(&log, 1, 6, 5), refused(11));
    assert_eq!(calls::bar(&log, 1, 5, 5), done(1 + u64::from(u32::MAX)));
    assert_eq!(calls::bar(&log, 1, 4, 7), done(110 + u64::from(u32::MAX)));
    assert_eq!(calls::bar(&log, 3, 0, u16::MAX), done(0));
    assert_eq!(calls::bar(&[], 3, 0, 0), done(0));
}

#[test]
fn records_read_and_fail_to_read() {
    let vote = [2, 1, 4, 0, 0, 0, 0, 0, 0, 0, 0, 9, 77];
    assert_eq!(calls::read_record(3, &vote), RecordReading::Vote { primary: 2, mask: 4, count: 1, next: 12 });
    for length in 0..12 {
        assert_eq!(calls::read_record(3, &vote[..length]), RecordReading::Unreadable);
    }
    assert_eq!(calls::read_record(2, &vote), RecordReading::Unreadable);
    assert_eq!(calls::read_record(3, &[255, 0, 0, 0]), RecordReading::Unreadable);
    assert_eq!(calls::read_record(3, &[0, 255, 0, 0]), RecordReading::Unreadable);
    assert_eq!(calls::read_record(16, &[0, 0, 0, 0x80]), RecordReading::Vote { primary: 0, mask: 0x8000, count: 0, next: 4 });
    assert_eq!(calls::read_message(3, &vote[..12].repeat(3)), MessageReading::Votes(3));
    assert_eq!(calls::read_message(3, &vote), MessageReading::Unreadable);
}
