//! Every kind of bad line, the rule on shown votes, and small halls.

use second::rehearsal::rehearse;

const GOOD: [&str; 8] =
    ["n=3", "f=1", "faulty=0", "tray=", "tray=1.5.40", "tray=2.5.60", "send=1,0,1,000101000003000500000046", "end="];

fn file(lines: &[&str]) -> String {
    lines.iter().map(|line| format!("{line}\n")).collect()
}

fn outcome(file: impl AsRef<[u8]>) -> String {
    String::from_utf8(rehearse(file.as_ref())).unwrap()
}

fn bad(number: usize) -> String {
    format!("bad={number}\n")
}

/// The document's schedule with one line put in place of another.
fn with(number: usize, line: &str) -> String {
    let mut lines = GOOD;
    lines[number - 1] = line;
    outcome(file(&lines))
}

#[test]
fn each_line_that_is_ill_formed_is_bad_at_its_number() {
    let long = "9".repeat(30_000);
    let cases: [(usize, &[&str]); 7] = [
        (
            1,
            &[
                "n=0",
                "n=17",
                "n=03",
                "n=",
                "n= 3",
                "n=3 ",
                "n=+3",
                "n=-3",
                "n=3=",
                "N=3",
                "m=3",
                "n3",
                "",
                "n=18446744073709551619",
                "n=3\r",
            ],
        ),
        (2, &["f=2", "f=01", "f=", "f=x", "f=9223372036854775808", "f=18446744073709551617", "n=1"]),
        (3, &["faulty=3", "faulty=00", "faulty=,", "faulty=0,", "faulty=,0", "faulty=0,1", "faulty=0,0", "faulty", "fault="]),
        (
            4,
            &[
                "tray",
                "tray=1",
                "tray=1.2",
                "tray=1.2.3.4",
                "tray=1.2.",
                "tray=.2.3",
                "tray=1..3",
                "tray=65536.0.0",
                "tray=0.65536.0",
            ],
        ),
        (
            5,
            &[
                "tray=0.0.4294967296",
                "tray=1.5.40,",
                "tray=,1.5.40",
                "tray=1.5.40,1.5.40",
                "tray=1.5.40,1.5.39",
                "tray=01.5.40",
                "tray=1.5.040",
            ],
        ),
        (6, &["tray=1.5.40,,1.5.41", "Tray=", "tray= ", "send=1,0,1,00", "tray=1.5.4O"]),
        (
            7,
            &[
                "send=0,0,1,00",
                "send=3,0,1,00",
                "send=01,0,1,00",
                "send=1,1,2,00",
                "send=1,3,1,00",
                "send=1,0,0,00",
                "send=1,0,3,00",
                "send=1,0,1,",
                "send=1,0,1,0",
                "send=1,0,1,000",
                "send=1,0,1,0A",
                "send=1,0,1,0g",
                "send=1,0,1",
                "send=1,0,1,00,",
                "send=,,,",
                "send=",
                "tray=",
                "end=x",
                "end",
                "END=",
                "end =",
                "send=1,0,1,00 ",
            ],
        ),
    ];
    for (number, lines) in cases {
        for line in lines {
            assert_eq!(with(number, line), bad(number), "{line}");
        }
    }
    for (number, key) in [(1, "n="), (2, "f="), (3, "faulty="), (4, "tray=1.1."), (7, "send=")] {
        assert_eq!(with(number, &format!("{key}{long}")), bad(number));
        assert_eq!(with(number, &format!("{key}0{long}")), bad(number));
    }
}

#[test]
fn seventeen_entries_are_bad_and_sixteen_are_not() {
    let entries: Vec<String> = (0..17).map(|k| format!("0.0.{k}")).collect();
    assert_eq!(with(4, &format!("tray={}", entries.join(","))), bad(4));
    assert_eq!(with(4, &format!("tray={}", entries[1..].join(","))), outcome(file(&GOOD)));
}

#[test]
fn a_missing_line_is_bad_at_the_number_it_would_have() {
    let whole = file(&GOOD);
    assert_eq!(outcome(""), bad(1));
    for number in 1..8 {
        assert_eq!(outcome(file(&GOOD[..number])), bad(number + 1));
        let mut without = GOOD.to_vec();
        without.remove(number - 1);
        // Without a tray the send stands where the last tray should; without a send all is well.
        match number {
            4..=6 => assert_eq!(outcome(file(&without)), bad(6)),
            7 => assert!(outcome(file(&without)).starts_with("n=3")),
            _ => assert_eq!(outcome(file(&without)), bad(number)),
        }
    }
    for end in 0..whole.len() {
        let lines = whole[..end].matches('\n').count();
        assert_eq!(outcome(&whole[..end]), bad(lines + 1));
    }
}

#[test]
fn anything_after_the_end_is_bad_at_the_next_line() {
    for after in ["\n", "x", "end=\n", "\0", "send=1,0,1,00\n"] {
        assert_eq!(outcome(file(&GOOD) + after), bad(9));
    }
    assert_eq!(with(8, "end=x"), bad(8));
}

#[test]
fn a_file_of_65537_bytes_is_bad_0_whatever_is_in_it() {
    let mut long = file(&GOOD).into_bytes();
    long.resize(65_536, b'x');
    assert_eq!(outcome(&long), bad(9));
    long.push(b'x');
    assert_eq!(outcome(&long), bad(0));
    assert_eq!(outcome(vec![0; 65_536]), bad(1));
    assert_eq!(outcome(vec![0; 65_537]), bad(0));
}

#[test]
fn messages_are_1_to_3960_bytes() {
    assert_eq!(with(7, &format!("send=1,0,1,{}", "00".repeat(3961))), bad(7));
    assert!(with(7, &format!("send=1,0,1,{}", "00".repeat(3960))).starts_with("n=3"));
}

#[test]
fn sends_ascend_strictly_by_round_from_and_to() {
    let outcome_of = |sends: &[&str]| {
        let lines: Vec<&str> = ["n=5", "f=2", "faulty=1,3", "tray=", "tray=", "tray=", "tray=", "tray="]
            .into_iter()
            .chain(sends.iter().copied())
            .collect();
        outcome(file(&lines) + "end=\n")
    };
    let good = ["send=1,1,4,00", "send=1,3,0,00", "send=2,1,0,00", "send=2,1,2,00", "send=3,1,0,00"];
    assert!(outcome_of(&good).starts_with("n=5"));
    for k in 0..4 {
        let mut swapped = good;
        swapped.swap(k, k + 1);
        assert_eq!(outcome_of(&swapped), bad(10 + k));
    }
    assert_eq!(outcome_of(&["send=1,1,4,00", "send=1,1,4,00"]), bad(10));
}

#[test]
fn form_is_checked_for_the_whole_file_before_the_rule() {
    let forged = "send=1,0,1,01000200";
    assert_eq!(with(7, forged), bad(7));
    let mut lines = GOOD.to_vec();
    lines[6] = forged;
    lines.insert(7, "send=1,0,2,0");
    assert_eq!(outcome(file(&lines)), bad(8));
}

#[test]
fn a_vote_may_be_shown_in_the_round_of_its_sending_and_not_before() {
    let outcome_of = |sends: &[&str]| {
        let lines: Vec<&str> = ["n=5", "f=2", "faulty=0,4", "tray=", "tray=0.0.1", "tray=", "tray=", "tray="]
            .into_iter()
            .chain(sends.iter().copied())
            .collect();
        outcome(file(&lines) + "end=\n")
    };
    // Node 1's own opening, shown at once, with whatever mask.
    assert!(outcome_of(&["send=1,0,2,010102000000000000000001"]).starts_with("n=5"));
    assert!(outcome_of(&["send=1,0,2,010113000000000000000001"]).starts_with("n=5"));
    // Another batch of the same primary, or the same batch of another primary.
    assert_eq!(outcome_of(&["send=1,0,2,010102000000000000000002"]), bad(9));
    assert_eq!(outcome_of(&["send=1,0,2,000102000000000000000001"]), bad(9));
    // Node 2 passes node 1's batch on in round 2, not in round 1.
    assert_eq!(outcome_of(&["send=1,0,2,010106000000000000000001"]), bad(9));
    assert!(outcome_of(&["send=2,0,2,010106000000000000000001"]).starts_with("n=5"));
    // The second record of a message counts as the first does, and so does the receiver's own bit.
    assert_eq!(outcome_of(&["send=1,0,2,0000010000000400"]), bad(9));
    // An unreadable message shows nothing.
    assert!(outcome_of(&["send=1,0,2,000004000000"]).starts_with("n=5"));
    // What a node keeps in the last round it never sends.
    let late = ["send=3,0,1,00001100", "send=3,4,2,00001300"];
    assert_eq!(outcome_of(&late), bad(10));
}

#[test]
fn small_and_large_halls_print_their_logs() {
    assert_eq!(outcome("n=1\nf=0\nfaulty=\ntray=0.0.1\nend=\n"), "n=1\nf=0\nnode=0\nlog=0.0.1\nsigners=0\n");
    assert_eq!(outcome("n=1\nf=0\nfaulty=\ntray=\nend=\n"), "n=1\nf=0\nnode=0\nlog=\nsigners=0\n");
    let trays = "tray=65535.65535.4294967295\n".repeat(16);
    let text = outcome(format!("n=16\nf=7\nfaulty=9,10,11,12,13,14,15\n{trays}end=\n"));
    assert!(text.starts_with("n=16\nf=7\nnode=0\nlog=65535.65535.4294967295\nsigners=0,1,2,3,4,5,6,7,8\nnode=1\n"));
    assert_eq!(text.lines().count(), 2 + 3 * 9);
}
