//! A record read and written, a message read.
use super::for_good;
use crate::contest::Contest;
use crate::inputs::{batch_of, full_message, record_of, Says};
use raudokiin::{calls, MESSAGE_MOST, NODES_MOST, RECORD_MOST};
use second::calls::{self as seconds, MessageReading, RecordReading};
use std::hint::black_box;

const N: u64 = NODES_MOST as u64;
const MASK: u16 = 0x00ff;

pub fn read_record() -> Contest {
    let record: &[u8] = for_good(record_of(NODES_MOST, 3, MASK, &batch_of(3, 0)));
    let told = calls::read_record(NODES_MOST, record);
    let vote = RecordReading::Vote { primary: told.primary as u64, mask: told.mask, count: told.count as u64, next: told.next as u64 };
    assert!(told.readable && told.next == RECORD_MOST && vote == seconds::read_record(N, record), "a record reads differently");
    Contest::new(
        "read a record of 16 entries",
        move || {
            black_box(calls::read_record(black_box(NODES_MOST), black_box(record)));
        },
        move || {
            black_box(seconds::read_record(black_box(N), black_box(record)));
        },
    )
}

pub fn write_record() -> Contest {
    let entries: &[u64] = for_good(batch_of(3, 0));
    let [output, seconds_output] = [[0u8; RECORD_MOST]; 2].map(for_good);
    let told = calls::write_record(NODES_MOST, 3, MASK, entries, output);
    let answer = seconds::write_record(N, 3, MASK, entries, seconds_output);
    assert_eq!((told.number as u64, told.size as u64), (answer.number, answer.value));
    assert!(told.size == RECORD_MOST && output == seconds_output, "a record is written differently");
    Contest::new(
        "write a record of 16 entries",
        move || {
            black_box(calls::write_record(black_box(NODES_MOST), 3, black_box(MASK), black_box(entries), black_box(output)));
        },
        move || {
            black_box(seconds::write_record(black_box(N), 3, black_box(MASK), black_box(entries), black_box(seconds_output)));
        },
    )
}

pub fn read_message() -> Contest {
    let message: &[u8] = for_good(full_message(NODES_MOST, 0, Says::Two));
    let told = calls::read_message(NODES_MOST, message);
    assert_eq!(told.votes, MESSAGE_MOST / RECORD_MOST);
    assert_eq!(MessageReading::Votes(told.votes as u64), seconds::read_message(N, message));
    Contest::new(
        "read a message of 3,960 bytes",
        move || {
            black_box(calls::read_message(black_box(NODES_MOST), black_box(message)));
        },
        move || {
            black_box(seconds::read_message(black_box(N), black_box(message)));
        },
    )
}
