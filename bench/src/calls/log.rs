//! A close, a bar, the signers.
use super::for_good;
use crate::contest::Contest;
use crate::inputs::{log_of, raw_of, METERS};
use raudokiin::{calls, Node, MARK_SIZE, NODES_MOST};
use second::calls as seconds;
use std::hint::black_box;

/// The new log has so many intervals of 256 entries, of which the last one is decided.
pub fn close(intervals: usize, node: Node, name: &str) -> Contest {
    let old: &[u64] = for_good(log_of(intervals - 1));
    let raw = raw_of(&node);
    let [output, seconds_output] = [(); 2].map(|()| for_good(vec![0u64; intervals * METERS]));
    let closed = calls::close(node, old, output);
    let answer = seconds::close(&raw, old, seconds_output);
    assert_eq!((closed.number as u64, closed.length as u64), (answer.number, answer.value));
    assert!(closed.length == output.len() && output == seconds_output, "closes to {} entries differ", output.len());
    Contest::new(
        name,
        move || {
            let (node, old, output) = black_box((&node, old, &mut *output));
            black_box(calls::close(*node, old, output));
        },
        move || {
            black_box(seconds::close(black_box(&raw), black_box(old), black_box(seconds_output)));
        },
    )
}

/// Of meter 0 over all intervals.
pub fn bar(log: Vec<u64>, name: &str) -> Contest {
    let log: &[u64] = for_good(log);
    let (told, answer) = (calls::bar(log, 0, 0, u16::MAX), seconds::bar(log, 0, 0, u16::MAX));
    assert_eq!((told.number as u64, told.sum), (answer.number, answer.value));
    assert!(told.number == 0 && told.sum > 0);
    Contest::new(
        name,
        move || {
            black_box(calls::bar(black_box(log), black_box(0), black_box(0), black_box(u16::MAX)));
        },
        move || {
            black_box(seconds::bar(black_box(log), black_box(0), black_box(0), black_box(u16::MAX)));
        },
    )
}

/// Every slot speaks with the own mark.
pub fn signers() -> Contest {
    let mark: [u8; MARK_SIZE] = std::array::from_fn(|i| 7 * i as u8);
    let slots: &[u8] = for_good((0..NODES_MOST).flat_map(|_| std::iter::once(1).chain(mark)).collect::<Vec<u8>>());
    let told = calls::signers(NODES_MOST, 7, 15, &mark, slots);
    let answer = seconds::signers(NODES_MOST as u64, 7, 15, &mark, slots);
    assert_eq!((told.number as u64, told.mask as u64), (answer.number, answer.value));
    assert_eq!(told.mask, u16::MAX);
    Contest::new(
        "signers, n = 16, all sign",
        move || {
            black_box(calls::signers(black_box(NODES_MOST), 7, black_box(15), black_box(&mark), black_box(slots)));
        },
        move || {
            black_box(seconds::signers(black_box(NODES_MOST as u64), 7, black_box(15), black_box(&mark), black_box(slots)));
        },
    )
}
