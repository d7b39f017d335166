//! Each call of libhost.a as a safe function with its whole answer, refusals in numbers. A lent output is a `&mut` slice, so it overlaps no input.
use crate::ffi::*;
pub use crate::ffi::{BatchPart, Closed, Heard, Made, MeterBar, Node, Opened, SigningCount, Stepped, ToldMessage, ToldRecord, ToldWritten, Tray};

// Each call reads the slices that it is handed and writes the lent ones, within their lengths, and keeps no pointer: that is proved of libhost.a for any
// values. The borrows give what the header asks of a host: the memory is there, and lent memory is nobody else's.

#[inline]
pub fn put(tray: &mut Tray, entry: u64) -> u8 {
    unsafe { raudokiin_put(tray, entry) }
}

#[inline]
pub fn new(n: usize, f: usize, me: usize) -> Made {
    unsafe { raudokiin_new(n, f, me) }
}

#[inline]
pub fn open(node: Node, tray: Tray, outbox: &mut [u8]) -> Opened {
    unsafe { raudokiin_open(node, tray, outbox.as_mut_ptr(), outbox.len()) }
}

#[inline]
pub fn step(node: Node, inbox: &[u8], outbox: &mut [u8]) -> Stepped {
    unsafe { raudokiin_step(node, inbox.as_ptr(), inbox.len(), outbox.as_mut_ptr(), outbox.len()) }
}

#[inline]
pub fn close(node: Node, old: &[u64], output: &mut [u64]) -> Closed {
    unsafe { raudokiin_close(node, old.as_ptr(), old.len(), output.as_mut_ptr(), output.len()) }
}

#[inline]
pub fn signers(n: usize, f: usize, me: usize, mark: &[u8; 32], slots: &[u8]) -> SigningCount {
    unsafe { raudokiin_signers(n, f, me, mark.as_ptr(), slots.as_ptr(), slots.len()) }
}

#[inline]
pub fn bar(log: &[u64], meter: u16, first: u16, last: u16) -> MeterBar {
    unsafe { raudokiin_bar(log.as_ptr(), log.len(), meter, first, last) }
}

#[inline]
pub fn read_record(n: usize, part: &[u8]) -> ToldRecord {
    unsafe { raudokiin_read_record(n, part.as_ptr(), part.len()) }
}

#[inline]
pub fn batch_bytes(n: usize, part: &[u8]) -> BatchPart {
    unsafe { raudokiin_batch_bytes(n, part.as_ptr(), part.len()) }
}

#[inline]
pub fn read_message(n: usize, message: &[u8]) -> ToldMessage {
    unsafe { raudokiin_read_message(n, message.as_ptr(), message.len()) }
}

#[inline]
pub fn write_record(n: usize, primary: usize, mask: u16, entries: &[u64], output: &mut [u8]) -> ToldWritten {
    unsafe { raudokiin_write_record(n, primary, mask, entries.as_ptr(), entries.len(), output.as_mut_ptr(), output.len()) }
}

#[inline]
pub fn read_inbox(n: usize, me: usize, inbox: &[u8]) -> Heard {
    unsafe { raudokiin_read_inbox(n, me, inbox.as_ptr(), inbox.len()) }
}
