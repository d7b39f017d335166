//! The C names of libhost.a and the layouts that cross. What each call promises stands in `bindings/c/raudokiin.h`.
use std::mem::{align_of, offset_of, size_of};

/// A node's state: a block to be kept and handed on. Any bytes may be handed in.
#[repr(C)]
#[derive(Clone, Copy, PartialEq, Eq)]
pub struct Node {
    pub(crate) block: [u64; 581],
}

/// Entries that ascend strictly, `count` of them; the unused places are zero.
#[repr(C)]
#[derive(Clone, Copy, PartialEq, Eq, Debug, Default)]
pub struct Tray {
    pub count: usize,
    pub entries: [u64; 16],
}

/// What `raudokiin_new` answers.
#[repr(C)]
#[derive(Clone, Copy, PartialEq, Eq)]
pub struct Made {
    pub number: u8,
    pub node: Node,
}

/// What `raudokiin_open` answers.
#[repr(C)]
#[derive(Clone, Copy, PartialEq, Eq)]
pub struct Opened {
    pub number: u8,
    pub length: usize,
    pub node: Node,
}

/// What `raudokiin_step` answers.
#[repr(C)]
#[derive(Clone, Copy, PartialEq, Eq)]
pub struct Stepped {
    pub number: u8,
    pub length: usize,
    pub unreadable: u16,
    pub node: Node,
}

/// What `raudokiin_close` answers.
#[repr(C)]
#[derive(Clone, Copy, PartialEq, Eq, Debug)]
pub struct Closed {
    pub number: u8,
    pub length: usize,
}

/// What `raudokiin_signers` answers.
#[repr(C)]
#[derive(Clone, Copy, PartialEq, Eq, Debug)]
pub struct SigningCount {
    pub number: u8,
    pub mask: u16,
}

/// What `raudokiin_bar` answers.
#[repr(C)]
#[derive(Clone, Copy, PartialEq, Eq, Debug)]
pub struct MeterBar {
    pub number: u8,
    pub sum: u64,
}

/// What `raudokiin_read_record` answers.
#[repr(C)]
#[derive(Clone, Copy, PartialEq, Eq, Debug)]
pub struct ToldRecord {
    pub number: u8,
    pub readable: bool,
    pub mask: u16,
    pub primary: usize,
    pub count: usize,
    pub next: usize,
}

/// What `raudokiin_batch_bytes` answers.
#[repr(C)]
#[derive(Clone, Copy, PartialEq, Eq, Debug)]
pub struct BatchPart {
    pub start: usize,
    pub size: usize,
}

/// What `raudokiin_read_message` answers.
#[repr(C)]
#[derive(Clone, Copy, PartialEq, Eq, Debug)]
pub struct ToldMessage {
    pub number: u8,
    pub readable: bool,
    pub votes: usize,
}

/// What `raudokiin_write_record` answers.
#[repr(C)]
#[derive(Clone, Copy, PartialEq, Eq, Debug)]
pub struct ToldWritten {
    pub number: u8,
    pub size: usize,
}

/// What `raudokiin_read_inbox` answers.
#[repr(C)]
#[derive(Clone, Copy, PartialEq, Eq, Debug)]
pub struct Heard {
    pub number: u8,
    pub unreadable: u16,
}

extern "C" {
    pub fn raudokiin_put(tray: *mut Tray, entry: u64) -> u8;
    pub fn raudokiin_new(n: usize, f: usize, me: usize) -> Made;
    pub fn raudokiin_open(node: Node, tray: Tray, outbox: *mut u8, outbox_length: usize) -> Opened;
    pub fn raudokiin_step(node: Node, inbox: *const u8, inbox_length: usize, outbox: *mut u8, outbox_length: usize) -> Stepped;
    pub fn raudokiin_close(node: Node, old: *const u64, old_length: usize, output: *mut u64, output_length: usize) -> Closed;
    pub fn raudokiin_signers(n: usize, f: usize, me: usize, mark: *const u8, slots: *const u8, slots_length: usize) -> SigningCount;
    pub fn raudokiin_bar(log: *const u64, log_length: usize, meter: u16, first: u16, last: u16) -> MeterBar;
    pub fn raudokiin_read_record(n: usize, part: *const u8, part_length: usize) -> ToldRecord;
    pub fn raudokiin_batch_bytes(n: usize, part: *const u8, part_length: usize) -> BatchPart;
    pub fn raudokiin_read_message(n: usize, message: *const u8, message_length: usize) -> ToldMessage;
    pub fn raudokiin_write_record(
        n: usize,
        primary: usize,
        mask: u16,
        entries: *const u64,
        entries_length: usize,
        output: *mut u8,
        output_length: usize,
    ) -> ToldWritten;
    pub fn raudokiin_read_inbox(n: usize, me: usize, inbox: *const u8, inbox_length: usize) -> Heard;
}

// The layouts of raudokiin.h, asserted here too.
macro_rules! layout {
    ($type:ty, $size:expr, $alignment:expr, $($field:ident at $place:expr),*) => {
        const _: () = assert!(size_of::<$type>() == $size && align_of::<$type>() == $alignment);
        $(const _: () = assert!(offset_of!($type, $field) == $place);)*
    };
}

layout!(Node, 4648, 8, block at 0);
layout!(Tray, 136, 8, count at 0, entries at 8);
layout!(Made, 4656, 8, number at 0, node at 8);
layout!(Opened, 4664, 8, number at 0, length at 8, node at 16);
layout!(Stepped, 4672, 8, number at 0, length at 8, unreadable at 16, node at 24);
layout!(Closed, 16, 8, number at 0, length at 8);
layout!(SigningCount, 4, 2, number at 0, mask at 2);
layout!(MeterBar, 16, 8, number at 0, sum at 8);
layout!(ToldRecord, 32, 8, number at 0, readable at 1, mask at 2, primary at 8, count at 16, next at 24);
layout!(BatchPart, 16, 8, start at 0, size at 8);
layout!(ToldMessage, 16, 8, number at 0, readable at 1, votes at 8);
layout!(ToldWritten, 16, 8, number at 0, size at 8);
layout!(Heard, 4, 2, number at 0, unreadable at 2);
