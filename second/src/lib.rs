//! The log nodes of Raudokiin a second time: plain Rust, written from document 01 alone.
//! Nothing here is proved. It is run beside the proved program, and every difference is a finding.
//!
//! One file a subject. A value of `Tray` or `Node` is sound by the way it is made; `calls` takes any
//! content at all (`RawTray`, `RawNode`) and answers with the refusal numbers of the document's table.

pub mod bar;
pub mod calls;
pub mod close;
pub mod entry;
pub mod inbox;
pub mod message;
pub mod node;
pub mod opening;
pub mod record;
pub mod refusal;
pub mod rehearsal;
pub mod signing;
pub mod sizes;
pub mod step;
pub mod tray;

pub use node::{Node, RawBatch, RawKept, RawNode};
pub use refusal::Refusal;
pub use tray::{RawTray, Tray};
