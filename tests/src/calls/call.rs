//! A call with all it is handed, asked of both sides: libhost.a and the second program.

use second::{RawNode, RawTray};

/// What a call answers: a refusal number or 0, then its values.
#[derive(Clone, Debug, PartialEq, Eq)]
pub struct Answer {
    pub number: u64,
    pub values: Vec<u64>,
}

impl Answer {
    pub fn new(number: impl Into<u64>, values: &[u64]) -> Answer {
        Answer { number: number.into(), values: values.to_vec() }
    }
}

/// All that a call may change: a state, a tray, a lent output. An output lies between guards, and all of it is filled
/// with a pattern, so that whatever is written beyond its length shows.
#[derive(Clone, Debug, Default, PartialEq, Eq)]
pub struct Lent {
    pub node: Option<Box<RawNode>>,
    pub tray: Option<RawTray>,
    bytes: Vec<u8>,
    entries: Vec<u64>,
}

const GUARD: usize = 24;

/// No two neighbours alike, and never 0.
fn pattern(place: usize) -> u8 {
    0xa0 | (place % 31) as u8
}

/// Nothing where nothing is lent.
fn between_guards<T>(whole: &[T]) -> &[T] {
    let end = whole.len().saturating_sub(GUARD);
    whole.get(GUARD..end).unwrap_or_default()
}

impl Lent {
    pub fn node(node: &RawNode) -> Lent {
        Lent { node: Some(Box::new(*node)), ..Lent::default() }
    }

    pub fn tray(tray: &RawTray) -> Lent {
        Lent { tray: Some(*tray), ..Lent::default() }
    }

    pub fn with_bytes(self, room: usize) -> Lent {
        Lent { bytes: (0..room + 2 * GUARD).map(pattern).collect(), ..self }
    }

    pub fn with_entries(self, room: usize) -> Lent {
        let entry = |place| u64::from_be_bytes([pattern(place); 8]);
        Lent { entries: (0..room + 2 * GUARD).map(entry).collect(), ..self }
    }

    pub fn lent_node(&mut self) -> &mut RawNode {
        self.node.as_mut().expect("the call has a state")
    }

    pub fn lent_tray(&mut self) -> &mut RawTray {
        self.tray.as_mut().expect("the call has a tray")
    }

    /// The bytes that are lent, without their guards.
    pub fn bytes(&self) -> &[u8] {
        between_guards(&self.bytes)
    }

    pub fn node_and_bytes(&mut self) -> (&mut RawNode, &mut [u8]) {
        let end = self.bytes.len() - GUARD;
        (self.node.as_mut().expect("the call has a state"), &mut self.bytes[GUARD..end])
    }

    pub fn lent_bytes(&mut self) -> &mut [u8] {
        let end = self.bytes.len() - GUARD;
        &mut self.bytes[GUARD..end]
    }

    pub fn entries(&self) -> &[u64] {
        between_guards(&self.entries)
    }

    pub fn lent_entries(&mut self) -> &mut [u64] {
        let end = self.entries.len() - GUARD;
        &mut self.entries[GUARD..end]
    }

    /// Where the outputs of two sides differ first, guards included, counted from the start of what was lent.
    pub fn first_difference(&self, other: &Lent) -> Option<isize> {
        fn first<T: PartialEq>(one: &[T], other: &[T]) -> Option<isize> {
            one.iter().zip(other).position(|(one, other)| one != other).map(|place| place as isize - GUARD as isize)
        }
        first(&self.bytes, &other.bytes).or(first(&self.entries, &other.entries))
    }
}

/// A call with its inputs.
pub trait Call: Clone + PartialEq {
    const NAME: &'static str;
    /// The names of the answer's values.
    const VALUES: &'static [&'static str];
    /// The refusal numbers that concern the call, in their order.
    const ROWS: &'static [u64];

    /// What the call may change, as it is handed in.
    fn lent(&self) -> Lent;

    fn proved(&self, lent: &mut Lent) -> Answer;

    fn second(&self, lent: &mut Lent) -> Answer;

    /// Smaller inputs to try where this one shows a difference.
    fn smaller(&self) -> Vec<Self>;

    fn show(&self) -> String;
}
