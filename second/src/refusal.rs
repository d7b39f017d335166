//! The refusal numbers of document 01. A call checks the rows that concern it in this order.

#[derive(Clone, Copy, Debug, PartialEq, Eq)]
pub enum Refusal {
    /// n, f or the own number breaks the sizes.
    Sizes = 1,
    /// The state or the tray is not sound, or no readable record says the vote to be written.
    Unsound = 2,
    /// Opening outside phase 0, a step outside 1 to f + 1, a close before f + 2.
    Phase = 3,
    /// The inbox is ill cut, or the slots are not 33 × n bytes.
    IllCut = 4,
    /// The entry is in the tray already.
    Held = 5,
    /// The tray holds 16.
    Full = 6,
    /// A log handed in does not ascend strictly, or has more than 4,096 entries.
    BadLog = 7,
    /// The new log would exceed 4,096.
    LongLog = 8,
    /// The lent output is shorter than what would be written.
    ShortOutput = 9,
    /// Fewer than f + 1 signers.
    FewSigners = 10,
    /// A bar whose first interval is after its last.
    Backwards = 11,
}

impl Refusal {
    pub fn number(self) -> u64 {
        self as u64
    }
}
