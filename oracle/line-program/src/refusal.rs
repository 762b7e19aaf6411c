//! The refusal numbers and the capacities, which the Rust does not have.

pub(crate) const VARIABLES: u32 = 256;
pub(crate) const TRAIL_ENTRIES: usize = 1024;
pub(crate) const OPEN_CHECKPOINTS: usize = 256;

/// The longest slice that a line can lend.
pub(crate) const LONGEST_ROOM: u32 = 1024;

#[derive(Clone, Copy, Debug, PartialEq, Eq)]
#[repr(u8)]
pub(crate) enum Refusal {
    NoVariable = 1,
    NotRoot = 2,
    BadDomain = 3,
    TooManyVariables = 4,
    TrailFull = 5,
    StepOverflow = 6,
    Empty = 7,
    TooManyCheckpoints = 8,
    NotLower = 9,
    NoRoom = 10,
    NoSuchEntry = 11,
    NoDecision = 12,
    NoReason = 13,
    BadLine = 14,
}

impl Refusal {
    pub(crate) fn number(self) -> u8 {
        self as u8
    }

    /// So that a call can list its refusals in their order, one a line.
    pub(crate) fn when(self, condition: bool) -> Result<(), Refusal> {
        if condition { Err(self) } else { Ok(()) }
    }
}
