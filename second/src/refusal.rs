//! Why a call is refused.

/// A refusal; the number of each case is the paper's.
#[derive(Clone, Copy, Debug, PartialEq, Eq, PartialOrd, Ord)]
#[repr(u8)]
pub enum Refusal {
    /// The state record can't exist.
    State = 1,
    /// The ROM length is not allowed.
    Rom = 2,
    /// The RAM length is not allowed.
    Ram = 3,
    /// The image or the frame store is not 16,384 bytes.
    Frame = 4,
    /// The address is outside 0000-7FFF and A000-BFFF.
    Address = 5,
    /// A script line is malformed, or a frame is none that a line can say.
    Line = 6,
    /// A buffer lent for output is too short.
    Buffer = 7,
    /// A file is not of the one kind that is read.
    File = 8,
    /// There is no such light set or contrast level.
    Choice = 9,
    /// A capture is held, running or standing still.
    Held = 10,
    /// No capture is held.
    NotHeld = 11,
    /// A script is longer than can be cleaned.
    Script = 12,
}

impl Refusal {
    /// The paper's number.
    pub const fn number(self) -> u8 {
        self as u8
    }
}
