//! Why a call is refused.

use crate::sizes::LAYOUT;
use crate::state::layout_of;

/// Why a call is refused; the number of each case is the interface's.
#[derive(Clone, Copy, Debug, PartialEq, Eq, PartialOrd, Ord)]
pub enum Refusal {
    /// The state record can't exist.
    State,
    /// The state's bytes are of this layout: another version saved them. Its number is 1 too.
    Layout(u8),
    /// The ROM length is not allowed.
    Rom,
    /// The RAM length is not allowed.
    Ram,
    /// The image or the frame store is not 16,384 bytes.
    Frame,
    /// The address is outside 0000-7FFF and A000-BFFF.
    Address,
    /// The script line, or the image row for one, is malformed.
    Line,
    /// The room lent for what is written is too short.
    Room,
    /// The file is not one that can be read.
    File,
    /// The light set of a choice is above 1, or its level above 15.
    Choice,
    /// A capture is held, running or stopped.
    Held,
    /// No capture is held.
    NotHeld,
    /// The script is over 32,768 bytes.
    Script,
}

impl Refusal {
    /// The interface's number, 1 to 12.
    pub const fn number(self) -> u8 {
        match self {
            Refusal::State | Refusal::Layout(_) => 1,
            Refusal::Rom => 2,
            Refusal::Ram => 3,
            Refusal::Frame => 4,
            Refusal::Address => 5,
            Refusal::Line => 6,
            Refusal::Room => 7,
            Refusal::File => 8,
            Refusal::Choice => 9,
            Refusal::Held => 10,
            Refusal::NotHeld => 11,
            Refusal::Script => 12,
        }
    }

    /// The refusal of bytes that are no record: where they are of another layout, it says so.
    pub(crate) fn of_no_record(state: &[u8]) -> Refusal {
        match layout_of(state) {
            Some(layout) if layout != LAYOUT => Refusal::Layout(layout),
            _ => Refusal::State,
        }
    }

    /// The refusal of a number; none outside 1 to 12.
    pub const fn from_number(number: u32) -> Option<Refusal> {
        Some(match number {
            1 => Refusal::State,
            2 => Refusal::Rom,
            3 => Refusal::Ram,
            4 => Refusal::Frame,
            5 => Refusal::Address,
            6 => Refusal::Line,
            7 => Refusal::Room,
            8 => Refusal::File,
            9 => Refusal::Choice,
            10 => Refusal::Held,
            11 => Refusal::NotHeld,
            12 => Refusal::Script,
            _ => return None,
        })
    }
}

impl std::fmt::Display for Refusal {
    fn fmt(&self, f: &mut std::fmt::Formatter<'_>) -> std::fmt::Result {
        f.write_str(match self {
            Refusal::State => "the state record can't exist",
            Refusal::Layout(layout) => {
                return write!(
                    f,
                    "the state is of layout {layout}, and this program reads layout {LAYOUT}: another version saved it"
                )
            }
            Refusal::Rom => "the ROM length is not allowed",
            Refusal::Ram => "the RAM length is not allowed",
            Refusal::Frame => "the image or the frame store is not 16,384 bytes",
            Refusal::Address => "the address is outside 0000-7FFF and A000-BFFF",
            Refusal::Line => "the script line or image row is malformed",
            Refusal::Room => "the room lent for what is written is too short",
            Refusal::File => "the file is not one that can be read",
            Refusal::Choice => "the light set is above 1 or the level above 15",
            Refusal::Held => "a capture is held, running or stopped",
            Refusal::NotHeld => "no capture is held, running or stopped",
            Refusal::Script => "the script is over 32,768 bytes",
        })
    }
}

impl std::error::Error for Refusal {}
