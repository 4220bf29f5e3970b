//! The commands, each in a module of its name.

mod audit;
mod inspect;
mod judge;
mod photo;
mod picture;
mod place;
mod plate;
mod play;
mod salvage;

use crate::failure::Failure;
use crate::words::Words;

/// What is called by its name.
pub struct Command {
    pub name: &'static str,
    /// A line about it.
    pub about: &'static str,
    /// All about it, with an example, in pieces.
    pub help: &'static [&'static str],
    /// The options that it takes, each with a value.
    pub options: &'static [&'static str],
    /// The status of a file that is refused, or can't be read or written.
    pub failed: u8,
    /// Does it; the status that it ends with.
    pub run: fn(Words) -> Result<u8, Failure>,
}

/// Every command, in the order in which they are told.
pub const COMMANDS: [Command; 9] = [
    play::COMMAND,
    audit::COMMAND,
    judge::COMMAND,
    salvage::COMMAND,
    picture::COMMAND,
    plate::COMMAND,
    place::COMMAND,
    photo::COMMAND,
    inspect::COMMAND,
];
