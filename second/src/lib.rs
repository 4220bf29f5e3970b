//! The Game Boy Camera cartridge controller (MAC-GBD), written a second time from the paper alone (docs/RULES.md has its rules).
//!
//! [`State`] is the record the controller keeps; ROM, RAM, image and frame store are lent as slices.
//! [`read`], [`write()`], [`tick`], [`inspect`] and [`picture`] are the calls, [`Session`] is the bus script
//! and [`step`] one line of it, [`Frame::write_line`] writes its lines and [`salvage()`] cleans it;
//! [`Audit`] plays a script and says what became of its captures.
//! [`export`] makes a grey image of the picture area, [`place`] puts one back and [`shades`] reads the
//! area; [`export_readings`] makes a grey image of the values before the dots, and [`import`] an image
//! of a colour photograph. [`judge()`] says which rows of a plate are those of a frame's own picture.
//! [`choose`] sets a contrast level by its number. [`save()`] and [`restore`] have state, RAM and frame
//! store as one file, with a checksum, [`crc32`].
//!
//! The modules from the bottom up, each of which uses only those named before it:
//! sizes, refusal, levels, lines, crc, lent, picture, capture, state, bus, colour, desk, grey, judge, save, script, salvage, audit.

#![forbid(unsafe_code)]

mod audit;
mod bus;
mod capture;
mod colour;
mod crc;
mod desk;
mod grey;
mod judge;
mod lent;
mod levels;
mod lines;
mod picture;
mod refusal;
mod salvage;
mod save;
mod script;
mod sizes;
mod state;
#[cfg(test)]
mod tests;

pub use audit::Audit;
pub use bus::{inspect, read, tick, write, Element};
pub use capture::Timing;
pub use colour::import;
pub use crc::crc32;
pub use desk::choose;
pub use grey::{export, export_readings, place, shades, GREY_FILE_BYTES};
pub use judge::judge;
pub use levels::CONTRAST_LEVELS;
pub use lines::{Lines, LONGEST_LINE};
pub use picture::{
    picture, Plate, PICTURE_HEIGHT, PICTURE_WIDTH, PIXELS, PLATE_BYTES, PLATE_OFFSET,
};
pub use refusal::Refusal;
pub use salvage::{salvage, Salvaged, LONGEST_SCRIPT};
pub use save::{restore, save, SAVE_BYTES};
pub use script::{step, Frame, Session, LONGEST_ANSWER};
pub use sizes::{FRAME_BYTES, RAM_BANK, REGISTERS, ROM_BANK, SENSOR_HEIGHT, SENSOR_WIDTH};
pub use state::{State, LAYOUT, RECORD_BYTES};
