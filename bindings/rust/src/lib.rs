//! The Game Boy Camera cartridge controller (MAC-GBD), over the C functions of its archive.
//!
//! [`State`] is the record the controller keeps between calls. ROM, RAM, image and frame store
//! belong to the caller and are lent to each call as slices:
//!
//! - ROM: 16,384 bytes times 1, 2, 4, 8, 16, 32 or 64, else [`Refusal::Rom`];
//! - RAM: 8,192 bytes times 1, 2, 4, 8 or 16, else [`Refusal::Ram`];
//! - image and frame store: 16,384 bytes each, else [`Refusal::Frame`].
//!
//! The image has the light of each pixel, the frame store the value 0 to 255 that a start made of it under
//! the registers it took, before the filters. Whatever store is lent is read as such values.
//!
//! A refused call changes neither the state nor a byte lent. The lowest refusal is given.
//! [`Cartridge`] owns all of these and has the calls as methods.
//! [`salvage`] cleans a bus script, [`Audit`] says what became of a recording's captures, and [`judge`] which rows of a
//! plate are a frame's. [`bytes`] has the same calls over the record's bytes, as the C functions take it.

// The modules from the bottom up, each of which uses only those named before it:
// ffi, files, sizes, state, refusal, bytes, calls, recorder, cartridge, audit.

mod audit;
pub mod bytes;
mod calls;
mod cartridge;
mod ffi;
mod files;
mod recorder;
mod refusal;
mod sizes;
mod state;

pub use audit::Audit;
pub use calls::{
    choose, inspect, judge, picture, read, reset, salvage, tick, write, Choice, Element, Salvaged,
};
pub use cartridge::{Cartridge, Parts};
pub use files::{write_whole, Whole};
pub use refusal::Refusal;
pub use sizes::*;
pub use state::{layout_of, State};
