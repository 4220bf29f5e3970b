//! The calls with the second program's answers, as a stream that another caller of the module
//! replays.
//!
//! Both sides keep the nine memories in the order of [`memories`], each of them zeros at first, with
//! a length that is in use. Then come steps, numbers little-endian:
//!
//! - [`LENT`], which memory, its length as 4 bytes, a patch: it is lent so from here on;
//! - the kind of a call 0 to 21 and its words, the answer as 8 bytes, how many memories it changed,
//!   and of each which one and a patch. The memory of what a call gives out, a picture, a line, a
//!   file, or a text and its report, is all [`UNDRAWN`] before;
//! - [`END`] and how many calls there were, as 8 bytes.
//!
//! A patch is a place and a count of bytes, 4 bytes each, and the bytes.

use crate::call::{Call, Lent};
use crate::sides::{Side, UNDRAWN};
use second::Frame;
use std::fs::File;
use std::io::{Result, Write};

const LENT: u8 = 0xFF;
const END: u8 = 0xFE;
/// Which of the memories is the picture, the first that a call gives out.
const PICTURE: usize = 6;
/// Which is whatever else is given out.
const OUT: usize = 7;
/// Which is the report that a salvage gives out besides.
const REPORT: usize = 8;
/// How many bytes of steps are written at once.
const PIECE: usize = 1 << 20;

/// Where the steps go, and the memories as who replays them has them.
pub struct Answers {
    file: File,
    /// Steps not yet written, and whether those before them were.
    steps: Vec<u8>,
    written: Result<()>,
    memories: [Vec<u8>; 9],
    lengths: [usize; PICTURE],
    calls: u64,
}

/// Which of the memories a picture is made of.
fn frame_number(of: Lent) -> u8 {
    if of == Lent::Image {
        4
    } else {
        3
    }
}

fn memories(side: &Side) -> [&[u8]; 9] {
    [
        &side.state,
        &side.rom,
        &side.ram,
        &side.store,
        &side.image,
        &side.file,
        &side.picture,
        &side.out,
        &side.report,
    ]
}

impl Answers {
    /// Opens the file, or the pipe, that the steps go to.
    pub fn new(path: &str) -> Result<Self> {
        Ok(Answers {
            file: File::create(path)?,
            steps: Vec::new(),
            written: Ok(()),
            memories: Default::default(),
            lengths: [0; PICTURE],
            calls: 0,
        })
    }

    /// Notes what a call is lent that was not lent before.
    pub fn lend(&mut self, side: &Side) {
        for (what, &bytes) in memories(side)[..PICTURE].iter().enumerate() {
            let patch = self.patch(what, bytes);
            if patch.is_some() || self.lengths[what] != bytes.len() {
                self.lengths[what] = bytes.len();
                self.steps.extend([LENT, what as u8]);
                self.steps.extend((bytes.len() as u32).to_le_bytes());
                self.put(patch.unwrap_or((0, &[])));
            }
        }
    }

    /// Notes a call, its answer and what it changed.
    pub fn call(&mut self, call: &Call, answer: u64, after: &Side) {
        self.calls += 1;
        self.words(call);
        self.steps.extend(answer.to_le_bytes());
        let count = self.steps.len();
        self.steps.push(0);
        let given_out: &[usize] = match call {
            Call::Picture { .. } => &[PICTURE],
            Call::Record { .. }
            | Call::Export { .. }
            | Call::Shades { .. }
            | Call::Readings { .. }
            | Call::Save { .. }
            | Call::Judge { .. }
            | Call::Step { .. } => &[OUT],
            Call::Salvage { .. } => &[OUT, REPORT],
            _ => &[],
        };
        let bytes = memories(after);
        for &what in given_out {
            self.memories[what] = vec![UNDRAWN; bytes[what].len()];
        }
        for what in (0..PICTURE).chain(given_out.iter().copied()) {
            if let Some(patch) = self.patch(what, bytes[what]) {
                self.steps[count] += 1;
                self.steps.push(what as u8);
                self.put(patch);
            }
        }
        if self.steps.len() > PIECE {
            self.hand_on();
        }
    }

    /// Ends the steps; an error if any of them could not be written.
    pub fn finish(mut self) -> Result<()> {
        self.steps.push(END);
        self.steps.extend(self.calls.to_le_bytes());
        self.hand_on();
        self.written
    }

    /// Writes what has gathered, unless that failed before.
    fn hand_on(&mut self) {
        if self.written.is_ok() {
            self.written = self.file.write_all(&self.steps);
        }
        self.steps.clear();
    }

    /// The kind of a call and its words.
    fn words(&mut self, call: &Call) {
        match call {
            Call::Reset => self.steps.push(0),
            Call::Read { address } => {
                self.steps.push(1);
                self.steps.extend(address.to_le_bytes());
            }
            Call::Write { address, value } => {
                self.steps.push(2);
                self.steps.extend(address.to_le_bytes());
                self.steps.push(*value);
            }
            Call::Tick { cycles } => {
                self.steps.push(3);
                self.steps.extend(cycles.to_le_bytes());
            }
            Call::Inspect => self.steps.push(4),
            Call::Picture { of, registers } => {
                self.steps.extend([5, frame_number(*of)]);
                self.steps.extend(&registers[..]);
            }
            Call::Record { frame, room } => {
                self.frame(frame);
                self.steps.extend((*room as u16).to_le_bytes());
            }
            Call::Export { room } => {
                self.steps.push(11);
                self.steps.extend((*room as u16).to_le_bytes());
            }
            Call::Import => self.steps.push(12),
            Call::Choose {
                light,
                level,
                plain,
                exposure,
            } => {
                self.steps.extend([13, *light, *level, *plain]);
                self.steps.extend(exposure.to_le_bytes());
            }
            Call::Place => self.steps.push(14),
            Call::Shades { room } => {
                self.steps.push(15);
                self.steps.extend((*room as u16).to_le_bytes());
            }
            Call::Readings { room } => {
                self.steps.push(16);
                self.steps.extend((*room as u16).to_le_bytes());
            }
            Call::Salvage { room, report } => {
                self.steps.push(17);
                self.steps.extend((*room as u16).to_le_bytes());
                self.steps.extend((*report as u16).to_le_bytes());
            }
            Call::Save { room } => {
                self.steps.push(18);
                self.steps.extend((*room as u32).to_le_bytes());
            }
            Call::Restore => self.steps.push(19),
            Call::Judge {
                of,
                plate,
                registers,
                room,
            } => {
                self.steps.extend([20, frame_number(*of)]);
                self.steps.extend(&plate[..]);
                self.steps.extend(&registers[..]);
                self.steps.extend((*room as u16).to_le_bytes());
            }
            Call::Step { line, room } => {
                self.steps.push(21);
                self.steps.extend((line.len() as u32).to_le_bytes());
                self.steps.extend(&line[..]);
                self.steps.extend((*room as u16).to_le_bytes());
            }
            Call::Image { .. }
            | Call::Photo { .. }
            | Call::Plate { .. }
            | Call::Script { .. }
            | Call::Keep
            | Call::KeepSave
            | Call::Damage { .. }
            | Call::Lend { .. }
            | Call::Put { .. } => unreachable!("what is lent is no call"),
        }
    }

    /// The kind and the words of a frame that is written as a line.
    fn frame(&mut self, frame: &Frame<Box<[u8]>>) {
        match frame {
            Frame::Reset => self.steps.push(6),
            Frame::Read { address } => {
                self.steps.push(7);
                self.steps.extend(address.to_le_bytes());
            }
            Frame::Write { address, value } => {
                self.steps.push(8);
                self.steps.extend(address.to_le_bytes());
                self.steps.push(*value);
            }
            Frame::Tick { cycles } => {
                self.steps.push(9);
                self.steps.extend(cycles.to_le_bytes());
            }
            Frame::Row { row, pixels } => {
                self.steps.extend([10, *row]);
                self.steps.extend((pixels.len() as u16).to_le_bytes());
                self.steps.extend(&pixels[..]);
            }
        }
    }

    /// Makes a memory what it is now: from the first byte that differs to the last.
    fn patch<'a>(&mut self, what: usize, now: &'a [u8]) -> Option<(usize, &'a [u8])> {
        let held = &mut self.memories[what];
        held.resize(held.len().max(now.len()), 0);
        let held = &mut held[..now.len()];
        if held == now {
            return None;
        }
        let differs = |place: &usize| held[*place] != now[*place];
        let first = (0..now.len()).find(differs)?;
        let last = (0..now.len()).rev().find(differs)?;
        held.copy_from_slice(now);
        Some((first, &now[first..=last]))
    }

    fn put(&mut self, (place, bytes): (usize, &[u8])) {
        self.steps.extend((place as u32).to_le_bytes());
        self.steps.extend((bytes.len() as u32).to_le_bytes());
        self.steps.extend(bytes);
    }
}
