//! What is said of a recording: which captures it has, of which image, under which registers, and what became of them.

use crate::bytes::{self, Answer, Session};
use crate::cartridge::{Cartridge, Parts};
use crate::refusal::Refusal;
use crate::sizes::{FRAME_BYTES, LINE_BYTES, ROM_BANK};

/// Numbers that are kept of a recording.
const BOOK_WORDS: usize = 13;
/// Room for the events of a line.
const ROOM: usize = 512;

/// A recording, a bus script of any length, that is played in pieces. What is said of it are events, each a line of
/// keys and values with its LF; docs/AUDIT.md has them. Memory does not grow with the recording.
#[derive(Clone, Debug)]
pub struct Audit {
    book: [u64; BOOK_WORDS],
    /// A line that has begun.
    line: [u8; LINE_BYTES],
    rom: Vec<u8>,
    /// State, RAM and frame store.
    parts: Parts,
    image: Vec<u8>,
    /// The RAM before the first line.
    first: Vec<u8>,
    out: [u8; ROOM],
}

impl Default for Audit {
    /// A recording that begins as the program `bus` does: one bank of RAM full of FF.
    fn default() -> Self {
        Audit::of(Cartridge::default())
    }
}

impl Audit {
    /// A recording that begins with the RAM of a battery save.
    pub fn from_battery(ram: Vec<u8>) -> Result<Self, Refusal> {
        Ok(Audit::of(Cartridge::from_battery(ram)?))
    }

    fn of(cartridge: Cartridge) -> Self {
        let parts = cartridge.parts();
        Audit {
            book: [0; BOOK_WORDS],
            line: [0; LINE_BYTES],
            rom: vec![0xFF; ROM_BANK],
            image: vec![0; FRAME_BYTES],
            first: parts.ram.clone(),
            parts,
            out: [0; ROOM],
        }
    }

    /// Plays a piece of the recording, which may end anywhere, and gives each event as its line ends.
    pub fn feed(&mut self, mut piece: &[u8], mut event: impl FnMut(&[u8])) {
        while !piece.is_empty() {
            let read = self
                .played(|book, line, session, out| bytes::audit(book, line, session, piece, out));
            piece = &piece[read..];
            self.said(&mut event);
        }
    }

    /// Ends the recording: a last line without LF, the capture that is held, what has changed outside the picture area,
    /// and the summary.
    pub fn finish(mut self, mut event: impl FnMut(&[u8])) {
        self.played(bytes::audit_end);
        self.said(&mut event);
        let mut place = 0;
        while place < self.first.len() {
            let Audit {
                book,
                first,
                parts,
                out,
                ..
            } = &mut self;
            let next = bytes::audit_changed(book, first, &parts.ram, place as u32, out).result();
            place = next.expect("the RAM is as long as it was, and there is room") as usize;
            self.said(&mut event);
        }
        let summed =
            bytes::audit_summary(&mut self.book, &self.parts.state, &mut self.out).result();
        summed.expect("an audit has a record, and there is room");
        self.said(&mut event);
    }

    /// Lends a call all that a recording is played over; its value.
    fn played(
        &mut self,
        call: impl FnOnce(&mut [u64], &mut [u8], Session, &mut [u8]) -> Answer,
    ) -> usize {
        let session = Session {
            state: &mut self.parts.state,
            rom: &self.rom,
            ram: &mut self.parts.ram,
            store: &mut self.parts.store,
            image: &mut self.image,
        };
        let value = call(&mut self.book, &mut self.line, session, &mut self.out).result();
        value.expect("an audit has a record, and there is room") as usize
    }

    /// Gives the events that a call has written, one at a time.
    fn said(&self, event: &mut impl FnMut(&[u8])) {
        let written = &self.out[..self.book[0] as usize];
        written
            .split_inclusive(|&byte| byte == b'\n')
            .for_each(event);
    }
}
