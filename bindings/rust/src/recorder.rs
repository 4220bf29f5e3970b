//! What was done to a cartridge, as the lines of a bus script.

use crate::bytes::{self, Answer};
use crate::sizes::{LINE_BYTES, REGISTERS, ROW_BYTES};
use crate::state::State;

/// The lines so far, and what they tell of the image.
#[derive(Clone, Debug, PartialEq, Eq)]
pub(crate) struct Recorder {
    script: Vec<u8>,
    /// Every row of the image has a line.
    rows_written: bool,
    /// Whoever plays the lines has the image that the cartridge has.
    image_known: bool,
}

impl Recorder {
    /// An empty recording; the image is known if it is the one that a script begins with.
    pub fn new(image_known: bool) -> Self {
        Recorder {
            script: Vec::new(),
            rows_written: false,
            image_known,
        }
    }

    pub fn script(&self) -> &[u8] {
        &self.script
    }

    pub fn reset(&mut self) {
        self.append(bytes::record_reset);
    }

    pub fn read(&mut self, address: u16) {
        self.append(|out| bytes::record_read(address, out));
    }

    /// A write is lent the image, which may have to be told first.
    pub fn write(&mut self, image: &[u8], address: u16, value: u8) {
        self.before_line(image);
        self.append(|out| bytes::record_write(address, value, out));
    }

    /// A choice, which left this state, has no line of its own: select to the registers, the registers
    /// that it wrote, select back.
    pub fn choose(&mut self, image: &[u8], state: &State) {
        self.write(image, 0x4000, 0x10);
        for number in [2, 3].into_iter().chain(6..REGISTERS) {
            self.write(image, 0xA000 + number as u16, state.registers[number]);
        }
        self.write(image, 0x4000, state.ram_select);
    }

    /// A placing, which left this area and kept this state, has no line of its own: RAM writing on,
    /// select to bank 0, the bytes of the area, select and RAM writing back.
    pub fn place(&mut self, image: &[u8], state: &State, area: &[u8]) {
        self.write(image, 0x0000, 0x0A);
        self.write(image, 0x4000, 0);
        for (address, &byte) in (0xA100..).zip(area) {
            self.write(image, address, byte);
        }
        self.write(image, 0x4000, state.ram_select);
        self.write(image, 0x0000, if state.ram_enabled { 0x0A } else { 0 });
    }

    pub fn tick(&mut self, cycles: u32) {
        self.append(|out| bytes::record_tick(cycles, out));
    }

    /// A line is about to be carried out, which may be a write: the image may have to be told first.
    pub fn before_line(&mut self, image: &[u8]) {
        if !self.image_known {
            self.lend(&[], image);
        }
    }

    /// A line that was carried out, without its LF.
    pub fn line(&mut self, line: &[u8]) {
        self.script.extend_from_slice(line);
        self.script.push(b'\n');
    }

    /// Another image is lent: the rows that changed, and the first time all.
    pub fn lend(&mut self, before: &[u8], now: &[u8]) {
        let mut before = before.chunks_exact(ROW_BYTES);
        for (number, row) in (0..).zip(now.chunks_exact(ROW_BYTES)) {
            if before.next() != Some(row) || !self.rows_written {
                self.append(|out| bytes::record_row(number, row, out));
            }
        }
        (self.rows_written, self.image_known) = (true, true);
    }

    /// Appends a line as the archive writes it.
    fn append(&mut self, line: impl FnOnce(&mut [u8]) -> Answer) {
        let end = self.script.len();
        self.script.resize(end + LINE_BYTES, 0);
        let length = line(&mut self.script[end..]).result();
        let length = length.expect("there is room for every line");
        self.script.truncate(end + length as usize);
    }
}
