//! When a capture does what, from the registers taken at its start.

use crate::picture;
use crate::sizes::{REGISTERS, SENSOR_WIDTH};
use std::ops::Range;

/// The timing of one capture, in cartridge cycles; two make one sensor clock.
#[derive(Clone, Copy, Debug, PartialEq, Eq)]
pub struct Timing {
    exposure: u32,
    n: bool,
}

impl Timing {
    /// The timing the registers ask for.
    pub fn of(registers: &[u8; REGISTERS]) -> Timing {
        Timing {
            exposure: u16::from_be_bytes([registers[2], registers[3]]).into(),
            n: registers[1] & 0x80 != 0,
        }
    }

    /// Cycles from start to end, 1,081,518 at most.
    pub fn total(self) -> u32 {
        32_446 + if self.n { 0 } else { 512 } + 16 * self.exposure
    }

    /// Clocks before the reading of pixels begins.
    pub fn reading_starts(self) -> u32 {
        92 + 8 * self.exposure
    }

    /// The sensor rows read: all of them, or without the first and last when N is set.
    fn rows(self) -> Range<u32> {
        if self.n {
            1..127
        } else {
            0..128
        }
    }

    /// How many pixels have been written once so many cycles have elapsed.
    fn pixels_at(self, elapsed: u32) -> u32 {
        let all = self.rows().len() as u32 * SENSOR_WIDTH as u32;
        (elapsed / 2).saturating_sub(self.reading_starts()).min(all)
    }

    /// How many picture pixels, counted row by row, have been written by then.
    fn picture_pixels_at(self, elapsed: u32) -> usize {
        let above = (picture::FIRST_ROW as u32 - self.rows().start) * SENSOR_WIDTH as u32;
        let written = self.pixels_at(elapsed).saturating_sub(above) as usize;
        written.min(picture::PIXELS)
    }

    /// The picture pixels written while the elapsed cycles go from one number to another.
    pub fn picture_pixels(self, from: u32, to: u32) -> Range<usize> {
        self.picture_pixels_at(from)..self.picture_pixels_at(to)
    }
}
