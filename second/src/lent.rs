//! What a lent memory must be.

use crate::refusal::Refusal;
use crate::sizes::{FRAME_BYTES, RAM_BANK, ROM_BANK};

/// Refuses a ROM length that is not allowed.
pub(crate) fn check_rom(rom: &[u8]) -> Result<(), Refusal> {
    banked(rom.len(), ROM_BANK, 64)
        .then_some(())
        .ok_or(Refusal::Rom)
}

/// Refuses a RAM length that is not allowed.
pub(crate) fn check_ram(ram: &[u8]) -> Result<(), Refusal> {
    banked(ram.len(), RAM_BANK, 16)
        .then_some(())
        .ok_or(Refusal::Ram)
}

/// Refuses an image or frame store of another size.
pub(crate) fn check_frame(frame: &[u8]) -> Result<(), Refusal> {
    (frame.len() == FRAME_BYTES)
        .then_some(())
        .ok_or(Refusal::Frame)
}

/// Whether a length is one to `most` banks, their count a power of two.
fn banked(length: usize, bank: usize, most: usize) -> bool {
    let banks = length / bank;
    length % bank == 0 && banks.is_power_of_two() && banks <= most
}
