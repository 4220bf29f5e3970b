//! The state record with its fields named.

use crate::sizes::{LAYOUT, REGISTERS, STATE_BYTES};

/// Everything the controller keeps between calls.
#[derive(Clone, Copy, Debug, PartialEq, Eq)]
pub struct State {
    /// Writes to RAM land.
    pub ram_enabled: bool,
    /// ROM bank shown at 4000-7FFF, 0 to 63.
    pub rom_bank: u8,
    /// RAM bank or, with bit 4 set, registers shown at A000-BFFF, 0 to 31.
    pub ram_select: u8,
    /// A capture is held, running or standing still.
    pub held: bool,
    /// Cycles the held capture has run.
    pub elapsed: u32,
    /// The registers as last written.
    pub registers: [u8; REGISTERS],
    /// The registers as taken when the held capture started.
    pub taken: [u8; REGISTERS],
    /// Captures started since reset, 65,536 counting as 0.
    pub started: u16,
    /// Captures that reached their end since reset, counted likewise.
    pub ended: u16,
}

/// Bytes of the state record of layout 1, which had no number and began with a flag.
const FIRST_LAYOUT_BYTES: usize = 116;

/// The layout that a state record's bytes were saved in, whichever version saved them; none if they are
/// no record's.
pub fn layout_of(state: &[u8]) -> Option<u8> {
    match state {
        [layout, ..] if *layout >= 2 => Some(*layout),
        _ if state.len() == FIRST_LAYOUT_BYTES => Some(1),
        _ => None,
    }
}

impl State {
    /// The record's bytes, numbers little-endian.
    pub fn encode(&self) -> [u8; STATE_BYTES] {
        let mut bytes = [0; STATE_BYTES];
        bytes[0] = LAYOUT;
        bytes[1] = self.ram_enabled.into();
        bytes[2] = self.rom_bank;
        bytes[3] = self.ram_select;
        bytes[4] = self.held.into();
        bytes[5..9].copy_from_slice(&self.elapsed.to_le_bytes());
        bytes[9..11].copy_from_slice(&self.started.to_le_bytes());
        bytes[11..13].copy_from_slice(&self.ended.to_le_bytes());
        bytes[13..67].copy_from_slice(&self.registers);
        bytes[67..].copy_from_slice(&self.taken);
        bytes
    }

    /// The record from its bytes; none if they are of another layout or a flag is neither 0 nor 1.
    pub fn decode(bytes: &[u8; STATE_BYTES]) -> Option<State> {
        let flag = |byte| match byte {
            0 => Some(false),
            1 => Some(true),
            _ => None,
        };
        if bytes[0] != LAYOUT {
            return None;
        }
        let mut state = State {
            ram_enabled: flag(bytes[1])?,
            rom_bank: bytes[2],
            ram_select: bytes[3],
            held: flag(bytes[4])?,
            elapsed: u32::from_le_bytes([bytes[5], bytes[6], bytes[7], bytes[8]]),
            registers: [0; REGISTERS],
            taken: [0; REGISTERS],
            started: u16::from_le_bytes([bytes[9], bytes[10]]),
            ended: u16::from_le_bytes([bytes[11], bytes[12]]),
        };
        state.registers.copy_from_slice(&bytes[13..67]);
        state.taken.copy_from_slice(&bytes[67..]);
        Some(state)
    }

    /// Becomes the record a call handed back.
    pub(crate) fn take(&mut self, bytes: &[u8; STATE_BYTES]) {
        *self = State::decode(bytes).expect("a call hands back a record");
    }
}
