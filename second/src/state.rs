//! The state record.

use crate::capture::Timing;
use crate::refusal::Refusal;
use crate::sizes::REGISTERS;

/// Bytes of the record as [`State::to_bytes`] lays it out.
pub const RECORD_BYTES: usize = 13 + 2 * REGISTERS;
/// The number of that layout, which the record begins with.
pub const LAYOUT: u8 = 3;

const SELECT_REGISTERS: u8 = 0x10;
const CAPTURE_BIT: u8 = 1;

/// Everything the controller remembers between calls.
#[derive(Clone, Copy, Debug, PartialEq, Eq)]
pub struct State {
    /// Writes to RAM land.
    pub ram_enabled: bool,
    /// ROM bank shown at 4000-7FFF, 0 to 63.
    pub rom_bank: u8,
    /// RAM bank or registers shown at A000-BFFF, 0 to 31.
    pub ram_select: u8,
    /// A capture is held, running or standing still.
    pub held: bool,
    /// Cycles the held capture has run.
    pub elapsed: u32,
    /// The registers as last written.
    pub registers: [u8; REGISTERS],
    /// The registers as taken when the held capture started.
    pub taken: [u8; REGISTERS],
    /// Captures started since reset, 65,536 counting as 0.
    pub started: u16,
    /// Captures that reached their end since reset, counted likewise.
    pub ended: u16,
}

impl State {
    /// The state after reset.
    pub const RESET: State = State {
        ram_enabled: false,
        rom_bank: 1,
        ram_select: 0,
        held: false,
        elapsed: 0,
        registers: [0; REGISTERS],
        taken: [0; REGISTERS],
        started: 0,
        ended: 0,
    };

    /// Whether some history of calls could lead here, by the paper's list.
    #[inline]
    pub fn can_exist(&self) -> bool {
        let small = self.rom_bank <= 63 && self.ram_select <= 31 && self.registers[0] <= 7;
        small
            && if self.held {
                self.held_fits()
            } else {
                self.free_fits()
            }
    }

    fn held_fits(&self) -> bool {
        let start = self.taken[0];
        start <= 7 && start & CAPTURE_BIT != 0 && self.elapsed < Timing::of(&self.taken).total()
    }

    fn free_fits(&self) -> bool {
        !self.busy() && self.elapsed == 0 && all_zero(&self.taken)
    }

    /// Refuses a record that can't exist.
    #[inline(always)]
    pub(crate) fn check(&self) -> Result<(), Refusal> {
        if self.can_exist() {
            Ok(())
        } else {
            Err(Refusal::State)
        }
    }

    /// Register 0 has bit 0 set.
    pub fn busy(&self) -> bool {
        self.registers[0] & CAPTURE_BIT != 0
    }

    /// A capture is held and not standing still.
    pub fn running(&self) -> bool {
        self.held && self.busy()
    }

    /// A000-BFFF shows the registers instead of RAM.
    pub(crate) fn shows_registers(&self) -> bool {
        self.ram_select & SELECT_REGISTERS != 0
    }

    /// A write to RAM lands, where the window shows RAM.
    pub(crate) fn takes_writes(&self) -> bool {
        self.ram_enabled && !self.busy()
    }

    /// Stores register 0 and says whether that starts a capture.
    pub(crate) fn set_trigger(&mut self, value: u8) -> bool {
        self.registers[0] = value & 7;
        let starts = self.busy() && !self.held;
        if starts {
            self.held = true;
            self.elapsed = 0;
            self.taken = self.registers;
            self.started = self.started.wrapping_add(1);
        }
        starts
    }

    /// Lets go of a capture that has reached its total.
    pub(crate) fn finish(&mut self) {
        self.registers[0] &= !CAPTURE_BIT;
        self.held = false;
        self.elapsed = 0;
        self.taken = [0; REGISTERS];
        self.ended = self.ended.wrapping_add(1);
    }

    /// The record as 121 bytes, numbers little-endian.
    pub fn to_bytes(&self) -> [u8; RECORD_BYTES] {
        let mut bytes = [0; RECORD_BYTES];
        bytes[0] = LAYOUT;
        bytes[1] = self.ram_enabled.into();
        bytes[2] = self.rom_bank;
        bytes[3] = self.ram_select;
        bytes[4] = self.held.into();
        bytes[5..9].copy_from_slice(&self.elapsed.to_le_bytes());
        bytes[9..11].copy_from_slice(&self.started.to_le_bytes());
        bytes[11..13].copy_from_slice(&self.ended.to_le_bytes());
        bytes[13..67].copy_from_slice(&self.registers);
        bytes[67..].copy_from_slice(&self.taken);
        bytes
    }

    /// The record from its bytes; none for another length or layout or a flag above 1.
    pub fn from_bytes(bytes: &[u8]) -> Option<State> {
        let bytes: &[u8; RECORD_BYTES] = bytes.try_into().ok()?;
        if bytes[0] != LAYOUT || bytes[1] > 1 || bytes[4] > 1 {
            return None;
        }
        Some(State {
            ram_enabled: bytes[1] == 1,
            rom_bank: bytes[2],
            ram_select: bytes[3],
            held: bytes[4] == 1,
            elapsed: u32::from_le_bytes([bytes[5], bytes[6], bytes[7], bytes[8]]),
            registers: bytes[13..67].try_into().ok()?,
            taken: bytes[67..].try_into().ok()?,
            started: u16::from_le_bytes([bytes[9], bytes[10]]),
            ended: u16::from_le_bytes([bytes[11], bytes[12]]),
        })
    }
}

/// Whether all registers are 0, looked at eight by eight.
fn all_zero(registers: &[u8; REGISTERS]) -> bool {
    let eights = registers.chunks_exact(8);
    let rest = eights.remainder().iter().fold(0, |all, byte| all | byte);
    let word = |eight: &[u8]| eight.try_into().map_or(0, u64::from_ne_bytes);
    eights.fold(u64::from(rest), |all, eight| all | word(eight)) == 0
}

impl Default for State {
    fn default() -> Self {
        State::RESET
    }
}
