//! The calls: bus reads and writes, the passing of cycles, and matrix inspection.

use crate::capture::Timing;
use crate::lent::{check_frame, check_ram, check_rom};
use crate::picture::{self, PLATE_AREA};
use crate::refusal::Refusal;
use crate::sizes::{RAM_BANK, REGISTERS, ROM_BANK};
use crate::state::State;

const WINDOW: u16 = 0xA000;
const REGISTER_MIRROR: usize = 0x80;

/// The areas an address can fall in.
#[derive(Clone, Copy)]
enum Area {
    /// 0000-7FFF.
    Rom(u16),
    /// A000-BFFF, with the offset in it.
    Window(usize),
}

impl Area {
    fn of(address: u16) -> Result<Area, Refusal> {
        match address {
            0x0000..=0x7FFF => Ok(Area::Rom(address)),
            WINDOW..=0xBFFF => Ok(Area::Window((address - WINDOW).into())),
            _ => Err(Refusal::Address),
        }
    }
}

/// Where in RAM the window shows an offset; banks repeat when there are fewer than 16, and their
/// count is a power of two, so that a mask repeats them.
fn ram_place(state: &State, ram: &[u8], offset: usize) -> usize {
    (usize::from(state.ram_select % 16) * RAM_BANK + offset) & (ram.len() - 1)
}

/// Reads the byte at an address.
pub fn read(state: &State, rom: &[u8], ram: &[u8], address: u16) -> Result<u8, Refusal> {
    state.check()?;
    check_rom(rom)?;
    check_ram(ram)?;
    read_judged(state, rom, ram, address)
}

/// Reads, where all that is lent is known to be allowed.
#[inline(always)]
pub(crate) fn read_judged(
    state: &State,
    rom: &[u8],
    ram: &[u8],
    address: u16,
) -> Result<u8, Refusal> {
    Ok(match Area::of(address)? {
        Area::Rom(address) => rom[rom_place(state, rom, address.into())],
        Area::Window(offset) if state.shows_registers() => read_register(state, offset),
        Area::Window(_) if state.busy() => 0,
        Area::Window(offset) => ram[ram_place(state, ram, offset)],
    })
}

/// Where in ROM an address lies; banks repeat as those of the RAM do when there are fewer than 64.
fn rom_place(state: &State, rom: &[u8], address: usize) -> usize {
    if address < ROM_BANK {
        return address;
    }
    (usize::from(state.rom_bank) * ROM_BANK + address % ROM_BANK) & (rom.len() - 1)
}

/// Only register 0 can be read back.
fn read_register(state: &State, offset: usize) -> u8 {
    if offset % REGISTER_MIRROR == 0 {
        state.registers[0]
    } else {
        0
    }
}

/// Writes a byte to an address; a start lights the image into the frame store.
pub fn write(
    state: &mut State,
    ram: &mut [u8],
    store: &mut [u8],
    image: &[u8],
    address: u16,
    value: u8,
) -> Result<(), Refusal> {
    state.check()?;
    check_ram(ram)?;
    check_frame(store)?;
    check_frame(image)?;
    write_judged(state, ram, store, image, address, value)
}

/// Writes, where all that is lent is known to be allowed.
#[inline(always)]
pub(crate) fn write_judged(
    state: &mut State,
    ram: &mut [u8],
    store: &mut [u8],
    image: &[u8],
    address: u16,
    value: u8,
) -> Result<(), Refusal> {
    match Area::of(address)? {
        Area::Rom(address) => write_control(state, address, value),
        Area::Window(offset) if state.shows_registers() => {
            if write_register(state, offset % REGISTER_MIRROR, value) {
                picture::light(store, image, &state.taken);
            }
        }
        Area::Window(offset) => {
            if state.takes_writes() {
                ram[ram_place(state, ram, offset)] = value;
            }
        }
    }
    Ok(())
}

/// Where in RAM a write to an address lands, if it does.
pub(crate) fn landing(state: &State, ram: &[u8], address: u16) -> Option<usize> {
    match Area::of(address) {
        Ok(Area::Window(offset)) if !state.shows_registers() && state.takes_writes() => {
            Some(ram_place(state, ram, offset))
        }
        _ => None,
    }
}

/// A write below 8000 sets the write enable, the ROM bank or the select, or does nothing.
fn write_control(state: &mut State, address: u16, value: u8) {
    match (address >> 13, value) {
        (0, 0x0A) => state.ram_enabled = true,
        (0, 0x00) => state.ram_enabled = false,
        (1, _) => state.rom_bank = value & 0x3F,
        (2, _) => state.ram_select = value & 0x1F,
        _ => {}
    }
}

/// Writes a register and says whether that starts a capture.
fn write_register(state: &mut State, register: usize, value: u8) -> bool {
    match register {
        0 => state.set_trigger(value),
        1..REGISTERS => {
            state.registers[register] = value;
            false
        }
        _ => false,
    }
}

/// Lets cycles pass; returns how many fell while a capture was running.
pub fn tick(state: &mut State, ram: &mut [u8], store: &[u8], cycles: u32) -> Result<u32, Refusal> {
    state.check()?;
    check_ram(ram)?;
    check_frame(store)?;
    Ok(tick_judged(state, ram, store, cycles))
}

/// Lets cycles pass, where all that is lent is known to be allowed.
#[inline(always)]
pub(crate) fn tick_judged(state: &mut State, ram: &mut [u8], store: &[u8], cycles: u32) -> u32 {
    if !state.running() {
        return 0;
    }
    let timing = Timing::of(&state.taken);
    let from = state.elapsed;
    let to = from.saturating_add(cycles).min(timing.total());
    let plate = &mut ram[PLATE_AREA];
    picture::draw(plate, store, &state.taken, timing.picture_pixels(from, to));
    state.elapsed = to;
    if to == timing.total() {
        state.finish();
    }
    to - from
}

/// An element of the 4 by 4 matrix.
#[derive(Clone, Copy, Debug, PartialEq, Eq)]
pub struct Element {
    /// Row, 0 to 3.
    pub row: u8,
    /// Column, 0 to 3.
    pub column: u8,
}

/// The first element of the current matrix whose three values don't rise or stay level.
pub fn inspect(state: &State) -> Result<Option<Element>, Refusal> {
    state.check()?;
    let reversed = |element: &[u8]| element[0] > element[1] || element[1] > element[2];
    let place = state.registers[picture::MATRIX..]
        .chunks_exact(3)
        .position(reversed);
    Ok(place.map(|place| Element {
        row: place as u8 / 4,
        column: place as u8 % 4,
    }))
}
