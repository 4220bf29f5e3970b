//! The calls over a state record with its fields named, and memory that is lent.

use crate::bytes;
use crate::refusal::Refusal;
use crate::sizes::{PICTURE_BYTES, PICTURE_ROWS, REGISTERS, STATE_BYTES};
use crate::state::State;

/// A contrast level that people know, instead of 48 numbers.
#[derive(Clone, Copy, Debug, PartialEq, Eq)]
pub struct Choice {
    /// 0 for high light, 1 for low light.
    pub light: u8,
    /// 0 is the lowest contrast, 7 the default, 15 the highest.
    pub level: u8,
    /// Off, the upper left three values of the matrix stand for all.
    pub dithering: bool,
    /// Exposure steps; unnamed it is 1000h.
    pub exposure: Option<u16>,
}

/// The exposure that names none, as the C function takes it.
const UNNAMED: u32 = 0x1_0000;

/// An element of the 4 by 4 matrix.
#[derive(Clone, Copy, Debug, PartialEq, Eq)]
pub struct Element {
    /// Row, 0 to 3.
    pub row: u8,
    /// Column, 0 to 3.
    pub column: u8,
}

/// The state after reset: write enable off, ROM bank 1, select 0, registers 0, no capture held.
pub fn reset() -> State {
    let mut record = [0; STATE_BYTES];
    let refused = bytes::reset(&mut record).result().is_err();
    assert!(!refused, "a record of 121 bytes is reset");
    State::decode(&record).expect("reset writes a record")
}

/// Reads the byte at an address.
pub fn read(state: &State, rom: &[u8], ram: &[u8], address: u16) -> Result<u8, Refusal> {
    let value = bytes::read(&state.encode(), rom, ram, address).result()?;
    Ok(value as u8)
}

/// Writes a byte to an address; a start lights the image into the frame store.
pub fn write(
    state: &mut State,
    ram: &mut [u8],
    store: &mut [u8],
    image: &[u8],
    address: u16,
    value: u8,
) -> Result<(), Refusal> {
    let mut record = state.encode();
    bytes::write(&mut record, ram, store, image, address, value).result()?;
    state.take(&record);
    Ok(())
}

/// Lets cycles pass; returns how many fell while a capture was running.
pub fn tick(state: &mut State, ram: &mut [u8], store: &[u8], cycles: u32) -> Result<u32, Refusal> {
    let mut record = state.encode();
    let running = bytes::tick(&mut record, ram, store, cycles).result()?;
    state.take(&record);
    Ok(running)
}

/// Writes the matrix and the exposure registers as chosen, and nothing else.
pub fn choose(state: &mut State, choice: Choice) -> Result<(), Refusal> {
    let mut record = state.encode();
    let plain = u8::from(!choice.dithering);
    let exposure = choice.exposure.map_or(UNNAMED, u32::from);
    bytes::choose(&mut record, choice.light, choice.level, plain, exposure).result()?;
    state.take(&record);
    Ok(())
}

/// The first element of the current matrix, by rows and then columns, whose three values don't
/// rise or stay level.
pub fn inspect(state: &State) -> Result<Option<Element>, Refusal> {
    let value = bytes::inspect(&state.encode()).result()?;
    let element = Element {
        row: (value >> 4 & 15) as u8,
        column: (value & 15) as u8,
    };
    Ok((value != 0).then_some(element))
}

/// The whole picture of a frame under the registers taken, as RAM bank 0 gets it from offset
/// 100h on.
pub fn picture(frame: &[u8], registers: &[u8; REGISTERS]) -> Result<[u8; PICTURE_BYTES], Refusal> {
    let mut picture = [0; PICTURE_BYTES];
    bytes::picture(frame, registers, &mut picture).result()?;
    Ok(picture)
}

/// Which rows of a picture area are those of the picture of a frame under the registers taken.
pub fn judge(
    area: &[u8; PICTURE_BYTES],
    frame: &[u8],
    registers: &[u8; REGISTERS],
) -> Result<[bool; PICTURE_ROWS], Refusal> {
    let mut rows = [0; PICTURE_ROWS];
    bytes::judge(area, frame, registers, &mut rows).result()?;
    Ok(rows.map(|row| row == 1))
}

/// A bus script that was salvaged.
#[derive(Clone, Debug, PartialEq, Eq)]
pub struct Salvaged {
    /// The lines that were kept, each with its LF.
    pub text: Vec<u8>,
    /// A byte for each line of the script: 0 kept, 1 malformed, 2 accepted but dropped as repeated.
    pub report: Vec<u8>,
}

/// Keeps the accepted lines of a bus script of at most 32,768 bytes, in order and unaltered; where they are
/// a sequence that starts with reset followed by itself, one half of them, again until they are not. A last
/// line without LF gains one.
pub fn salvage(script: &[u8]) -> Result<Salvaged, Refusal> {
    let mut text = vec![0; script.len() + 1];
    let mut report = vec![0; script.len()];
    let value = bytes::salvage(script, &mut text, &mut report).result()?;
    text.truncate((value & 0xFFFF) as usize);
    report.truncate((value >> 16) as usize);
    Ok(Salvaged { text, report })
}
