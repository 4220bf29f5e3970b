//! The picture area as a grey image, a Netpbm file of kind P5, out and in, and as shades; the readings too.

use crate::lent::{check_frame, check_ram};
use crate::picture::{
    self, gather, tile_row, Plate, OCTET, PICTURE_WIDTH, PIXELS, PLATE_AREA, PLATE_BYTES, TILE,
};
use crate::refusal::Refusal;
use crate::state::State;

/// What every file starts with.
const HEADER: &[u8] = b"P5\n128 112\n255\n";
/// Bytes of a file, header and pixels.
pub const GREY_FILE_BYTES: usize = HEADER.len() + PIXELS;

/// A one in each of the eight bytes of a word.
const ONES: u64 = u64::from_ne_bytes([1; OCTET]);
/// Grey less from one shade to the next.
const SHADE_STEP: u64 = 85;

/// Writes the picture area as a file into a lent buffer, whose later bytes stay.
pub fn export(ram: &[u8], buffer: &mut [u8]) -> Result<(), Refusal> {
    check_ram(ram)?;
    let pixels = put_header(file_in(buffer)?);
    // White is 255, and no byte of the product overflows.
    each_octet(&ram[PLATE_AREA], pixels, |shades| !(shades * SHADE_STEP));
    Ok(())
}

/// Writes the values before the matrix as a file like [`export`]'s, from the store and the
/// registers taken by the capture held; all of them, however far it has run.
pub fn export_readings(state: &State, store: &[u8], buffer: &mut [u8]) -> Result<(), Refusal> {
    state.check()?;
    check_frame(store)?;
    let file = file_in(buffer)?;
    if !state.held {
        return Err(Refusal::NotHeld);
    }
    picture::values(put_header(file), store, &state.taken);
    Ok(())
}

/// Reads the picture area into a lent buffer, one shade a byte; its later bytes stay.
pub fn shades(ram: &[u8], buffer: &mut [u8]) -> Result<(), Refusal> {
    check_ram(ram)?;
    let pixels = buffer.get_mut(..PIXELS).ok_or(Refusal::Buffer)?;
    each_octet(&ram[PLATE_AREA], pixels, |shades| shades);
    Ok(())
}

/// Places a file as [`export`] writes it in the picture area, RAM writing enabled or not.
pub fn place(state: &State, ram: &mut [u8], file: &[u8]) -> Result<(), Refusal> {
    state.check()?;
    check_ram(ram)?;
    let plate = plate_of(file).ok_or(Refusal::File)?;
    if state.held {
        return Err(Refusal::Held);
    }
    ram[PLATE_AREA].copy_from_slice(&plate);
    Ok(())
}

/// The part of a lent buffer that a file fills.
fn file_in(buffer: &mut [u8]) -> Result<&mut [u8], Refusal> {
    buffer.get_mut(..GREY_FILE_BYTES).ok_or(Refusal::Buffer)
}

/// Writes the header and returns the place of the pixels.
fn put_header(file: &mut [u8]) -> &mut [u8] {
    let (header, pixels) = file.split_at_mut(HEADER.len());
    header.copy_from_slice(HEADER);
    pixels
}

/// The tiles of a file; none if its header, length or a grey is another.
fn plate_of(file: &[u8]) -> Option<Plate> {
    let pixels = file.strip_prefix(HEADER)?;
    if pixels.len() != PIXELS {
        return None;
    }
    let mut plate = [0; PLATE_BYTES];
    let mut strange = 0;
    for (y, row) in pixels.chunks_exact(PICTURE_WIDTH).enumerate() {
        let tiles = plate[tile_row(y)].chunks_exact_mut(TILE);
        for (octet, tile) in row.chunks_exact(OCTET).zip(tiles) {
            let dark = !u64::from_le_bytes(octet.try_into().ok()?);
            let (low, high) = (dark & ONES, dark >> 1 & ONES);
            strange |= dark ^ ((low + 2 * high) * SHADE_STEP);
            tile[2 * (y % 8)] = gather(low);
            tile[2 * (y % 8) + 1] = gather(high);
        }
    }
    (strange == 0).then_some(plate)
}

/// Makes a byte of every picture pixel, row by row, from the shades of eight, the left one lowest.
fn each_octet(plate: &[u8], pixels: &mut [u8], make: impl Fn(u64) -> u64) {
    for (y, row) in pixels.chunks_exact_mut(PICTURE_WIDTH).enumerate() {
        let tiles = plate[tile_row(y)].chunks_exact(TILE);
        for (octet, tile) in row.chunks_exact_mut(OCTET).zip(tiles) {
            let (low, high) = (tile[2 * (y % 8)], tile[2 * (y % 8) + 1]);
            let shades = SPREAD[usize::from(low)] + 2 * SPREAD[usize::from(high)];
            octet.copy_from_slice(&make(shades).to_le_bytes());
        }
    }
}

/// The bits of each byte as eight bytes of 0 or 1, bit 7 in the lowest; [`gather`] undoes it.
static SPREAD: [u64; 256] = {
    let mut spread = [0; 256];
    let mut byte = 0;
    while byte < 256 {
        let mut bit = 0;
        while bit < 8 {
            spread[byte] |= (byte as u64 >> (7 - bit) & 1) << (8 * bit);
            bit += 1;
        }
        byte += 1;
    }
    spread
};
