//! The calls over the record's bytes, exactly as the C functions take and answer them.
//!
//! Bytes of another length than 121, whose byte 0 is not the layout number 3, or whose byte 1 or 4 is
//! above 1, are refused as [`Refusal::State`].

use crate::ffi;
use crate::refusal::Refusal;
use crate::sizes::{PICTURE_BYTES, REGISTERS};

/// What a C function answers: refusal number × 2^32 + value.
#[derive(Clone, Copy, Debug, PartialEq, Eq)]
pub struct Answer(pub u64);

impl Answer {
    /// The value, or the refusal.
    ///
    /// # Panics
    ///
    /// If the number is none the interface has, which would be a fault of the archive.
    #[inline]
    pub fn result(self) -> Result<u32, Refusal> {
        match (self.0 >> 32) as u32 {
            0 => Ok(self.0 as u32),
            number => Err(Refusal::from_number(number).expect("a refusal is 1 to 12")),
        }
    }
}

/// Writes the reset record.
#[inline]
pub fn reset(state: &mut [u8]) -> Answer {
    // SAFETY: the pointer and length are those of one slice, borrowed for the call.
    Answer(unsafe { ffi::gulxinett_reset(state.as_mut_ptr(), state.len()) })
}

/// Reads the byte at an address; the value is the byte.
#[inline]
pub fn read(state: &[u8], rom: &[u8], ram: &[u8], address: u16) -> Answer {
    // SAFETY: each pointer and length are those of one slice, borrowed for the call.
    Answer(unsafe {
        ffi::gulxinett_read(
            state.as_ptr(),
            state.len(),
            rom.as_ptr(),
            rom.len(),
            ram.as_ptr(),
            ram.len(),
            address,
        )
    })
}

/// Writes a byte to an address.
#[inline]
pub fn write(
    state: &mut [u8],
    ram: &mut [u8],
    store: &mut [u8],
    image: &[u8],
    address: u16,
    value: u8,
) -> Answer {
    // SAFETY: each pointer and length are those of one slice, and the mutable ones are apart.
    Answer(unsafe {
        ffi::gulxinett_write(
            state.as_mut_ptr(),
            state.len(),
            ram.as_mut_ptr(),
            ram.len(),
            store.as_mut_ptr(),
            store.len(),
            image.as_ptr(),
            image.len(),
            address,
            value,
        )
    })
}

/// Lets cycles pass; the value is the running cycles.
#[inline]
pub fn tick(state: &mut [u8], ram: &mut [u8], store: &[u8], cycles: u32) -> Answer {
    // SAFETY: each pointer and length are those of one slice, and the mutable ones are apart.
    Answer(unsafe {
        ffi::gulxinett_tick(
            state.as_mut_ptr(),
            state.len(),
            ram.as_mut_ptr(),
            ram.len(),
            store.as_ptr(),
            store.len(),
            cycles,
        )
    })
}

/// Chooses the matrix of a light set and a level, without its dithering unless `plain` is 0, and an exposure, which
/// is unnamed if it is above FFFF; the value is 0.
#[inline]
pub fn choose(state: &mut [u8], light: u8, level: u8, plain: u8, exposure: u32) -> Answer {
    // SAFETY: the pointer and length are those of one slice, borrowed for the call.
    Answer(unsafe {
        ffi::gulxinett_choose(
            state.as_mut_ptr(),
            state.len(),
            light,
            level,
            plain,
            exposure,
        )
    })
}

/// Inspects the matrix; the value is 0, or 100h + 16 × row + column of the first reversed element.
#[inline]
pub fn inspect(state: &[u8]) -> Answer {
    // SAFETY: the pointer and length are those of one slice, borrowed for the call.
    Answer(unsafe { ffi::gulxinett_inspect(state.as_ptr(), state.len()) })
}

/// Draws the whole picture of a frame under the registers taken.
#[inline]
pub fn picture(
    frame: &[u8],
    registers: &[u8; REGISTERS],
    picture: &mut [u8; PICTURE_BYTES],
) -> Answer {
    // SAFETY: the frame is one slice, and the arrays have the sizes the function expects.
    Answer(unsafe {
        ffi::gulxinett_picture(
            frame.as_ptr(),
            frame.len(),
            registers.as_ptr(),
            picture.as_mut_ptr(),
        )
    })
}

/// Writes a reset as a line of a bus script; the value is the line's length with its LF, here and
/// below. Bytes of `out` beyond it stay, and a shorter `out` is refused as [`Refusal::Room`].
#[inline]
pub fn record_reset(out: &mut [u8]) -> Answer {
    // SAFETY: the pointer and length are those of one slice, borrowed for the call.
    Answer(unsafe { ffi::gulxinett_record_reset(out.as_mut_ptr(), out.len()) })
}

/// Writes a read as a line.
#[inline]
pub fn record_read(address: u16, out: &mut [u8]) -> Answer {
    // SAFETY: the pointer and length are those of one slice, borrowed for the call.
    Answer(unsafe { ffi::gulxinett_record_read(address, out.as_mut_ptr(), out.len()) })
}

/// Writes a write as a line.
#[inline]
pub fn record_write(address: u16, value: u8, out: &mut [u8]) -> Answer {
    // SAFETY: the pointer and length are those of one slice, borrowed for the call.
    Answer(unsafe { ffi::gulxinett_record_write(address, value, out.as_mut_ptr(), out.len()) })
}

/// Writes a tick as a line.
#[inline]
pub fn record_tick(cycles: u32, out: &mut [u8]) -> Answer {
    // SAFETY: the pointer and length are those of one slice, borrowed for the call.
    Answer(unsafe { ffi::gulxinett_record_tick(cycles, out.as_mut_ptr(), out.len()) })
}

/// Writes a row of the image as a line; a row above 7F or of another length than 128 bytes is
/// refused as [`Refusal::Line`].
#[inline]
pub fn record_row(row: u8, bytes: &[u8], out: &mut [u8]) -> Answer {
    // SAFETY: each pointer and length are those of one slice, and the mutable one is apart.
    Answer(unsafe {
        ffi::gulxinett_record_row(
            row,
            bytes.as_ptr(),
            bytes.len(),
            out.as_mut_ptr(),
            out.len(),
        )
    })
}

/// Writes the picture area as a Netpbm P5 file; the value is its length, 14,351. Bytes of `out` beyond
/// it stay, and a shorter `out` is refused as [`Refusal::Room`].
#[inline]
pub fn export(ram: &[u8], out: &mut [u8]) -> Answer {
    // SAFETY: each pointer and length are those of one slice, and the mutable one is apart.
    Answer(unsafe { ffi::gulxinett_export(ram.as_ptr(), ram.len(), out.as_mut_ptr(), out.len()) })
}

/// Places a P5 file as [`export`] writes it in the picture area, whether or not RAM writing is enabled; the
/// value is 0. A file of another kind is refused as [`Refusal::File`], any while a capture is held as
/// [`Refusal::Held`].
#[inline]
pub fn place(state: &[u8], ram: &mut [u8], file: &[u8]) -> Answer {
    // SAFETY: each pointer and length are those of one slice, and the mutable one is apart.
    Answer(unsafe {
        ffi::gulxinett_place(
            state.as_ptr(),
            state.len(),
            ram.as_mut_ptr(),
            ram.len(),
            file.as_ptr(),
            file.len(),
        )
    })
}

/// Writes the picture area as shades, one a byte; the value is how many, 14,336. Bytes of `out` beyond them
/// stay, and a shorter `out` is refused as [`Refusal::Room`].
#[inline]
pub fn shades(ram: &[u8], out: &mut [u8]) -> Answer {
    // SAFETY: each pointer and length are those of one slice, and the mutable one is apart.
    Answer(unsafe { ffi::gulxinett_shades(ram.as_ptr(), ram.len(), out.as_mut_ptr(), out.len()) })
}

/// Writes the value of each picture pixel before the matrix, from the store and the registers taken of the
/// capture held, as a Netpbm P5 file; the value is its length, 14,351. Bytes of `out` beyond it stay, a
/// shorter `out` is refused as [`Refusal::Room`], and where no capture is held as [`Refusal::NotHeld`].
#[inline]
pub fn readings(state: &[u8], store: &[u8], out: &mut [u8]) -> Answer {
    // SAFETY: each pointer and length are those of one slice, and the mutable one is apart.
    Answer(unsafe {
        ffi::gulxinett_readings(
            state.as_ptr(),
            state.len(),
            store.as_ptr(),
            store.len(),
            out.as_mut_ptr(),
            out.len(),
        )
    })
}

/// Reads a colour photograph, a Netpbm P6 file of 128 by 128 pixels, into an image; the value is 0. A file
/// that is none is refused as [`Refusal::File`].
#[inline]
pub fn import_photo(file: &[u8], image: &mut [u8]) -> Answer {
    // SAFETY: each pointer and length are those of one slice, and the mutable one is apart.
    Answer(unsafe {
        ffi::gulxinett_import_photo(file.as_ptr(), file.len(), image.as_mut_ptr(), image.len())
    })
}

/// Writes the lines of a bus script that are kept, and a byte about each of its lines; the value is the
/// number of lines × 65,536 + the length of the text. Bytes of `text` and `report` beyond them stay. A
/// longer script than 32,768 bytes is refused as [`Refusal::Script`], a shorter `text` or `report` as
/// [`Refusal::Room`].
#[inline]
pub fn salvage(script: &[u8], text: &mut [u8], report: &mut [u8]) -> Answer {
    // SAFETY: each pointer and length are those of one slice, and the mutable ones are apart.
    Answer(unsafe {
        ffi::gulxinett_salvage(
            script.as_ptr(),
            script.len(),
            text.as_mut_ptr(),
            text.len(),
            report.as_mut_ptr(),
            report.len(),
        )
    })
}

/// Writes state, RAM and frame store as one save file; the value is its length, [`SAVE_BYTES`](crate::SAVE_BYTES)
/// and the RAM's. Bytes of `out` beyond it stay, and a shorter `out` is refused as [`Refusal::Room`].
#[inline]
pub fn save(state: &[u8], ram: &[u8], store: &[u8], out: &mut [u8]) -> Answer {
    // SAFETY: each pointer and length are those of one slice, and the mutable one is apart.
    Answer(unsafe {
        ffi::gulxinett_save(
            state.as_ptr(),
            state.len(),
            ram.as_ptr(),
            ram.len(),
            store.as_ptr(),
            store.len(),
            out.as_mut_ptr(),
            out.len(),
        )
    })
}

/// Reads a save file into state, RAM and frame store; the value is 0. A RAM of another length than the
/// file's is refused as [`Refusal::Ram`], and what is not exactly a save as [`Refusal::File`].
#[inline]
pub fn restore(file: &[u8], state: &mut [u8], ram: &mut [u8], store: &mut [u8]) -> Answer {
    // SAFETY: each pointer and length are those of one slice, and the mutable ones are apart.
    Answer(unsafe {
        ffi::gulxinett_restore(
            file.as_ptr(),
            file.len(),
            state.as_mut_ptr(),
            state.len(),
            ram.as_mut_ptr(),
            ram.len(),
            store.as_mut_ptr(),
            store.len(),
        )
    })
}

/// Compares a picture area row by row with the picture of a frame under the registers taken: `rows` gets 1 for each
/// of the 112 rows that is the same, 0 for another; the value is how many are. Bytes of `rows` beyond stay, and a
/// shorter `rows` is refused as [`Refusal::Room`].
#[inline]
pub fn judge(
    area: &[u8; PICTURE_BYTES],
    frame: &[u8],
    registers: &[u8; REGISTERS],
    rows: &mut [u8],
) -> Answer {
    // SAFETY: frame and rows are slices, the mutable one apart, and the arrays have the sizes the function expects.
    Answer(unsafe {
        ffi::gulxinett_judge(
            area.as_ptr(),
            frame.as_ptr(),
            frame.len(),
            registers.as_ptr(),
            rows.as_mut_ptr(),
            rows.len(),
        )
    })
}

/// What a script is played over, as it is lent.
pub struct Session<'a> {
    /// The state record.
    pub state: &'a mut [u8],
    /// The ROM.
    pub rom: &'a [u8],
    /// The RAM.
    pub ram: &'a mut [u8],
    /// The frame store.
    pub store: &'a mut [u8],
    /// The image, which row lines write.
    pub image: &'a mut [u8],
}

/// Carries out a line of a bus script, without its LF, and writes its answer with the LF; the value is the answer's
/// length. Bytes of `out` beyond it stay, and an `out` of fewer than 11 bytes is refused as [`Refusal::Room`].
#[inline]
pub fn step(session: Session, line: &[u8], out: &mut [u8]) -> Answer {
    // SAFETY: each pointer and length are those of one slice, and the mutable ones are apart.
    Answer(unsafe {
        ffi::gulxinett_step(
            session.state.as_mut_ptr(),
            session.state.len(),
            session.rom.as_ptr(),
            session.rom.len(),
            session.ram.as_mut_ptr(),
            session.ram.len(),
            session.store.as_mut_ptr(),
            session.store.len(),
            session.image.as_mut_ptr(),
            session.image.len(),
            line.as_ptr(),
            line.len(),
            out.as_mut_ptr(),
            out.len(),
        )
    })
}

/// Audits a piece of a recording up to and with its first LF, or all of it; the value is how many bytes were read.
/// Where a line ended, its event is written, if it makes one, and `book[0]` is the event's length. `book` has
/// 13 numbers, `line` 261 bytes, `out` at least 512, or it is refused as [`Refusal::Room`].
#[inline]
pub fn audit(
    book: &mut [u64],
    line: &mut [u8],
    session: Session,
    piece: &[u8],
    out: &mut [u8],
) -> Answer {
    // SAFETY: each pointer and length are those of one slice, and the mutable ones are apart.
    Answer(unsafe {
        ffi::gulxinett_audit(
            book.as_mut_ptr(),
            book.len(),
            line.as_mut_ptr(),
            line.len(),
            session.state.as_mut_ptr(),
            session.state.len(),
            session.rom.as_ptr(),
            session.rom.len(),
            session.ram.as_mut_ptr(),
            session.ram.len(),
            session.store.as_mut_ptr(),
            session.store.len(),
            session.image.as_mut_ptr(),
            session.image.len(),
            piece.as_ptr(),
            piece.len(),
            out.as_mut_ptr(),
            out.len(),
        )
    })
}

/// Ends the recording that is audited: writes the event of a last line without LF, and that a capture is held, where
/// one is; the value is their length, as `book[0]` is.
#[inline]
pub fn audit_end(book: &mut [u64], line: &mut [u8], session: Session, out: &mut [u8]) -> Answer {
    // SAFETY: each pointer and length are those of one slice, and the mutable ones are apart.
    Answer(unsafe {
        ffi::gulxinett_audit_end(
            book.as_mut_ptr(),
            book.len(),
            line.as_mut_ptr(),
            line.len(),
            session.state.as_mut_ptr(),
            session.state.len(),
            session.rom.as_ptr(),
            session.rom.len(),
            session.ram.as_mut_ptr(),
            session.ram.len(),
            session.store.as_mut_ptr(),
            session.store.len(),
            session.image.as_mut_ptr(),
            session.image.len(),
            out.as_mut_ptr(),
            out.len(),
        )
    })
}

/// Writes the first stretch at or after a place of the RAM that is not as it was first, outside the picture area, as
/// an event, or that nothing has changed; the value is the place after the stretch, `book[0]` the event's length.
#[inline]
pub fn audit_changed(
    book: &mut [u64],
    first: &[u8],
    ram: &[u8],
    from: u32,
    out: &mut [u8],
) -> Answer {
    // SAFETY: each pointer and length are those of one slice, and the mutable ones are apart.
    Answer(unsafe {
        ffi::gulxinett_audit_changed(
            book.as_mut_ptr(),
            book.len(),
            first.as_ptr(),
            first.len(),
            ram.as_ptr(),
            ram.len(),
            from,
            out.as_mut_ptr(),
            out.len(),
        )
    })
}

/// Writes the summary of the recording that was audited; the value is its length, as `book[0]` is.
#[inline]
pub fn audit_summary(book: &mut [u64], state: &[u8], out: &mut [u8]) -> Answer {
    // SAFETY: each pointer and length are those of one slice, and the mutable ones are apart.
    Answer(unsafe {
        ffi::gulxinett_audit_summary(
            book.as_mut_ptr(),
            book.len(),
            state.as_ptr(),
            state.len(),
            out.as_mut_ptr(),
            out.len(),
        )
    })
}
