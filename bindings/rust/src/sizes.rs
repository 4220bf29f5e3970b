//! How large everything is that is lent, kept or written.

/// Bytes of the state record.
pub const STATE_BYTES: usize = 121;
/// The layout of these bytes, which their first one says; bytes of another layout are refused as 1.
pub const LAYOUT: u8 = 3;
/// Camera registers.
pub const REGISTERS: usize = 54;
/// Bytes in one ROM bank.
pub const ROM_BANK: usize = 16_384;
/// Bytes in one RAM bank.
pub const RAM_BANK: usize = 8_192;
/// Bytes in an image and in the frame store: 128 rows of 128.
pub const FRAME_BYTES: usize = 16_384;
/// Bytes of a picture: two bits for each of 128 by 112 pixels.
pub const PICTURE_BYTES: usize = 3_584;
/// Rows of a picture.
pub const PICTURE_ROWS: usize = 112;
/// Where the picture lies in RAM bank 0.
pub const PICTURE_OFFSET: usize = 0x100;
/// Bytes of a plate as a Netpbm P5 file: a header of 15, then one for each of 128 by 112 pixels.
pub const PLATE_BYTES: usize = 14_351;
/// Bytes of a plate as shades: one for each of its pixels, 0 white to 3 black.
pub const SHADES_BYTES: usize = 14_336;
/// Bytes of a save file besides its RAM.
pub const SAVE_BYTES: usize = 16_516;
/// What a save file begins with.
pub const SAVE_MAGIC: &[u8; 6] = b"GXSAVE";
/// Bytes of a row of the image.
pub const ROW_BYTES: usize = 128;
/// Bytes of the longest line of a bus script, that of an image row, with its LF.
pub const LINE_BYTES: usize = 261;
/// The most bytes of a script that is salvaged.
pub const SCRIPT_BYTES: usize = 32_768;
/// Bytes of the longest answer to a script line, that of a tick, with its LF.
pub const ANSWER_BYTES: usize = 11;
