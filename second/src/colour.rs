//! Colour photographs, Netpbm files of kind P6, as images.

use crate::lent::check_frame;
use crate::refusal::Refusal;
use crate::sizes::FRAME_BYTES;

/// The most a header may have, with the white space byte that ends it.
const LONGEST_HEADER: usize = 256;
/// Red, green and blue.
const CHANNELS: usize = 3;

/// Makes an image of a file's pixels, each (2R + 5G + B) / 8 rounded down.
pub fn import(image: &mut [u8], file: &[u8]) -> Result<(), Refusal> {
    check_frame(image)?;
    let colours = pixels(file).ok_or(Refusal::File)?;
    for (pixel, colour) in image.iter_mut().zip(colours.chunks_exact(CHANNELS)) {
        let [r, g, b] = [colour[0], colour[1], colour[2]].map(u16::from);
        *pixel = ((2 * r + 5 * g + b) / 8) as u8;
    }
    Ok(())
}

/// The bytes after the header; none if the file breaks the rules.
fn pixels(file: &[u8]) -> Option<&[u8]> {
    let header = file.len().checked_sub(CHANNELS * FRAME_BYTES)?;
    let (header, pixels) = file.split_at(header);
    (header.len() <= LONGEST_HEADER && after_header(header)?.is_empty()).then_some(pixels)
}

/// What follows the one white space byte after the last number; none if no header comes first.
fn after_header(text: &[u8]) -> Option<&[u8]> {
    let mut rest = text.strip_prefix(b"P6")?;
    for number in [b"128", b"128", b"255"] {
        rest = after_gap(rest)?.strip_prefix(number)?;
    }
    after_white(rest)
}

/// What follows white space, one byte or more, and the comments among it.
fn after_gap(text: &[u8]) -> Option<&[u8]> {
    let mut rest = after_white(text)?;
    while let Some(after) = after_white(rest).or_else(|| after_comment(rest)) {
        rest = after;
    }
    Some(rest)
}

/// What follows one byte of space, tab, LF, VT, FF or CR.
fn after_white(text: &[u8]) -> Option<&[u8]> {
    match text {
        [b' ' | b'\t'..=b'\r', rest @ ..] => Some(rest),
        _ => None,
    }
}

/// What follows a comment and the LF or CR that ends it.
fn after_comment(text: &[u8]) -> Option<&[u8]> {
    let comment = text.strip_prefix(b"#")?;
    let end = comment
        .iter()
        .position(|byte| matches!(byte, b'\n' | b'\r'))?;
    Some(&comment[end + 1..])
}
