//! Frames out of files: 16,384 bytes of light, or grey and colour pictures of 128 by 128.

use crate::failure::Failure;
use crate::input::Input;
use gulxinett::{bytes, Refusal, FRAME_BYTES};

/// What a frame's file is, for help and refusals.
pub const KINDS: &str =
    "a frame is 16,384 bytes, or a Netpbm file P5 or P6 of 128 by 128 pixels with largest value 255";

/// The frame of a file.
pub fn frame(input: &Input) -> Result<[u8; FRAME_BYTES], Failure> {
    let file = input.bytes()?;
    if let Ok(frame) = file.as_slice().try_into() {
        return Ok(frame);
    }
    let coloured = coloured(&file);
    photograph(coloured.as_deref().unwrap_or(&file))
        .map_err(|refusal| Failure::refused(input, refusal, KINDS))
}

/// The frame of a colour photograph, a P6 file.
pub fn photograph(file: &[u8]) -> Result<[u8; FRAME_BYTES], Refusal> {
    let mut image = [0; FRAME_BYTES];
    bytes::import_photo(file, &mut image).result()?;
    Ok(image)
}

/// A grey picture, a P5 file, as a colour photograph of the same light: each pixel thrice, of which
/// (2R + 5G + B) / 8 is the grey again. So what is a header is decided where photographs are read.
fn coloured(file: &[u8]) -> Option<Vec<u8>> {
    let rest = file.strip_prefix(b"P5")?;
    let (header, greys) = rest.split_at(rest.len().checked_sub(FRAME_BYTES)?);
    let pixels = greys.iter().flat_map(|&grey| [grey; 3]);
    Some([b"P6", header].concat().into_iter().chain(pixels).collect())
}
