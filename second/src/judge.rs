//! Which rows of a plate are those of a frame's own picture.

use crate::picture::{picture, tile_row, Plate, PICTURE_HEIGHT, TILE};
use crate::refusal::Refusal;
use crate::sizes::REGISTERS;

/// Compares a plate with the picture afresh of a frame under the registers taken: 1 for a row that
/// is the same in all its bytes and 0 for another, into a lent buffer, whose later bytes stay;
/// returns how many rows are the same.
pub fn judge(
    plate: &Plate,
    frame: &[u8],
    registers: &[u8; REGISTERS],
    rows: &mut [u8],
) -> Result<usize, Refusal> {
    let afresh = picture(frame, registers)?;
    let rows = rows.get_mut(..PICTURE_HEIGHT).ok_or(Refusal::Buffer)?;
    let mut same = 0;
    for (y, row) in rows.iter_mut().enumerate() {
        let equal = row_bytes(plate, y).eq(row_bytes(&afresh, y));
        *row = equal.into();
        same += usize::from(equal);
    }
    Ok(same)
}

/// The bytes of a picture row: two of each of its sixteen tiles.
fn row_bytes(plate: &Plate, y: usize) -> impl Iterator<Item = &[u8]> {
    let tiles = plate[tile_row(y)].chunks_exact(TILE);
    tiles.map(move |tile| &tile[2 * (y % 8)..][..2])
}
