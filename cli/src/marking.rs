//! A picture of a plate with the rows marked that each frame gives.

use crate::judging::Judgement;
use gulxinett::{PICTURE_ROWS, PLATE_BYTES, SHADES_BYTES};

/// Pixels of a row of the plate, of the gap beside it, and of a frame's strip.
const WIDE: usize = SHADES_BYTES / PICTURE_ROWS;
const GAP: usize = 4;
const STRIP: usize = 12;

type Colour = [u8; 3];

/// In the gap, of a row that no frame gives.
const NONE: Colour = [255, 0, 0];
const BLANK: Colour = [255, 255, 255];
/// In a strip, of a row that its frame does not give.
const ABSENT: Colour = [48, 48, 48];
/// Of the rows that the frames give, in their order and then from the first on: told apart by most eyes.
const COLOURS: [(&str, Colour); 7] = [
    ("orange", [230, 159, 0]),
    ("sky blue", [86, 180, 233]),
    ("green", [0, 158, 115]),
    ("yellow", [240, 228, 66]),
    ("dark blue", [0, 114, 178]),
    ("rust", [213, 94, 0]),
    ("pink", [204, 121, 167]),
];

/// What the colour of a frame is called.
pub fn colour(frame: usize) -> &'static str {
    COLOURS[frame % COLOURS.len()].0
}

/// The plate, and beside it a strip for each frame, coloured at the rows that the frame gives: a Netpbm file P6.
pub fn marked(plate: &[u8], judgement: &Judgement, frames: usize) -> Vec<u8> {
    let greys = &plate[PLATE_BYTES - SHADES_BYTES..];
    let wide = WIDE + GAP + frames * STRIP;
    let mut file = format!("P6\n{wide} {PICTURE_ROWS}\n255\n").into_bytes();
    for (row, greys) in greys.chunks_exact(WIDE).enumerate() {
        for &grey in greys {
            file.extend([grey; 3]);
        }
        let beside = if judgement.is_given(row) { BLANK } else { NONE };
        file.extend(beside.repeat(GAP));
        for frame in 0..frames {
            let colour = match judgement.gives(frame, row) {
                true => COLOURS[frame % COLOURS.len()].1,
                false => ABSENT,
            };
            file.extend(colour.repeat(STRIP));
        }
    }
    file
}
