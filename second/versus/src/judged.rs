//! Plates judged row by row: a frame's own, of two frames, touched, of any bytes; and frames and buffers of wrong sizes.

use crate::call::{Call, Lent};
use crate::random::Random;
use crate::sides::{paint, Side};
use crate::sweep::{lend, lowest, setting_of, Tally, FRAMES};
use second::{Plate, PICTURE_HEIGHT, PLATE_BYTES};

/// Under every mode, ratio, inversion and 1-D filter a plate of the frame, of the frame and another, with bits that
/// are others', and of noise; then every combination of bad arguments. How many had every row, and how many some.
pub fn compare(tally: &mut Tally, random: &mut Random) -> [u64; 2] {
    let mut side = Side::of_noise(0, 0, 17);
    let mut counts = [0; 2];
    for setting in 0..1024 {
        let registers = setting_of(setting, random);
        paint(&mut side.store, random.byte() % 5, random.next());
        let other = drawn(&side.store, &registers);
        paint(&mut side.image, (setting % 5) as u8, random.next());
        let own = drawn(&side.image, &registers);
        let mut noise = [0; PLATE_BYTES];
        random.fill(&mut noise);
        let mut plates = vec![
            own,
            mixed(&own, &other, random),
            mixed(&other, &own, random),
        ];
        plates.extend([touched(own, 1, random), touched(own, 30, random), noise]);
        for (number, plate) in plates.into_iter().enumerate() {
            let call = judging(plate, &registers, PICTURE_HEIGHT + (setting as usize % 3));
            let same = rows(tally, &side, &call);
            counts[0] += u64::from(same == PICTURE_HEIGHT);
            counts[1] += u64::from((1..PICTURE_HEIGHT).contains(&same));
            // The frame's own has every row, and one bit that is another's makes one row another's.
            let due = match number {
                0 => PICTURE_HEIGHT,
                3 => PICTURE_HEIGHT - 1,
                _ => same,
            };
            if same != due {
                let difference = format!("{call}: {same} rows are the same, {due} must be");
                tally.differences.push(difference);
            }
        }
    }
    for (length, no_frame) in FRAMES {
        side.image = lend(length);
        for room in (0..120).chain([127, 128, 3_584, 16_384]) {
            let due = lowest(&[(4, no_frame), (7, room < PICTURE_HEIGHT)]);
            let mut plate = [0; PLATE_BYTES];
            random.fill(&mut plate);
            let registers = setting_of(random.below(1024), random);
            tally.compare(&side, &judging(plate, &registers, room), due);
        }
    }
    counts
}

/// A plate beside the image.
fn judging(plate: Plate, registers: &[u8; 54], room: usize) -> Call {
    Call::Judge {
        of: Lent::Image,
        plate: Box::new(plate),
        registers: Box::new(*registers),
        room,
    }
}

/// Judges on both sides; how many rows are the same, by the bytes that the second program gave out.
fn rows(tally: &mut Tally, side: &Side, call: &Call) -> usize {
    let [_, after] = tally.compare(side, call, None);
    let rows = after.out.iter().take(PICTURE_HEIGHT);
    rows.filter(|&&row| row == 1).count()
}

fn drawn(frame: &[u8], registers: &[u8; 54]) -> Plate {
    second::picture(frame, registers).expect("the frame has its size")
}

/// The upper rows of one and the lower rows of another, any row being the first of these.
fn mixed(upper: &Plate, lower: &Plate, random: &mut Random) -> Plate {
    let first = random.below(PICTURE_HEIGHT as u32 + 1) as usize;
    std::array::from_fn(|place| {
        let row = place / 256 * 8 + place % 16 / 2;
        if row < first {
            upper[place]
        } else {
            lower[place]
        }
    })
}

/// A plate with so many bits that are others'.
fn touched(mut plate: Plate, bits: u32, random: &mut Random) -> Plate {
    for _ in 0..bits {
        plate[random.below(PLATE_BYTES as u32) as usize] ^= 1 << random.below(8);
    }
    plate
}
