//! Images, and stores, that differ only outside rows 7 to 120, on which no pixel of a picture depends.

use crate::call::{hex, Call, Lent};
use crate::random::Random;
use crate::sides::Side;
use crate::sweep::{begin, setting_of, Tally};
use second::{State, Timing};

/// Bytes of a row.
const ROW: usize = 128;
/// The first and the last row that count.
const OUTERMOST: [usize; 2] = [7, 120];

/// What the archive and the second program make of the same bytes, as an image and as a store.
#[derive(PartialEq)]
struct Made {
    pictures: [[u8; 3584]; 2],
    /// Of the capture that a start over the image begins.
    begun: [Vec<u8>; 2],
    /// Of a capture that is held over the store.
    held: [Vec<u8>; 2],
}

/// Pictures afresh and readings in every mode and 1-D filter: of random bytes and of some with others
/// in all rows outside 7 to 120, which must give the same, and of two with another row 7 and
/// another row 120. Gives in how many settings either row changes the picture; there must be some.
pub fn compare(tally: &mut Tally, random: &mut Random) -> [u64; 2] {
    let mut side = Side::of_noise(0, 1, 11);
    let mut changed = [0; 2];
    for (mode, filter) in (0..16).flat_map(|mode| (0..4).map(move |filter| (mode, filter))) {
        let taken = setting_of(filter << 8 | random.below(16) << 4 | mode, random);
        let elapsed = random.below(Timing::of(&taken).total());
        random.fill(&mut side.image);
        let made = make(tally, &side, taken, elapsed);

        let mut outside = side.clone();
        let [first, last] = OUTERMOST;
        alter(&mut outside.image[..first * ROW], random);
        alter(&mut outside.image[(last + 1) * ROW..], random);
        if make(tally, &outside, taken, elapsed) != made {
            tally.differences.push(format!(
                "mode {mode:X}, 1-D filter {filter}: a row outside {first} to {last} counts\n  \
                 registers {}\n  bytes {}\n  other {}",
                hex(&taken),
                hex(&side.image),
                hex(&outside.image)
            ));
        }
        for (row, changed) in OUTERMOST.into_iter().zip(&mut changed) {
            let mut other = side.clone();
            alter(&mut other.image[row * ROW..][..ROW], random);
            let pictures = make(tally, &other, taken, elapsed).pictures;
            *changed += u64::from((0..2).all(|of| pictures[of] != made.pictures[of]));
        }
    }
    for (row, changed) in OUTERMOST.into_iter().zip(changed) {
        if changed == 0 {
            let difference = format!("row {row} changes no picture");
            tally.differences.push(difference);
        }
    }
    changed
}

/// A side with its image as its store, and a capture held over it with such registers taken.
fn hold(side: &Side, taken: [u8; 54], elapsed: u32) -> Side {
    let state = State {
        held: true,
        elapsed,
        taken,
        ..State::RESET
    };
    Side {
        state: state.to_bytes().to_vec(),
        store: side.image.clone(),
        ..side.clone()
    }
}

/// Draws the image afresh, and reads a capture of it and one held over a store that has its bytes.
fn make(tally: &mut Tally, side: &Side, taken: [u8; 54], elapsed: u32) -> Made {
    let picture = Call::Picture {
        of: Lent::Image,
        registers: Box::new(taken),
    };
    let pictures = tally.compare(side, &picture, None);
    let begun = begin(tally, &mut side.clone(), &taken);
    let held = hold(side, taken, elapsed);
    let [begun, held] = [begun, held].map(|side| {
        tally
            .compare(&side, &Call::Readings { room: 14_351 }, None)
            .map(|after| after.out)
    });
    Made {
        pictures: pictures.map(|after| after.picture),
        begun,
        held,
    }
}

/// Puts another byte in place of each.
fn alter(bytes: &mut [u8], random: &mut Random) {
    for byte in bytes {
        *byte = byte.wrapping_add(1 + random.below(255) as u8);
    }
}
