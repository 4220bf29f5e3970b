//! Plates, to be placed in the picture area.

use crate::random::Random;
use second::GREY_FILE_BYTES;

/// What every plate starts with.
pub const HEADER: &[u8] = b"P5\n128 112\n255\n";
/// The four greys there are.
pub const GREYS: [u8; 4] = [255, 170, 85, 0];

/// A plate with the four greys at random.
pub fn file(random: &mut Random) -> Vec<u8> {
    let mut file = vec![0; GREY_FILE_BYTES];
    random.fill(&mut file);
    file.iter_mut()
        .for_each(|byte| *byte = GREYS[usize::from(*byte >> 6)]);
    file[..HEADER.len()].copy_from_slice(HEADER);
    file
}

/// A file that is a plate about as often as not.
pub fn random(random: &mut Random) -> Vec<u8> {
    if random.once_in(2) {
        file(random)
    } else {
        damaged(random)
    }
}

/// A plate with one thing or more wrong with it, or by chance none.
pub fn damaged(random: &mut Random) -> Vec<u8> {
    let mut file = file(random);
    for _ in 0..=random.below(2) {
        let place = random.below(file.len() as u32) as usize;
        let byte = random.byte();
        match random.below(7) {
            0 => file[random.below(HEADER.len() as u32) as usize] = byte,
            1 => file[place] = byte,
            2 => file[place] = random.pick(&GREYS) ^ 1 << random.below(8),
            3 => file[place] = random.pick(&GREYS).wrapping_add(random.pick(&[1, 255])),
            4 => drop(file.remove(place)),
            5 => file.insert(place, random.pick(&GREYS)),
            _ => file[random.below(HEADER.len() as u32) as usize] ^= 1 << random.below(8),
        }
    }
    file
}
