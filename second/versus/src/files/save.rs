//! What becomes of a save that is damaged.

use crate::random::Random;
use second::crc32;

/// Cuts, holes, exchanged pieces or bits; with luck the file stays as it is.
pub fn damage(file: &mut Vec<u8>, random: &mut Random) {
    if file.is_empty() {
        return;
    }
    let length = file.len() as u32;
    let from = random.below(length) as usize;
    let to = (from + 1 + random.below(3_000) as usize).min(file.len());
    match random.below(8) {
        0 => file.truncate(from),
        1 => file[from..to].fill(0),
        2 => drop(file.drain(from..to)),
        3 => file.extend_from_within(from..to),
        4 => random.fill(&mut file[from..to]),
        5 => file[random.below(length.min(128)) as usize] = random.byte(),
        6 => {
            // a right checksum over what may be no save
            file[random.below(length.min(128)) as usize] = random.byte();
            seal(file);
        }
        _ => file[from] ^= 1 << random.below(8),
    }
}

/// Puts the checksum at the end right.
pub fn seal(file: &mut [u8]) {
    if let Some(end) = file.len().checked_sub(4) {
        let checksum = crc32(&file[..end]).to_le_bytes();
        file[end..].copy_from_slice(&checksum);
    }
}
