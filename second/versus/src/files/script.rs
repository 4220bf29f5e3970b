//! Bus scripts with broken lines and copies on their end.

use crate::random::Random;
use crate::script::{frames, spoil};

/// The most bytes of a line that was spoiled; longer ones are cut.
pub const SPOILED: usize = 700;

/// A line of each short kind.
pub const SHORT: [&[u8]; 4] = [b"00", b"01A000", b"02A00003", b"0300000001"];

/// A row of the image with random pixels, as a line.
pub fn row(random: &mut Random) -> Vec<u8> {
    let mut row = b"047F".to_vec();
    row.extend((0..256).map(|_| random.pick(b"0123456789ABCDEF")));
    row
}

/// A script, more often than not with copies on its end, broken here and there.
pub fn random(random: &mut Random) -> Vec<u8> {
    let mut lines = random_lines(random);
    let copies = random.pick(&[1, 1, 2, 2, 2, 3, 4, 4, 5, 6, 8, 16]);
    let length = lines.len() * copies;
    lines = lines.iter().cycle().take(length).cloned().collect();
    for _ in 0..random.pick(&[0, 0, 0, 1, 1, 2, 5]) {
        let mut line = random.pick(&SHORT).to_vec();
        spoil(random, &mut line);
        line.truncate(SPOILED);
        let place = random.below(lines.len() as u32 + 1) as usize;
        lines.insert(place, line);
    }
    if random.once_in(6) && !lines.is_empty() {
        let place = random.below(lines.len() as u32) as usize;
        match random.below(3) {
            0 => drop(lines.remove(place)),
            1 => lines[place] = random.pick(&SHORT).to_vec(),
            _ => lines.insert(place, random.pick(&SHORT).to_vec()),
        }
    }
    let mut script = lines.join(&b'\n');
    if !random.once_in(3) {
        script.push(b'\n');
    }
    if random.once_in(5) {
        script.truncate(random.below(script.len() as u32 + 1) as usize);
    }
    script
}

/// Accepted lines, reset first more often than not, and so few kinds now and then that they repeat by chance.
fn random_lines(random: &mut Random) -> Vec<Vec<u8>> {
    let mut lines = Vec::new();
    if !random.once_in(4) {
        lines.push(SHORT[0].to_vec());
    }
    let (kinds, count) = (
        random.below(4),
        random.pick(&[0, 1, 1, 2, 3, 4, 7, 30, 150]),
    );
    while lines.len() < count {
        match kinds {
            0 => lines.extend(frames(random)),
            1 => lines.push(random.pick(&SHORT[..2]).to_vec()),
            _ => lines.push(random.pick(&SHORT).to_vec()),
        }
    }
    lines
}
