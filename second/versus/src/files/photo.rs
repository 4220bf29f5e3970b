//! Colour photographs.

use crate::random::Random;

/// Bytes of the pixels after a header.
pub const PIXELS: usize = 49_152;

/// A header and so many bytes of pixels.
pub fn file(header: &[u8], pixels: usize, random: &mut Random) -> Vec<u8> {
    let mut file = vec![0; header.len() + pixels];
    random.fill(&mut file);
    file[..header.len()].copy_from_slice(header);
    file
}

/// A file that is read about as often as not.
pub fn random(random: &mut Random) -> Vec<u8> {
    let mut header = random_header(random);
    if random.once_in(3) {
        damage(&mut header, random);
    }
    let pixels = match random.below(20) {
        0 => PIXELS - 1,
        1 => PIXELS + 1,
        _ => PIXELS,
    };
    file(&header, pixels, random)
}

/// `P6`, three numbers, and what stands between them, most of it as it must be.
fn random_header(random: &mut Random) -> Vec<u8> {
    let mut header = Vec::new();
    header.extend(random.pick(&[
        b"P6", b"P6", b"P6", b"P6", b"P6", b"P6", b"P6", b"P6", b"P5", b"P3",
    ]));
    for number in ["128", "128", "255"] {
        put_gap(&mut header, random);
        let wrong = random.pick(&["0128", "+128", "65535", "127", "256", ""]);
        let number = if random.once_in(40) { wrong } else { number };
        header.extend(number.as_bytes());
    }
    header.push(random.pick(b" \t\n\x0B\x0C\r"));
    header
}

/// White space and comments among it, more than fit a header once in a while.
fn put_gap(header: &mut Vec<u8>, random: &mut Random) {
    header.push(random.pick(b" \t\n\x0B\x0C\r"));
    let pieces = if random.once_in(10) { 80 } else { 5 };
    for _ in 0..random.below(pieces) {
        if random.once_in(3) {
            header.push(b'#');
            let letters = random.below(6);
            header.extend((0..letters).map(|_| random.pick(b"# 128\tA\xFF\x00")));
            header.push(random.pick(b"\n\r"));
        } else {
            header.push(random.pick(b" \t\n\x0B\x0C\r"));
        }
    }
}

/// Changes, leaves out or puts in a byte, once or more.
fn damage(header: &mut Vec<u8>, random: &mut Random) {
    for _ in 0..=random.below(2) {
        let place = random.below(header.len() as u32) as usize;
        let byte = random.pick(b" \n\r#P60128\x0B\x0C5+\x00");
        match random.below(3) {
            0 => header[place] = byte,
            1 => header.insert(place, byte),
            _ => drop(header.remove(place)),
        }
    }
}
