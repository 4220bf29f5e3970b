//! Frames written as lines: every row, every length of a row and of the buffer.

use crate::call::hex;
use crate::random::Random;
use crate::sides::{parted, record_archive, record_second, refused, UNDRAWN};
use second::Frame;

/// The longest line is 261 bytes with its LF; buffers have up to one more.
pub const MOST_ROOM: usize = 262;
/// Pixels of a row are at most two too many.
const MOST_PIXELS: usize = 130;
/// Bytes after the buffer, which no side may touch.
const FENCE: usize = 8;
/// Random frames of each of the short kinds.
const FRAMES: usize = 2_000;

/// Bytes of a frame's line with its LF.
pub fn length<Pixels>(frame: &Frame<Pixels>) -> usize {
    match frame {
        Frame::Reset => 3,
        Frame::Read { .. } => 7,
        Frame::Write { .. } => 9,
        Frame::Tick { .. } => 11,
        Frame::Row { .. } => 261,
    }
}

/// A random frame of one of the five kinds, which is not refused by 6.
pub fn frame(random: &mut Random, kind: u8) -> Frame<Box<[u8]>> {
    match kind {
        0 => Frame::Reset,
        1 => Frame::Read {
            address: random.next() as u16,
        },
        2 => Frame::Write {
            address: random.next() as u16,
            value: random.byte(),
        },
        3 => Frame::Tick {
            cycles: random.next() as u32,
        },
        _ => {
            let mut pixels = vec![0; 128];
            random.fill(&mut pixels);
            Frame::Row {
                row: random.byte() & 0x7F,
                pixels: pixels.into(),
            }
        }
    }
}

/// Writes lines on both sides; how many, or where they part.
pub fn compare(random: &mut Random) -> Result<u64, String> {
    let mut compared = 0;
    for kind in 0..4 {
        for _ in 0..FRAMES {
            compared += in_every_room(&frame(random, kind), 0)?;
        }
    }
    let mut pixels = [0; MOST_PIXELS];
    for row in 0..=255 {
        random.fill(&mut pixels);
        for count in 0..=MOST_PIXELS {
            let pixels = &pixels[..count];
            let wrong = row > 0x7F || count != 128;
            compared += in_every_room(&Frame::Row { row, pixels }, if wrong { 6 } else { 0 })?;
        }
    }
    Ok(compared)
}

/// Writes one line into buffers of every length; a number is what refuses all of them.
fn in_every_room(frame: &Frame<impl AsRef<[u8]>>, number: u64) -> Result<u64, String> {
    for room in 0..=MOST_ROOM {
        let length = length(frame);
        let due = match number {
            0 if room < length => refused(7),
            0 => length as u64,
            number => refused(number),
        };
        let (mut archive, mut second) =
            ([UNDRAWN; MOST_ROOM + FENCE], [UNDRAWN; MOST_ROOM + FENCE]);
        let answers = [
            record_archive(frame, &mut archive[..room]),
            record_second(frame, &mut second[..room]),
        ];
        if answers != [due, due] || archive != second {
            let place = parted("line", &archive, &second).unwrap_or_default();
            return Err(format!(
                "{} in {room} bytes: answers {answers:X?}, due {due:X}h; {place}",
                shown(frame)
            ));
        }
    }
    Ok(MOST_ROOM as u64 + 1)
}

fn shown(frame: &Frame<impl AsRef<[u8]>>) -> String {
    match frame {
        Frame::Reset => "reset".into(),
        Frame::Read { address } => format!("read {address:04X}"),
        Frame::Write { address, value } => format!("write {address:04X} {value:02X}"),
        Frame::Tick { cycles } => format!("tick {cycles:08X}"),
        Frame::Row { row, pixels } => format!("row {row:02X} of {}", hex(pixels.as_ref())),
    }
}
