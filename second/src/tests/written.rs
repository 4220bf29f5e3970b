//! Frames written as lines, and read again.

use super::random::Random;
use crate::{Frame, Refusal};

/// What the buffers hold before.
const BEFORE: u8 = 0xA5;

/// The line of a frame, after seeing that every buffer long enough gets just it, and no other a byte.
fn line(frame: &Frame<&[u8]>) -> Vec<u8> {
    let mut large = [BEFORE; 300];
    let length = frame.write_line(&mut large).unwrap();
    assert_eq!(large[length..], vec![BEFORE; 300 - length]);
    for room in 0..large.len() {
        let mut buffer = vec![BEFORE; room];
        let written = frame.write_line(&mut buffer);
        if room < length {
            assert_eq!(written, Err(Refusal::Buffer), "{frame:?} in {room}");
            assert_eq!(buffer, vec![BEFORE; room]);
        } else {
            assert_eq!(written, Ok(length));
            assert_eq!(buffer, large[..room]);
        }
    }
    large[..length].to_vec()
}

/// A frame that owns its pixels, as the reader gives it.
fn owned(frame: &Frame<&[u8]>) -> Frame {
    match *frame {
        Frame::Reset => Frame::Reset,
        Frame::Read { address } => Frame::Read { address },
        Frame::Write { address, value } => Frame::Write { address, value },
        Frame::Tick { cycles } => Frame::Tick { cycles },
        Frame::Row { row, pixels } => Frame::Row {
            row,
            pixels: pixels.try_into().unwrap(),
        },
    }
}

fn check(frame: Frame<&[u8]>, wanted: &str) {
    let line = line(&frame);
    assert_eq!(String::from_utf8(line.clone()).unwrap(), wanted);
    assert_eq!(Frame::parse(&line[..line.len() - 1]), Some(owned(&frame)));
}

#[test]
fn every_kind() {
    check(Frame::Reset, "00\n");
    check(Frame::Read { address: 0xA0FF }, "01A0FF\n");
    check(Frame::Read { address: 0 }, "010000\n");
    check(
        Frame::Write {
            address: 0x4B0C,
            value: 0xDE,
        },
        "024B0CDE\n",
    );
    check(Frame::Tick { cycles: 0x8BA }, "03000008BA\n");
    check(Frame::Tick { cycles: u32::MAX }, "03FFFFFFFF\n");
}

#[test]
fn every_row_and_pixel() {
    for row in 0..=0x7F {
        let pixels: Vec<u8> = (0..128).map(|x| x + 128 * (row % 2)).collect();
        let digits: String = pixels.iter().map(|pixel| format!("{pixel:02X}")).collect();
        let pixels = &pixels[..];
        check(
            Frame::Row { row, pixels },
            &format!("04{row:02X}{digits}\n"),
        );
    }
}

#[test]
fn rows_that_are_none() {
    let pixels = [0; 300];
    for row in 0..=255 {
        for width in [0, 1, 127, 128, 129, 256, 300] {
            let frame = Frame::Row {
                row,
                pixels: &pixels[..width],
            };
            for room in [0, 260, 261, 700] {
                let mut buffer = vec![BEFORE; room];
                let written = frame.write_line(&mut buffer);
                if row > 0x7F || width != 128 {
                    assert_eq!(
                        written,
                        Err(Refusal::Line),
                        "before the buffer is looked at"
                    );
                    assert_eq!(buffer, vec![BEFORE; room]);
                } else {
                    let wanted = if room < 261 {
                        Err(Refusal::Buffer)
                    } else {
                        Ok(261)
                    };
                    assert_eq!(written, wanted);
                }
            }
        }
    }
}

#[test]
fn random_frames_come_back() {
    let mut random = Random::new(7);
    for _ in 0..2_000 {
        let pixels = random.bytes(128);
        let frame = match random.below(5) {
            0 => Frame::Reset,
            1 => Frame::Read {
                address: random.next() as u16,
            },
            2 => Frame::Write {
                address: random.next() as u16,
                value: random.byte(),
            },
            3 => Frame::Tick {
                cycles: random.next() as u32,
            },
            _ => Frame::Row {
                row: random.byte() & 0x7F,
                pixels: &pixels[..],
            },
        };
        let mut buffer = [0; 261];
        let length = frame.write_line(&mut buffer).unwrap();
        assert_eq!(buffer[length - 1], b'\n');
        assert_eq!(Frame::parse(&buffer[..length - 1]), Some(owned(&frame)));
    }
}

#[test]
fn accepted_lines_give_the_same_digits() {
    let mut random = Random::new(8);
    let mut accepted = 0;
    for _ in 0..200_000 {
        let length = random.below(12) as usize;
        let mut line: Vec<u8> = (0..length)
            .map(|_| b"0123456789ABCDEFabG\r"[random.below(20) as usize])
            .collect();
        // Most lines get a kind that fits their length, else few would be accepted.
        if length >= 2 && random.below(4) > 0 {
            let kind = match length {
                6 => b"01",
                8 => b"02",
                10 => b"03",
                _ => b"00",
            };
            line[..2].copy_from_slice(kind);
        }
        let Some(frame) = Frame::parse(&line) else {
            continue;
        };
        let mut buffer = [0; 261];
        let length = frame.write_line(&mut buffer).unwrap();
        line.push(b'\n');
        assert_eq!(buffer[..length], line);
        accepted += 1;
    }
    assert!(accepted > 10_000, "{accepted}");
}
