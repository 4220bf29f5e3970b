//! The bus script: one frame a line, one answer a line.

use crate::bus::{read, read_judged, tick, tick_judged, write, write_judged};
use crate::lent::{check_frame, check_ram};
use crate::refusal::Refusal;
use crate::sizes::{FRAME_BYTES, RAM_BANK, ROM_BANK, SENSOR_WIDTH};
use crate::state::State;

/// The last row of the image.
const LAST_ROW: u8 = 0x7F;
/// Bytes of the longest answer with its LF.
pub const LONGEST_ANSWER: usize = 11;

/// What a line asks for; a frame to be written may lend its pixels as a slice.
#[derive(Clone, Copy, Debug, PartialEq, Eq)]
pub enum Frame<Pixels = [u8; SENSOR_WIDTH]> {
    Reset,
    Read { address: u16 },
    Write { address: u16, value: u8 },
    Tick { cycles: u32 },
    Row { row: u8, pixels: Pixels },
}

/// The pixels of a row as they stand in a line.
pub(crate) type Digits = [u8; 2 * SENSOR_WIDTH];

impl Frame {
    /// Takes a line apart, its LF left out; none if it is malformed.
    pub fn parse(line: &[u8]) -> Option<Frame> {
        Some(match take_apart(line)? {
            Frame::Reset => Frame::Reset,
            Frame::Read { address } => Frame::Read { address },
            Frame::Write { address, value } => Frame::Write { address, value },
            Frame::Tick { cycles } => Frame::Tick { cycles },
            Frame::Row { row, pixels } => Frame::Row {
                row,
                pixels: read_pixels(pixels)?,
            },
        })
    }
}

/// Takes a line apart but for the pixels of a row, which are left as they stand.
#[inline(always)]
pub(crate) fn take_apart(line: &[u8]) -> Option<Frame<&Digits>> {
    match line {
        b"00" => Some(Frame::Reset),
        [b'0', b'1', rest @ ..] => Some(Frame::Read {
            address: number::<4>(rest)? as u16,
        }),
        [b'0', b'2', rest @ ..] => number::<6>(rest).map(|number| Frame::Write {
            address: (number >> 8) as u16,
            value: number as u8,
        }),
        [b'0', b'3', rest @ ..] => Some(Frame::Tick {
            cycles: number::<8>(rest)?,
        }),
        [b'0', b'4', first, second, pixels @ ..] => {
            let row = number::<2>(&[*first, *second])? as u8;
            let pixels = pixels.try_into().ok()?;
            (row <= LAST_ROW).then_some(Frame::Row { row, pixels })
        }
        _ => None,
    }
}

/// The pixels of a row; none if one is not two digits.
fn read_pixels(digits: &Digits) -> Option<[u8; SENSOR_WIDTH]> {
    let mut pixels = [0; SENSOR_WIDTH];
    let mut all = 0;
    for (pixel, digits) in pixels.iter_mut().zip(digits.chunks_exact(2)) {
        let [high, low] = [digits[0], digits[1]].map(value);
        *pixel = high << 4 | low;
        all |= high | low;
    }
    (all < NO_DIGIT).then_some(pixels)
}

impl<Pixels: AsRef<[u8]>> Frame<Pixels> {
    /// Writes the frame as a line into a lent buffer, whose later bytes stay; returns the line's
    /// length with its LF.
    pub fn write_line(&self, buffer: &mut [u8]) -> Result<usize, Refusal> {
        match self {
            Frame::Reset => put_line(buffer, &[0], &[]),
            Frame::Read { address } => {
                let [high, low] = address.to_be_bytes();
                put_line(buffer, &[1, high, low], &[])
            }
            Frame::Write { address, value } => {
                let [high, low] = address.to_be_bytes();
                put_line(buffer, &[2, high, low, *value], &[])
            }
            Frame::Tick { cycles } => put_line(buffer, &[3], &cycles.to_be_bytes()),
            Frame::Row { row, pixels } => {
                let pixels = pixels.as_ref();
                if *row > LAST_ROW || pixels.len() != SENSOR_WIDTH {
                    return Err(Refusal::Line);
                }
                put_line(buffer, &[4, *row], pixels)
            }
        }
    }
}

/// Writes the bytes of a head and a tail as digits, then LF.
fn put_line(buffer: &mut [u8], head: &[u8], tail: &[u8]) -> Result<usize, Refusal> {
    let digits = 2 * (head.len() + tail.len());
    let line = buffer.get_mut(..digits + 1).ok_or(Refusal::Buffer)?;
    let (for_head, for_tail) = line.split_at_mut(2 * head.len());
    put_digits(for_head, head);
    put_digits(for_tail, tail);
    line[digits] = b'\n';
    Ok(line.len())
}

/// Writes each byte as two digits.
fn put_digits(places: &mut [u8], bytes: &[u8]) {
    for (place, &byte) in places.chunks_exact_mut(2).zip(bytes) {
        place.copy_from_slice(&digits(byte));
    }
}

/// The number that so many hexadecimal digits make; none if there are more or fewer, or one is no digit.
fn number<const COUNT: usize>(digits: &[u8]) -> Option<u32> {
    let digits: &[u8; COUNT] = digits.try_into().ok()?;
    let (mut number, mut all) = (0, 0);
    for &digit in digits {
        number = number << 4 | u32::from(value(digit));
        all |= value(digit);
    }
    (all < NO_DIGIT).then_some(number)
}

/// What stands for the value of a byte that is no digit; no digit has that bit.
const NO_DIGIT: u8 = 0x10;

/// The value of each byte as an upper-case digit.
const VALUES: [u8; 256] = {
    let mut values = [NO_DIGIT; 256];
    let mut value = 0;
    while value < 16 {
        values[b"0123456789ABCDEF"[value] as usize] = value as u8;
        value += 1;
    }
    values
};

/// The value of an upper-case digit.
fn value(digit: u8) -> u8 {
    VALUES[usize::from(digit)]
}

/// A byte as two digits.
pub(crate) fn digits(byte: u8) -> [u8; 2] {
    [byte >> 4, byte & 15].map(|value| value + if value < 10 { b'0' } else { b'A' - 10 })
}

/// What an accepted line is answered besides 00.
pub(crate) enum Answer {
    Done,
    Byte(u8),
    Cycles(u32),
}

/// Hands on an answer as a line with its LF.
#[inline(always)]
fn say<T>(answer: Result<Answer, Refusal>, put: impl FnOnce(&[u8]) -> T) -> T {
    match answer {
        Ok(Answer::Done) => put(b"00\n"),
        Ok(Answer::Byte(byte)) => {
            let [high, low] = digits(byte);
            put(&[b'0', b'0', high, low, b'\n'])
        }
        Ok(Answer::Cycles(cycles)) => {
            let mut line = *b"0000000000\n";
            put_digits(&mut line[2..10], &cycles.to_be_bytes());
            put(&line)
        }
        Err(refusal) => {
            let [high, low] = digits(refusal.number());
            put(&[high, low, b'\n'])
        }
    }
}

/// Plays a line, its LF left out, on a record and on memory that are lent, and puts the answer line
/// at the start of a lent buffer, whose later bytes stay; returns the answer's length with its LF.
///
/// Only bytes that are no record and a buffer shorter than the longest answer are refused. What a
/// call refuses is the line's answer.
pub fn step(
    record: &mut [u8],
    rom: &[u8],
    ram: &mut [u8],
    store: &mut [u8],
    image: &mut [u8],
    line: &[u8],
    out: &mut [u8],
) -> Result<usize, Refusal> {
    let mut state = State::from_bytes(record).ok_or(Refusal::State)?;
    let out = out.get_mut(..LONGEST_ANSWER).ok_or(Refusal::Buffer)?;
    let frame = take_apart(line).ok_or(Refusal::Line);
    let answer = frame.and_then(|frame| match frame {
        Frame::Reset => {
            state = State::RESET;
            Ok(Answer::Done)
        }
        Frame::Read { address } => read(&state, rom, ram, address).map(Answer::Byte),
        Frame::Write { address, value } => {
            write(&mut state, ram, store, image, address, value).map(|()| Answer::Done)
        }
        Frame::Tick { cycles } => tick(&mut state, ram, store, cycles).map(Answer::Cycles),
        Frame::Row { row, pixels } => {
            let pixels = read_pixels(pixels).ok_or(Refusal::Line)?;
            check_frame(image)?;
            put_row(image, row, &pixels);
            Ok(Answer::Done)
        }
    });
    record.copy_from_slice(&state.to_bytes());
    Ok(say(answer, |line| {
        out[..line.len()].copy_from_slice(line);
        line.len()
    }))
}

/// Puts a row into an image.
fn put_row(image: &mut [u8], row: u8, pixels: &[u8; SENSOR_WIDTH]) {
    image[usize::from(row) * SENSOR_WIDTH..][..SENSOR_WIDTH].copy_from_slice(pixels);
}

/// A controller with its memory, played line by line.
#[derive(Debug)]
pub struct Session {
    pub(crate) state: State,
    rom: Vec<u8>,
    pub(crate) ram: Vec<u8>,
    pub(crate) image: Vec<u8>,
    store: Vec<u8>,
}

impl Session {
    /// One bank of ROM and RAM full of FF, image and frame store of 00, state reset.
    pub fn new() -> Self {
        Session::of(vec![0xFF; RAM_BANK])
    }

    /// The same with a RAM that is given.
    pub fn with_ram(ram: Vec<u8>) -> Result<Self, Refusal> {
        check_ram(&ram)?;
        Ok(Session::of(ram))
    }

    fn of(ram: Vec<u8>) -> Self {
        Session {
            state: State::RESET,
            rom: vec![0xFF; ROM_BANK],
            ram,
            image: vec![0; FRAME_BYTES],
            store: vec![0; FRAME_BYTES],
        }
    }

    /// Plays a line, its LF left out and none if it was too long, and appends the answer line.
    pub fn answer(&mut self, line: Option<&[u8]>, out: &mut Vec<u8>) {
        let frame = line.and_then(take_apart).ok_or(Refusal::Line);
        let answer = frame.and_then(|frame| self.play(frame));
        say(answer, |line| out.extend_from_slice(line));
    }

    /// Plays a frame; the memory here has the right sizes, and every state comes from reset.
    #[inline(always)]
    pub(crate) fn play(&mut self, frame: Frame<&Digits>) -> Result<Answer, Refusal> {
        let Session {
            state,
            rom,
            ram,
            image,
            store,
        } = self;
        match frame {
            Frame::Reset => *state = State::RESET,
            Frame::Read { address } => {
                return read_judged(state, rom, ram, address).map(Answer::Byte)
            }
            Frame::Write { address, value } => {
                write_judged(state, ram, store, image, address, value)?
            }
            Frame::Tick { cycles } => {
                return Ok(Answer::Cycles(tick_judged(state, ram, store, cycles)))
            }
            Frame::Row { row, pixels } => {
                let pixels = read_pixels(pixels).ok_or(Refusal::Line)?;
                put_row(image, row, &pixels)
            }
        }
        Ok(Answer::Done)
    }
}

impl Default for Session {
    fn default() -> Self {
        Session::new()
    }
}
