//! The capture cycle by cycle and pixel by pixel, straight from the paper, against the fast one.

use super::random::Random;
use crate::{picture, tick, write, State, Timing, PLATE_OFFSET};

/// What the pixels of a capture are read from.
#[derive(Clone, Copy)]
pub enum Source<'a> {
    /// The image lent at the start.
    Image(&'a [u8]),
    /// A frame store, whatever it holds.
    Store(&'a [u8]),
}

impl Source<'_> {
    /// The signed value of a sensor pixel; a column beyond the sensor repeats the edge, and no
    /// picture pixel asks for a row outside 7 to 121.
    fn signed(self, taken: &[u8; 54], x: i32, row: i32) -> i32 {
        assert!((7..=121).contains(&row), "row {row}");
        let place = (row * 128 + x.clamp(0, 127)) as usize;
        let value = match self {
            Source::Image(image) => lit(image[place], taken),
            Source::Store(store) => store[place],
        };
        i32::from(value) - 128
    }
}

/// Steps 1 to 3 for one pixel, before 128 is subtracted.
pub fn lit(v: u8, taken: &[u8; 54]) -> u8 {
    let mut v = i32::from(v);
    v = 128 + (v - 128) * 5 / 8;
    let exposure = taken[2] as i32 * 256 + taken[3] as i32;
    v = (v * exposure / 256).min(255);
    if taken[4] & 8 != 0 {
        v = 255 - v;
    }
    v.try_into().unwrap()
}

/// What a start leaves in the store.
pub fn lit_store(image: &[u8], taken: &[u8; 54]) -> Vec<u8> {
    image.iter().map(|&v| lit(v, taken)).collect()
}

pub fn mode(taken: &[u8; 54]) -> u8 {
    let n = taken[1] >> 7;
    let vh = (taken[1] >> 5) & 3;
    let e3 = taken[4] >> 7;
    8 * n + 2 * vh + e3
}

/// Step 4 from a pixel and its four neighbours, in per cent so that nothing is lost before the cut.
pub fn step_4(mode: u8, ratio: u8, p: i32, n: i32, s: i32, w: i32, e: i32) -> i32 {
    let alpha = [50, 75, 100, 125, 200, 300, 400, 500][ratio as usize];
    let cut = |hundredths: i32| hundredths / 100;
    match mode {
        0 => p,
        1 => 0,
        2 => cut(100 * p + (2 * p - w - e) * alpha).clamp(-128, 127),
        3 => cut((2 * p - w - e) * alpha).clamp(-128, 127),
        0xC => cut(100 * p + (2 * p - n - s) * alpha).clamp(-128, 127),
        0xD => cut((2 * p - n - s) * alpha).clamp(-128, 127),
        0xE => cut(100 * p + (4 * p - n - s - e - w) * alpha).clamp(-128, 127),
        0xF => cut((4 * p - n - s - e - w) * alpha).clamp(-128, 127),
        4..=0xB => p,
        _ => unreachable!(),
    }
}

/// Step 5 from a step 4 value and the one below.
pub fn step_5(mode: u8, start: u8, p: i32, s: i32) -> i32 {
    match (mode, (start >> 1) & 3) {
        (0 | 2 | 3, 0) => (-p).clamp(-128, 127),
        (0 | 2 | 3, 1) => p.clamp(-128, 127),
        (0 | 2 | 3, _) => (p - s).clamp(-128, 127),
        _ => p,
    }
}

/// Step 4 for a sensor pixel.
fn filtered(source: Source, taken: &[u8; 54], x: i32, row: i32) -> i32 {
    let at = |dx, dy| source.signed(taken, x + dx, row + dy);
    let ratio = (taken[4] >> 4) & 7;
    step_4(
        mode(taken),
        ratio,
        at(0, 0),
        at(0, -1),
        at(0, 1),
        at(-1, 0),
        at(1, 0),
    )
}

/// Step 6.
pub fn shade(taken: &[u8; 54], x: usize, y: usize, value: i32) -> u8 {
    let base = 6 + 3 * (4 * (y % 4) + x % 4);
    if value < taken[base] as i32 {
        3
    } else if value < taken[base + 1] as i32 {
        2
    } else if value < taken[base + 2] as i32 {
        1
    } else {
        0
    }
}

/// Step 7.
pub fn put(ram: &mut [u8], x: usize, y: usize, shade: u8) {
    let offset = 0x100 + 16 * (16 * (y / 8) + x / 8) + 2 * (y % 8);
    let bit = 1 << (7 - x % 8);
    for plane in 0..2 {
        ram[offset + plane] &= !bit;
        if shade >> plane & 1 == 1 {
            ram[offset + plane] |= bit;
        }
    }
}

/// The value 0 to 255 of a sensor pixel of the picture, before the matrix.
pub fn value(source: Source, taken: &[u8; 54], x: usize, row: usize) -> i32 {
    let p = filtered(source, taken, x as i32, row as i32);
    let s = filtered(source, taken, x as i32, row as i32 + 1);
    step_5(mode(taken), taken[0], p, s) + 128
}

fn pixel(ram: &mut [u8], source: Source, taken: &[u8; 54], x: usize, row: usize) {
    if !(8..120).contains(&row) {
        return;
    }
    let y = row - 8;
    let value = value(source, taken, x, row);
    put(ram, x, y, shade(taken, x, y, value));
}

/// One cycle at a time.
pub fn slow_tick(state: &mut State, ram: &mut [u8], source: Source, cycles: u32) -> u32 {
    let mut running = 0;
    for _ in 0..cycles {
        if !(state.held && state.registers[0] & 1 == 1) {
            continue;
        }
        running += 1;
        let before = state.elapsed / 2;
        state.elapsed += 1;
        let after = state.elapsed / 2;
        let exposure = state.taken[2] as u32 * 256 + state.taken[3] as u32;
        let n = state.taken[1] & 0x80 != 0;
        let start = 92 + 8 * exposure;
        let (first, rows) = if n { (1, 126) } else { (0, 128) };
        if before != after && after > start && after - start - 1 < rows * 128 {
            let k = after - start - 1;
            pixel(
                ram,
                source,
                &state.taken,
                (k % 128) as usize,
                (k / 128 + first) as usize,
            );
        }
        if state.elapsed == 32_446 + if n { 0 } else { 512 } + 16 * exposure {
            state.registers[0] &= 6;
            state.held = false;
            state.elapsed = 0;
            state.taken = [0; 54];
            state.ended = ((state.ended as u32 + 1) % 65_536) as u16;
        }
    }
    running
}

/// Registers that make pictures with some of every shade, under a given mode.
pub fn registers(random: &mut Random, mode: u8) -> [u8; 54] {
    let mut registers: [u8; 54] = random.bytes(54).try_into().unwrap();
    registers[0] = registers[0] & 6 | 1;
    registers[1] = registers[1] & 0x1F | mode >> 1 << 5;
    registers[2] = random.below(4) as u8;
    registers[4] = registers[4] & 0x7F | mode << 7;
    if random.below(2) == 0 {
        registers[6..]
            .chunks_exact_mut(3)
            .for_each(|element| element.sort());
    }
    registers
}

/// A state with a capture just started under these registers.
pub fn started(registers: &[u8; 54]) -> State {
    State {
        registers: *registers,
        taken: *registers,
        held: true,
        ..State::RESET
    }
}

#[test]
fn fast_ticks_are_slow_ticks() {
    let mut random = Random::new(1);
    for case in 0..=255_u8 {
        let taken = registers(&mut random, case % 16);
        let frame = match case % 3 {
            0 => random.bytes(16_384),
            1 => (0..16_384).map(|i| (i % 128 + i / 128) as u8).collect(),
            _ => (0..16_384).map(|_| 255 * (random.byte() & 1)).collect(),
        };
        // A capture begun by a start is held to its image, any other store is read as it is.
        let begun = case % 5 > 0;
        let (store, source) = if begun {
            (lit_store(&frame, &taken), Source::Image(&frame))
        } else {
            (frame.clone(), Source::Store(&frame))
        };
        let mut fast = started(&taken);
        let mut slow = fast;
        let mut fast_ram = random.bytes(8_192);
        let mut slow_ram = fast_ram.clone();
        let timing = Timing::of(&taken);
        let reading = 2 * timing.reading_starts();
        // Skips what is before the reading, where a cycle does nothing but count.
        let jump = reading - random.below(8) as u32 - 1;
        assert_eq!(tick(&mut fast, &mut fast_ram, &store, jump), Ok(jump));
        slow.elapsed = jump;
        assert_eq!((fast, &fast_ram), (slow, &slow_ram));
        while fast.held {
            let cycles = match random.below(40) {
                0 => 30_000,
                1..=4 => random.below(5_000) as u32,
                _ => random.below(700) as u32,
            };
            let running = tick(&mut fast, &mut fast_ram, &store, cycles).unwrap();
            assert_eq!(running, slow_tick(&mut slow, &mut slow_ram, source, cycles));
            assert_eq!(fast, slow, "case {case}");
            assert!(fast_ram == slow_ram, "case {case}, at {}", slow.elapsed);
        }
        if begun {
            let plate = picture(&frame, &taken).unwrap();
            assert_eq!(plate[..], fast_ram[PLATE_OFFSET..][..plate.len()]);
        }
    }
}

#[test]
fn one_cycle_at_a_time() {
    let mut random = Random::new(2);
    for mode in (0..16).chain([0, 2, 3]) {
        let mut taken = registers(&mut random, mode);
        (taken[2], taken[3]) = (0, 0x60);
        let frame = random.bytes(16_384);
        let store = lit_store(&frame, &taken);
        let mut fast = started(&taken);
        let mut slow = fast;
        let mut fast_ram = vec![0x5A; 8_192];
        let mut slow_ram = fast_ram.clone();
        while slow.held {
            // Up to a few pixels more than are drawn one by one.
            let cycles = match mode % 2 {
                0 => 1 + random.below(4) as u32 / 3,
                _ => random.below(30) as u32,
            };
            slow_tick(&mut slow, &mut slow_ram, Source::Image(&frame), cycles);
            tick(&mut fast, &mut fast_ram, &store, cycles).unwrap();
            assert_eq!(fast, slow);
        }
        assert!(fast_ram == slow_ram);
    }
}

#[test]
fn every_setting_of_the_filters() {
    let mut random = Random::new(3);
    for setting in 0..1024_u32 {
        let mut taken = registers(&mut random, (setting % 16) as u8);
        taken[0] = ((setting >> 4 & 3) as u8 * 2) | 1;
        taken[4] = taken[4] & 0x87 | ((setting >> 6 & 15) as u8 * 8);
        (taken[2], taken[3]) = (1, random.byte());
        let frame = random.bytes(16_384);
        let plate = picture(&frame, &taken).unwrap();
        let mut ram = vec![0; 8_192];
        let picked = random.below(112) as usize;
        for y in [0, picked, 111] {
            (0..128).for_each(|x| pixel(&mut ram, Source::Image(&frame), &taken, x, y + 8));
        }
        for y in [0, picked, 111] {
            for x in 0..16 {
                let place = 16 * (16 * (y / 8) + x) + 2 * (y % 8);
                assert_eq!(
                    plate[place..place + 2],
                    ram[0x100 + place..][..2],
                    "{setting:X}"
                );
            }
        }
    }
}

#[test]
fn a_stopped_capture_keeps_frame_and_registers() {
    let mut random = Random::new(5);
    for mode in 0..16 {
        let taken = registers(&mut random, mode);
        let image = random.bytes(16_384);
        let mut state = State {
            registers: taken,
            ram_select: 16,
            ..State::RESET
        };
        state.registers[0] = 0;
        let (mut ram, mut store) = (vec![0; 8_192], vec![0; 16_384]);
        write(&mut state, &mut ram, &mut store, &image, 0xA000, taken[0]).unwrap();
        let total = Timing::of(&taken).total();
        let mut run = 0;
        while state.held {
            let part = random.below(total as u64 / 4) as u32;
            run += tick(&mut state, &mut ram, &store, part).unwrap();
            let other = random.bytes(16_384);
            let before = ram.clone();
            for register in (0..54).rev() {
                let value = if register == 0 { 0 } else { random.byte() };
                let address = 0xA000 + register;
                write(&mut state, &mut ram, &mut store, &other, address, value).unwrap();
            }
            assert_eq!(tick(&mut state, &mut ram, &store, u32::MAX), Ok(0));
            assert!(ram == before);
            if state.held {
                write(&mut state, &mut ram, &mut store, &other, 0xA000, 7).unwrap();
                assert_eq!(state.taken, taken);
            }
        }
        assert_eq!(run, total);
        assert!(store == lit_store(&image, &taken));
        assert_eq!(ram[0x100..0xF00], picture(&image, &taken).unwrap());
    }
}
