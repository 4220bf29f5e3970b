//! The picture area as files, beside a slow reading of the paper.

use super::random::Random;
use super::slow::{put, registers, started};
use crate::{export, place, read, shades, tick, Refusal, State, Timing};

const FILE: usize = 14_351;
/// What the buffers hold before.
const BEFORE: u8 = 0xA5;

/// The shade of a picture pixel, by step 7 of the paper.
fn shade(ram: &[u8], x: usize, y: usize) -> u8 {
    let offset = 0x100 + 16 * (16 * (y / 8) + x / 8) + 2 * (y % 8);
    let bit = |byte: u8| byte >> (7 - x % 8) & 1;
    bit(ram[offset]) + 2 * bit(ram[offset + 1])
}

/// Every picture pixel's shade, row by row.
fn slow_shades(ram: &[u8]) -> Vec<u8> {
    (0..112 * 128)
        .map(|i| shade(ram, i % 128, i / 128))
        .collect()
}

/// The file of a picture area.
fn slow_file(ram: &[u8]) -> Vec<u8> {
    let mut file = b"P5\n128 112\n255\n".to_vec();
    let greys = [255, 170, 85, 0];
    file.extend(slow_shades(ram).iter().map(|&s| greys[s as usize]));
    file
}

fn exported(ram: &[u8]) -> Vec<u8> {
    let mut buffer = vec![BEFORE; FILE + 9];
    export(ram, &mut buffer).unwrap();
    assert_eq!(buffer.split_off(FILE), [BEFORE; 9]);
    buffer
}

#[test]
fn sizes() {
    assert_eq!(crate::GREY_FILE_BYTES, FILE);
    assert_eq!(slow_file(&[0; 8_192]).len(), FILE);
}

#[test]
fn random_areas_are_exported() {
    let mut random = Random::new(9);
    for round in 0..50 {
        let ram = random.bytes(8_192 << (round % 5));
        let file = exported(&ram);
        assert!(file == slow_file(&ram));
        let mut exact = vec![0; FILE];
        assert_eq!(export(&ram, &mut exact), Ok(()));
        assert!(exact == file);
    }
}

#[test]
fn one_pixel_of_each_shade() {
    let mut random = Random::new(10);
    for (shade, grey) in [(0, 255), (1, 170), (2, 85), (3, 0)] {
        for (x, y) in [(0, 0), (127, 0), (0, 111), (127, 111), (9, 17)] {
            let mut ram = random.bytes(8_192);
            put(&mut ram, x, y, shade);
            assert_eq!(exported(&ram)[15 + 128 * y + x], grey);
        }
    }
}

#[test]
fn only_the_area_counts() {
    let mut random = Random::new(11);
    let mut ram = random.bytes(16_384);
    let file = exported(&ram);
    ram[..0x100].fill(random.byte());
    ram[0xF00..].fill(random.byte());
    assert!(exported(&ram) == file);
}

#[test]
fn a_half_picture_is_exported_as_it_stands() {
    let mut random = Random::new(12);
    let taken = registers(&mut random, 0);
    let (image, mut ram) = (random.bytes(16_384), random.bytes(8_192));
    let before = slow_shades(&ram);
    let mut state = started(&taken);
    let half = 2 * (Timing::of(&taken).reading_starts() + 64 * 128);
    tick(&mut state, &mut ram, &image, half).unwrap();
    assert!(state.running());
    let file = exported(&ram);
    assert!(file == slow_file(&ram));
    // Sensor rows below 64 are picture rows below 56.
    let below: Vec<u8> = before[56 * 128..].iter().map(|s| 255 - 85 * s).collect();
    assert!(file[15 + 56 * 128..] == below);
    assert!(slow_shades(&ram)[..56 * 128] != before[..56 * 128]);
}

#[test]
fn refused_exports() {
    for banks in 0..34 {
        let ram = vec![0; banks * 8_192];
        let fits = [1, 2, 4, 8, 16].contains(&banks);
        for room in [0, 1, 15, FILE - 1, FILE, FILE + 1] {
            let mut buffer = vec![BEFORE; room];
            let wanted = match (fits, room) {
                (false, _) => Err(Refusal::Ram),
                (true, ..FILE) => Err(Refusal::Buffer),
                (true, _) => Ok(()),
            };
            assert_eq!(export(&ram, &mut buffer), wanted, "{banks}, {room}");
            assert!(wanted.is_ok() || buffer == vec![BEFORE; room]);
        }
    }
    assert_eq!(export(&[0; 8_191], &mut []), Err(Refusal::Ram));
    assert_eq!(export(&[0; 8_193], &mut [0; FILE]), Err(Refusal::Ram));
}

fn read_shades(ram: &[u8]) -> Vec<u8> {
    let mut buffer = vec![BEFORE; 14_336 + 9];
    shades(ram, &mut buffer).unwrap();
    assert_eq!(buffer.split_off(14_336), [BEFORE; 9]);
    buffer
}

#[test]
fn random_areas_are_read_as_shades() {
    let mut random = Random::new(18);
    for round in 0..50 {
        let ram = random.bytes(8_192 << (round % 5));
        assert!(read_shades(&ram) == slow_shades(&ram));
        let mut exact = vec![0; 14_336];
        assert_eq!(shades(&ram, &mut exact), Ok(()));
        assert!(exact == slow_shades(&ram));
    }
}

#[test]
fn refused_shades() {
    for banks in 0..34 {
        let ram = vec![0; banks * 8_192];
        let fits = [1, 2, 4, 8, 16].contains(&banks);
        for room in [0, 1, 14_335, 14_336, 14_337] {
            let mut buffer = vec![BEFORE; room];
            let wanted = match (fits, room) {
                (false, _) => Err(Refusal::Ram),
                (true, ..14_336) => Err(Refusal::Buffer),
                (true, _) => Ok(()),
            };
            assert_eq!(shades(&ram, &mut buffer), wanted, "{banks}, {room}");
            assert!(wanted.is_ok() || buffer == vec![BEFORE; room]);
        }
    }
}

#[test]
fn out_and_in_and_out() {
    let mut random = Random::new(19);
    for round in 0..50 {
        let ram = random.bytes(8_192 << (round % 5));
        let file = exported(&ram);
        let mut other = random.bytes(ram.len());
        let mut wanted = other.clone();
        wanted[0x100..0xF00].copy_from_slice(&ram[0x100..0xF00]);
        let state = State {
            ram_enabled: round % 2 == 0,
            ram_select: random.byte() & 31,
            ..State::RESET
        };
        assert_eq!(place(&state, &mut other, &file), Ok(()));
        assert!(other == wanted);
        assert!(exported(&other) == file);
    }
}

#[test]
fn in_and_out() {
    let mut random = Random::new(20);
    for _ in 0..20 {
        let mut file = b"P5\n128 112\n255\n".to_vec();
        file.extend((0..14_336).map(|_| [0, 85, 170, 255][random.below(4) as usize]));
        let mut ram = random.bytes(8_192);
        place(&State::RESET, &mut ram, &file).unwrap();
        assert!(exported(&ram) == file);
        let greys = read_shades(&ram).into_iter().map(|shade| 255 - 85 * shade);
        assert!(greys.eq(file[15..].iter().copied()));
    }
}

#[test]
fn a_placed_picture_is_read_on_the_bus() {
    let mut file = exported(&[0; 8_192]);
    file[15..23].copy_from_slice(&[255, 170, 85, 0, 255, 170, 85, 0]);
    file[FILE - 1] = 170;
    let mut ram = vec![0; 8_192];
    place(&State::RESET, &mut ram, &file).unwrap();
    for (address, byte) in [(0xA100, 0x55), (0xA101, 0x33), (0xAEFE, 1), (0xAEFF, 0)] {
        assert_eq!(read(&State::RESET, &[0; 16_384], &ram, address), Ok(byte));
    }
}

/// Places a file with a fresh state and sees that it is refused as 8 and changes nothing.
fn is_no_file(file: &[u8]) {
    let mut ram = [BEFORE; 8_192];
    assert_eq!(place(&State::RESET, &mut ram, file), Err(Refusal::File));
    assert_eq!(ram, [BEFORE; 8_192]);
}

#[test]
fn other_files() {
    let mut random = Random::new(21);
    let good = exported(&random.bytes(8_192));
    for length in [0, 1, 14, 15, 16, FILE - 1] {
        is_no_file(&good[..length]);
    }
    is_no_file(&[&good[..], &[255]].concat());
    is_no_file(&good[1..]);
    for place in 0..15 {
        for byte in 0..=255 {
            let mut file = good.clone();
            file[place] = byte;
            if file != good {
                is_no_file(&file);
            }
        }
    }
    // Other ways to write the same header, with all the pixels.
    for header in [
        "P5 128 112 255\n",
        "P5\n#\n128 112\n255\n",
        "P5\n128 112\n255 ",
    ] {
        is_no_file(&[header.as_bytes(), &good[15..]].concat());
    }
}

#[test]
fn only_four_greys() {
    let mut random = Random::new(22);
    let good = exported(&random.bytes(8_192));
    for grey in 0..=255 {
        for at in [0, 1, 6, 7, 8, 127, 128, 5_000, 14_335] {
            let mut file = good.clone();
            file[15 + at] = grey;
            if [0, 85, 170, 255].contains(&grey) {
                let mut ram = [0; 8_192];
                assert_eq!(place(&State::RESET, &mut ram, &file), Ok(()));
                assert_eq!(255 - 85 * shade(&ram, at % 128, at / 128), grey);
            } else {
                is_no_file(&file);
            }
        }
    }
    // Two strange greys don't hide each other.
    let mut file = good;
    (file[15], file[15 + 8]) = (254, 254);
    is_no_file(&file);
}

#[test]
fn placings_are_refused_in_order() {
    let mut random = Random::new(23);
    let good = exported(&random.bytes(8_192));
    let running = started(&registers(&mut random, 2));
    let mut stopped = running;
    stopped.registers[0] &= 6;
    let broken = |state: State| State {
        rom_bank: 64,
        ..state
    };
    let (free, bad) = (State::RESET, &good[1..]);
    for (state, ram, file, refusal) in [
        (broken(free), 8_191, bad, Refusal::State),
        (broken(running), 8_192, &good, Refusal::State),
        (free, 8_191, bad, Refusal::Ram),
        (running, 24_576, &good, Refusal::Ram),
        (running, 8_192, bad, Refusal::File),
        (stopped, 8_192, bad, Refusal::File),
        (running, 8_192, &good, Refusal::Held),
        (stopped, 131_072, &good, Refusal::Held),
    ] {
        let mut ram = vec![BEFORE; ram];
        assert_eq!(place(&state, &mut ram, file), Err(refusal));
        assert!(ram.iter().all(|&byte| byte == BEFORE));
    }
}
