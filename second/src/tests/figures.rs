//! The checked figures of the paper, and its session.

use super::slow::{put, shade, started, step_4, step_5};
use crate::{picture, read, tick, Lines, Session, State, Timing};

fn timing(n: bool, exposure: u16) -> Timing {
    Timing::of(&with(n, exposure))
}

fn with(n: bool, exposure: u16) -> [u8; 54] {
    let mut registers = [0; 54];
    registers[0] = 3;
    registers[1] = if n { 0x80 } else { 0 };
    registers[2..4].copy_from_slice(&exposure.to_be_bytes());
    registers
}

/// The shade of one sensor pixel under a frame, taken from the plate.
fn shade_at(frame: &[u8], taken: &[u8; 54], x: usize, y: usize) -> u8 {
    let plate = picture(frame, taken).unwrap();
    let place = 16 * (16 * (y / 8) + x / 8) + 2 * (y % 8);
    let bit = |byte: u8| byte >> (7 - x % 8) & 1;
    bit(plate[place]) + 2 * bit(plate[place + 1])
}

/// The value 0 to 255 that pixel (64, 60) reaches the matrix with, the greatest L that is not black.
fn value_at(frame: &[u8], taken: &[u8; 54]) -> u8 {
    let black = |l: u8| {
        let mut taken = *taken;
        taken[6..].fill(l);
        shade_at(frame, &taken, 64, 60) == 3
    };
    let levels: [u8; 256] = std::array::from_fn(|l| l as u8);
    levels[levels.partition_point(|&l| !black(l)) - 1]
}

#[test]
fn totals() {
    assert_eq!(timing(true, 0).total(), 32_446);
    assert_eq!(timing(false, 0).total(), 32_958);
    assert_eq!(timing(false, 0x1000).total(), 98_494);
    assert_eq!(timing(false, 0xFFFF).total(), 1_081_518);
}

#[test]
fn totals_are_ticked() {
    for (n, exposure, total) in [
        (true, 0, 32_446),
        (false, 0, 32_958),
        (false, 0x1000, 98_494),
        (false, 0xFFFF, 1_081_518),
    ] {
        let mut state = started(&with(n, exposure));
        let (mut ram, store) = (vec![0; 8_192], vec![0; 16_384]);
        assert_eq!(tick(&mut state, &mut ram, &store, total - 1), Ok(total - 1));
        assert!(state.held && state.can_exist());
        assert_eq!(tick(&mut state, &mut ram, &store, u32::MAX), Ok(1));
        assert_eq!(state.registers[0], 2);
        assert!(!state.held && state.elapsed == 0 && state.taken == [0; 54]);
    }
}

#[test]
fn first_picture_pixel() {
    for (n, cycle) in [(false, 2_234), (true, 1_978)] {
        let mut state = started(&with(n, 0));
        let (mut ram, store) = (vec![0xFF; 8_192], vec![0; 16_384]);
        assert_eq!(tick(&mut state, &mut ram, &store, cycle - 1), Ok(cycle - 1));
        assert!(ram.iter().all(|&byte| byte == 0xFF));
        assert_eq!(tick(&mut state, &mut ram, &store, 1), Ok(1));
        assert_eq!(ram[0x100..0x102], [0x7F, 0x7F]);
    }
}

#[test]
fn step_1() {
    for (v, adapted) in [(0, 48), (126, 127), (129, 128), (130, 129), (255, 207)] {
        assert_eq!(value_at(&[v; 16_384], &with(false, 0x100)), adapted);
    }
}

#[test]
fn step_1_for_every_light() {
    for v in 0..=255_u8 {
        // Cut toward zero on either side of the middle.
        let adapted = if v < 128 {
            128 - (128 - u32::from(v)) * 5 / 8
        } else {
            128 + (u32::from(v) - 128) * 5 / 8
        };
        let value = value_at(&[v; 16_384], &with(false, 0x100));
        assert_eq!(u32::from(value), adapted, "{v}");
    }
}

#[test]
fn step_2() {
    assert_eq!(value_at(&[255; 16_384], &with(false, 0x30)), 38);
    assert_eq!(value_at(&[128; 16_384], &with(false, 0x200)), 255);
}

#[test]
fn quarters_are_cut_toward_zero() {
    assert_eq!(step_4(0xE, 1, 10, 55, 0, 0, 0), -1);
    assert_eq!(step_4(0xD, 0, 5, 6, 5, 0, 0), 0);
}

/// The sensor value that leads to a signed value after steps 1 to 3 at exposure 100h.
fn source(signed: i32) -> u8 {
    (0..=255)
        .find(|&v: &u8| (i32::from(v) - 128) * 5 / 8 == signed)
        .unwrap()
}

#[test]
fn quarters_are_cut_toward_zero_on_the_plate() {
    let mut frame = [source(0); 16_384];
    let centre = 68 * 128 + 64;
    frame[centre] = source(10);
    (frame[centre - 128], frame[centre + 128]) = (source(55), source(0));
    let mut taken = with(true, 0x100);
    (taken[1], taken[4]) = (0xE0, 0x10);
    assert_eq!(value_at(&frame, &taken), 127);
    frame[centre] = source(5);
    (frame[centre - 128], frame[centre + 128]) = (source(6), source(5));
    (taken[1], taken[4]) = (0xC0, 0x80);
    assert_eq!(value_at(&frame, &taken), 128);
}

#[test]
fn mode_2_keeps_what_is_darker_than_the_middle() {
    assert_eq!(step_4(2, 3, -20, 0, 0, -20, -20), -20);
    assert_eq!(step_4(2, 7, -100, 0, 0, 100, 100), -128);
    assert_eq!(step_4(2, 7, 100, 0, 0, -100, -100), 127);
    let mut taken = with(false, 0x100);
    (taken[1], taken[4]) = (0x20, 0x30);
    assert_eq!(value_at(&[source(-20); 16_384], &taken), 108);
    // The negative setting and the difference start from the same value.
    taken[0] = 1;
    assert_eq!(value_at(&[source(-20); 16_384], &taken), 148);
    taken[0] = 5;
    assert_eq!(value_at(&[source(-20); 16_384], &taken), 128);
}

#[test]
fn mode_2_is_held_before_the_1_d_filter() {
    // At 500 per cent, a dark column among bright ones and below it a level row.
    let mut frame = [source(0); 16_384];
    let centre = 68 * 128 + 64;
    frame[centre - 1..=centre + 1].copy_from_slice(&[source(60), source(-60), source(60)]);
    let mut taken = with(false, 0x100);
    (taken[1], taken[4]) = (0x20, 0x70);
    for (start, value) in [(3, 0), (1, 255), (5, 0)] {
        taken[0] = start;
        assert_eq!(value_at(&frame, &taken), value);
    }
    // The other way round, less the row below at -60.
    frame[centre - 1..=centre + 1].copy_from_slice(&[source(-60), source(60), source(-60)]);
    frame[centre + 127..=centre + 129].fill(source(-60));
    for (start, value) in [(3, 255), (1, 1), (7, 255)] {
        taken[0] = start;
        assert_eq!(value_at(&frame, &taken), value);
    }
    frame[centre + 127..=centre + 129].fill(source(60));
    taken[0] = 7;
    assert_eq!(value_at(&frame, &taken), 128 + 127 - 60);
}

#[test]
fn negative_of_the_least() {
    assert_eq!(step_5(0, 1, -128, 0), 127);
    let mut taken = with(false, 0);
    taken[0] = 1;
    assert_eq!(value_at(&[0; 16_384], &taken), 255);
}

#[test]
fn matrix() {
    let mut taken = with(false, 0x100);
    taken[6..]
        .chunks_exact_mut(3)
        .for_each(|e| e.copy_from_slice(&[0x89, 0x92, 0xA2]));
    for (value, wanted) in [(0x88, 3), (0x89, 2), (0x92, 1), (0xA2, 0)] {
        assert_eq!(shade(&taken, 0, 0, value), wanted);
        let frame = [source(value - 128); 16_384];
        assert_eq!(shade_at(&frame, &taken, 17, 33), wanted);
    }
}

#[test]
fn tiles() {
    let mut ram = vec![0xFF; 8_192];
    (0..8).for_each(|x| put(&mut ram, x, 0, x as u8 % 4));
    assert_eq!(ram[0x100..0x102], [0x55, 0x33]);
    let mut ram = vec![0xFF; 8_192];
    put(&mut ram, 127, 111, 0);
    assert_eq!(ram[0xEFE..0xF00], [0xFE, 0xFE]);
}

#[test]
fn tiles_on_the_plate() {
    let mut taken = with(false, 0x100);
    // Columns of the matrix that give shades 0, 1, 2 and 3 to anything.
    for row in taken[6..].chunks_exact_mut(12) {
        row.copy_from_slice(&[0, 0, 0, 0, 0, 255, 0, 255, 255, 255, 255, 255]);
    }
    let plate = picture(&[128; 16_384], &taken).unwrap();
    assert!(plate.chunks_exact(2).all(|bytes| bytes == [0x55, 0x33]));
    let mut state = started(&taken);
    let mut ram = vec![0; 8_192];
    let last = 2 * (92 + 8 * 0x100 + 119 * 128 + 127 + 1);
    tick(&mut state, &mut ram, &[128; 16_384], last - 1).unwrap();
    assert_eq!(ram[0xEFC..0xF02], [0x55, 0x33, 0x54, 0x32, 0, 0]);
    tick(&mut state, &mut ram, &[128; 16_384], 1).unwrap();
    assert_eq!(ram[0xEFC..0xF02], [0x55, 0x33, 0x55, 0x33, 0, 0]);
}

#[test]
fn nothing_can_be_read_while_busy() {
    let state = started(&with(false, 0));
    assert_eq!(read(&state, &[1; 16_384], &[1; 8_192], 0xA000), Ok(0));
    assert_eq!(
        read(&State::RESET, &[1; 16_384], &[1; 8_192], 0xA000),
        Ok(1)
    );
}

/// The session as the paper prints it.
const SESSION: &str = "\
00 > 00
01A0FF > 00FF
02400010 > 00
02A00003 > 00
01A000 > 0003
03000008BA > 00000008BA
02A00002 > 00
02400000 > 00
01A100 > 007F
01A101 > 007F
02400010 > 00
02A00003 > 00
0300010000 > 0000007804
01A000 > 0002
02400000 > 00
01A100 > 0000
01AF00 > 00FF
018000 > 05
01a000 > 06
";

#[test]
fn session() {
    let (mut lines, mut session, mut out) = (Lines::new(), Session::new(), Vec::new());
    let mut wanted = String::new();
    for line in SESSION.lines() {
        let (input, output) = line.split_once(" > ").unwrap();
        let input = format!("{input}\n");
        lines.feed(input.as_bytes(), |line| session.answer(line, &mut out));
        wanted += &format!("{output}\n");
    }
    lines.finish(|_| panic!("nothing is left"));
    assert_eq!(String::from_utf8(out).unwrap(), wanted);
}
