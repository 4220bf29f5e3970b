//! The readings before the dots, beside a slow reading of the paper.

use super::random::Random;
use super::slow::{registers, shade, started, value, Source};
use crate::{export_readings, picture, shades, tick, write, Refusal, State, Timing};

const FILE: usize = 14_351;
/// What the buffers hold before.
const BEFORE: u8 = 0xA5;

/// The pixels of the export, after seeing that it is a header, they, and no byte more.
fn readings(state: &State, store: &[u8]) -> Vec<u8> {
    let mut buffer = vec![BEFORE; FILE + 9];
    export_readings(state, store, &mut buffer).unwrap();
    assert_eq!(buffer[..15], *b"P5\n128 112\n255\n");
    assert_eq!(buffer.split_off(FILE), [BEFORE; 9]);
    let mut exact = vec![0; FILE];
    export_readings(state, store, &mut exact).unwrap();
    assert!(exact == buffer);
    buffer.split_off(15)
}

/// The readings that a source and the registers taken give, pixel by pixel.
fn slow_readings(source: Source, taken: &[u8; 54]) -> Vec<u8> {
    (0..14_336)
        .map(|i| {
            value(source, taken, i % 128, 8 + i / 128)
                .try_into()
                .unwrap()
        })
        .collect()
}

/// A capture begun by a start with these registers, and the store it leaves.
fn begun(taken: &[u8; 54], image: &[u8]) -> (State, Vec<u8>) {
    let mut state = State {
        registers: *taken,
        ram_select: 16,
        ..State::RESET
    };
    state.registers[0] = 0;
    let mut store = vec![BEFORE; 16_384];
    write(
        &mut state,
        &mut [0; 8_192],
        &mut store,
        image,
        0xA000,
        taken[0],
    )
    .unwrap();
    assert_eq!(state.taken, *taken);
    (state, store)
}

#[test]
fn every_mode() {
    let mut random = Random::new(24);
    for case in 0..64 {
        let taken = registers(&mut random, case % 16);
        let bytes = random.bytes(16_384);
        let values = readings(&started(&taken), &bytes);
        assert!(values == slow_readings(Source::Store(&bytes), &taken));
        let (state, store) = begun(&taken, &bytes);
        let values = readings(&state, &store);
        assert!(values == slow_readings(Source::Image(&bytes), &taken));
    }
}

#[test]
fn the_matrix_makes_the_picture_of_them() {
    let mut random = Random::new(25);
    for mode in 0..16 {
        let taken = registers(&mut random, mode);
        let store = random.bytes(16_384);
        let mut state = started(&taken);
        let values = readings(&state, &store);
        let (mut ram, mut drawn) = (vec![0; 8_192], vec![0; 14_336]);
        tick(&mut state, &mut ram, &store, u32::MAX).unwrap();
        shades(&ram, &mut drawn).unwrap();
        let dots = (0..14_336).map(|i| shade(&taken, i % 128, i / 128, values[i].into()));
        assert!(dots.eq(drawn));
    }
}

#[test]
fn level_light() {
    // At exposure 0100h a light of 255 becomes 207, and inverted 48.
    let mut taken = [0; 54];
    (taken[0], taken[2]) = (3, 1);
    let (state, store) = begun(&taken, &[255; 16_384]);
    assert!(store == [207; 16_384] && readings(&state, &store) == [207; 14_336]);
    taken[4] = 8;
    let (state, store) = begun(&taken, &[255; 16_384]);
    assert!(store == [48; 16_384] && readings(&state, &store) == [48; 14_336]);
    // A store lent is read as it is.
    assert!(readings(&state, &[99; 16_384]) == [99; 14_336]);
}

#[test]
fn neither_cycles_nor_new_registers_count() {
    let mut random = Random::new(26);
    let taken = registers(&mut random, 0xE);
    let store = random.bytes(16_384);
    let mut state = started(&taken);
    let values = readings(&state, &store);
    state.elapsed = Timing::of(&taken).total() - 1;
    assert!(readings(&state, &store) == values);
    state.registers = random.bytes(54).try_into().unwrap();
    state.registers[0] = 2;
    assert!(readings(&state, &store) == values, "stopped too");
}

#[test]
fn only_rows_7_to_120_count() {
    let mut random = Random::new(4);
    for setting in 0..64_u8 {
        let mut taken = registers(&mut random, setting % 16);
        taken[0] = 2 * (setting / 16) + 1;
        let mut frame = random.bytes(16_384);
        let plate = picture(&frame, &taken).unwrap();
        let before = readings(&started(&taken), &frame);
        frame[..7 * 128].copy_from_slice(&random.bytes(7 * 128));
        frame[121 * 128..].copy_from_slice(&random.bytes(7 * 128));
        assert_eq!(picture(&frame, &taken).unwrap(), plate);
        assert!(readings(&started(&taken), &frame) == before);
    }
}

#[test]
fn rows_7_and_120_do_count() {
    // Mode D at 500 per cent looks above and below, mode 0 with the difference below only.
    for (registers, rows) in [([0xC0, 0xF0], [7, 120]), ([0, 0], [119, 120])] {
        let mut taken = [0; 54];
        (taken[0], taken[2]) = (5, 1);
        (taken[1], taken[4]) = (registers[0], registers[1]);
        let level = readings(&started(&taken), &[128; 16_384]);
        for row in rows {
            let mut frame = [128; 16_384];
            frame[row * 128 + 50] = 200;
            assert!(readings(&started(&taken), &frame) != level, "row {row}");
        }
    }
}

#[test]
fn refused_in_order() {
    let mut random = Random::new(27);
    let held = started(&registers(&mut random, 0));
    let free = State::RESET;
    let broken = |state: State| State {
        rom_bank: 64,
        ..state
    };
    for (state, store, room, refusal) in [
        (broken(held), 16_384, FILE, Refusal::State),
        (broken(free), 0, 0, Refusal::State),
        (held, 16_383, FILE, Refusal::Frame),
        (free, 16_385, 0, Refusal::Frame),
        (held, 16_384, FILE - 1, Refusal::Buffer),
        (free, 16_384, 0, Refusal::Buffer),
        (free, 16_384, FILE, Refusal::NotHeld),
        (free, 16_384, FILE + 1, Refusal::NotHeld),
    ] {
        let mut buffer = vec![BEFORE; room];
        let answer = export_readings(&state, &vec![0; store], &mut buffer);
        assert_eq!(answer, Err(refusal));
        assert!(buffer == vec![BEFORE; room]);
    }
}
