//! Plates judged row by row, beside the places that the rule names.

use super::random::Random;
use super::slow;
use crate::{judge, picture, Plate, Refusal, FRAME_BYTES, PLATE_BYTES};

/// What the buffer holds before.
const BEFORE: u8 = 0xA5;

/// The answer and the rows, with bytes beyond that stay.
fn judged(plate: &Plate, frame: &[u8], registers: &[u8; 54]) -> (usize, [u8; 112]) {
    let mut rows = [BEFORE; 115];
    let same = judge(plate, frame, registers, &mut rows).expect("it is not refused");
    assert_eq!(rows[112..], [BEFORE; 3]);
    let rows: [u8; 112] = rows[..112].try_into().expect("112 of them");
    assert!(rows.iter().all(|&row| row <= 1));
    assert_eq!(
        rows.iter().map(|&row| usize::from(row)).sum::<usize>(),
        same
    );
    (same, rows)
}

#[test]
fn by_hand() {
    // Registers of 0 make every value white; so does any frame.
    let (frame, registers) = ([0x77; FRAME_BYTES], [0; 54]);
    assert_eq!(
        judged(&[0; PLATE_BYTES], &frame, &registers),
        (112, [1; 112])
    );
    assert_eq!(
        judged(&[0xFF; PLATE_BYTES], &frame, &registers),
        (0, [0; 112])
    );
    // The first and last bytes of rows 0, 1, 8 and 111.
    for (place, y) in [
        (0, 0),
        (1, 0),
        (0xF0, 0),
        (0xF1, 0),
        (2, 1),
        (0xF3, 1),
        (0xE, 7),
        (0xFF, 7),
        (0x100, 8),
        (0x1F1, 8),
        (0xD0E, 111),
        (0xDFF, 111),
    ] {
        for bit in 0..8 {
            let mut plate = [0; PLATE_BYTES];
            plate[place] = 1 << bit;
            let mut wanted = [1; 112];
            wanted[y] = 0;
            assert_eq!(
                judged(&plate, &frame, &registers),
                (111, wanted),
                "{place:X}"
            );
        }
    }
}

#[test]
fn each_byte_belongs_to_one_row() {
    let mut random = Random::new(37);
    let registers = slow::registers(&mut random, 0xE);
    let frame = random.bytes(FRAME_BYTES);
    let afresh = picture(&frame, &registers).unwrap();
    let mut owner = [usize::MAX; PLATE_BYTES];
    for y in 0..112 {
        for t in 0..16 {
            let place = 256 * (y / 8) + 2 * (y % 8) + 16 * t;
            owner[place] = y;
            owner[place + 1] = y;
        }
    }
    for (place, y) in owner.into_iter().enumerate().step_by(7) {
        let mut plate = afresh;
        plate[place] ^= 1 << random.below(8);
        let mut wanted = [1; 112];
        wanted[y] = 0;
        assert_eq!(judged(&plate, &frame, &registers), (111, wanted));
    }
}

#[test]
fn some_rows_of_one_and_some_of_another() {
    let mut random = Random::new(41);
    for mode in 0..16 {
        let registers = slow::registers(&mut random, mode);
        let frames = [0, 1].map(|_| random.bytes(FRAME_BYTES));
        let plates = [0, 1].map(|which: usize| picture(&frames[which], &registers).unwrap());
        let border = random.below(113) as usize;
        let mut mixed = plates[1];
        let mut wanted = [0; 112];
        let row = |y: usize| {
            (0..16).flat_map(move |t| [0, 1].map(|b| 256 * (y / 8) + 2 * (y % 8) + 16 * t + b))
        };
        for y in 0..border {
            row(y).for_each(|place| mixed[place] = plates[0][place]);
        }
        for (y, wanted) in wanted.iter_mut().enumerate() {
            *wanted = row(y).all(|place| mixed[place] == plates[0][place]).into();
        }
        assert!(wanted[..border].iter().all(|&row| row == 1));
        assert_eq!(judged(&mixed, &frames[0], &registers).1, wanted);
    }
}

#[test]
fn refusals() {
    let plate = [0; PLATE_BYTES];
    for length in [0, 1, FRAME_BYTES - 1, FRAME_BYTES, FRAME_BYTES + 1] {
        let frame = vec![0; length];
        for room in [0, 1, 111, 112, 113] {
            let mut rows = vec![BEFORE; room];
            let answer = judge(&plate, &frame, &[0; 54], &mut rows);
            let wanted = match (length == FRAME_BYTES, room >= 112) {
                (false, _) => Err(Refusal::Frame),
                (true, false) => Err(Refusal::Buffer),
                (true, true) => Ok(112),
            };
            assert_eq!(answer, wanted);
            if answer.is_err() {
                assert_eq!(rows, vec![BEFORE; room]);
            }
        }
    }
}

/// What mGBA made of two specimens, and of each alone; tests/incident says how.
#[test]
fn a_plate_of_two_specimens() {
    let light = |file: &'static [u8]| &file[file.len() - FRAME_BYTES..];
    let area = |save: &[u8]| Plate::try_from(&save[0x100..0xF00]).expect("3,584 of them");
    let stag = light(include_bytes!("../../../tests/data/incident/stag.pgm"));
    let ladybird = light(include_bytes!("../../../tests/data/incident/ladybird.pgm"));
    // Exposure 0100h, a positive image, and thresholds of 88, 128 and 168.
    let registers = std::array::from_fn(|number| match number {
        0 => 3,
        2 => 1,
        1..=5 => 0,
        _ => [88, 128, 168][number % 3],
    });
    for (save, upper, lower) in [
        (
            include_bytes!("../../../tests/data/incident/stag.sav"),
            [1, 0],
            [1, 0],
        ),
        (
            include_bytes!("../../../tests/data/incident/ladybird.sav"),
            [0, 1],
            [0, 1],
        ),
        (
            include_bytes!("../../../tests/data/incident/mixed.sav"),
            [1, 0],
            [0, 1],
        ),
    ] {
        for (number, frame) in [stag, ladybird].into_iter().enumerate() {
            let halves = [upper[number], lower[number]];
            let wanted = std::array::from_fn(|y| halves[y / 56]);
            assert_eq!(judged(&area(save), frame, &registers).1, wanted);
        }
    }
}
