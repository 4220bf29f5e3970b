//! The contrast levels against the printed ones, and what choosing one changes.

use super::random::Random;
use super::slow::{registers, started};
use crate::{choose, inspect, Refusal, State, CONTRAST_LEVELS};

/// The section as it is printed; the file names its source.
const SECTION: &str = include_str!("../../data/001-2.2.6.txt");

/// The twelve numbers of a printed matrix row; none for any other line.
fn numbers(line: &str) -> Option<Vec<u8>> {
    let row: Option<Vec<u8>> = line
        .split_whitespace()
        .map(|word| {
            let two_digits = word.len() == 2 && !word.starts_with('+');
            two_digits.then(|| u8::from_str_radix(word, 16).ok())?
        })
        .collect();
    row.filter(|row| row.len() == 12)
}

/// The printed matrices in their order.
fn printed() -> Vec<Vec<u8>> {
    let rows: Vec<Vec<u8>> = SECTION.lines().filter_map(numbers).collect();
    rows.chunks(4).map(|rows| rows.concat()).collect()
}

/// How many matrices are printed before a heading.
fn before(heading: &str) -> usize {
    let lines = SECTION.lines();
    let rows = lines
        .take_while(|line| *line != heading)
        .filter_map(numbers);
    rows.count() / 4
}

#[test]
fn the_table_is_the_printed_one() {
    assert_eq!(printed().len(), 32);
    assert_eq!(CONTRAST_LEVELS.len(), 1_536);
    assert_eq!(CONTRAST_LEVELS[..], printed().concat());
}

#[test]
fn the_headings_name_the_levels() {
    // Two matrices a level: level 0, 7 and 15, and the high light set first.
    assert_eq!(before("Lowest contrast"), 0);
    assert_eq!(before("Default contrast"), 14);
    assert_eq!(before("Highest contrast"), 30);
    let high = SECTION.find("Matrix set 1 (high light)").unwrap();
    let low = SECTION.find("Matrix set 2 (low light)").unwrap();
    assert!(high < low);
    // The section's own example has values of set 1.
    for (name, level) in [("Min:", 0), ("Def:", 7), ("Max:", 15)] {
        let line = SECTION.lines().find(|line| line.starts_with(name)).unwrap();
        let values = line.split_whitespace().skip(1).take(3);
        let values: Vec<u8> = values.map(|v| u8::from_str_radix(v, 16).unwrap()).collect();
        assert_eq!(CONTRAST_LEVELS[96 * level..][..3], values);
    }
}

#[test]
fn every_three_values_rise_or_stay_level() {
    let rise = |element: &[u8]| element[0] <= element[1] && element[1] <= element[2];
    assert!(CONTRAST_LEVELS.chunks_exact(3).all(rise));
}

/// States of every kind: free, running and stopped.
fn states(random: &mut Random) -> Vec<State> {
    let mode = random.below(16) as u8;
    let taken = registers(random, mode);
    let mut running = State {
        elapsed: 77,
        ram_enabled: true,
        rom_bank: 9,
        ram_select: 17,
        ..started(&taken)
    };
    running.registers = random.bytes(54).try_into().unwrap();
    running.registers[0] = 7;
    let mut stopped = running;
    stopped.registers[0] = 4;
    let mut free = State::RESET;
    free.registers = stopped.registers;
    vec![State::RESET, free, running, stopped]
}

#[test]
fn every_choice() {
    let (mut random, printed) = (Random::new(15), printed());
    for light in 0..2 {
        for level in 0..16 {
            let matrix = &printed[2 * level + light];
            for off in [false, true] {
                for exposure in [None, Some(0), Some(0x1234), Some(0xFFFF), Some(0x1000)] {
                    for before in states(&mut random) {
                        let mut state = before;
                        let (light, level) = (light as u8, level as u8);
                        assert_eq!(choose(&mut state, light, level, off, exposure), Ok(()));
                        let mut wanted = before;
                        let named = exposure.unwrap_or(0x1000);
                        wanted.registers[2] = (named / 256) as u8;
                        wanted.registers[3] = (named % 256) as u8;
                        for place in 0..48 {
                            let from = if off { place % 3 } else { place };
                            wanted.registers[6 + place] = matrix[from];
                        }
                        assert_eq!(state, wanted);
                        assert_eq!(inspect(&state), Ok(None));
                    }
                }
            }
        }
    }
}

#[test]
fn default_contrast_in_low_light() {
    let mut state = State::RESET;
    choose(&mut state, 1, 7, false, None).unwrap();
    assert_eq!(state.registers[..9], [0, 0, 16, 0, 0, 0, 0x8C, 0x98, 0xAC]);
    assert_eq!(state.registers[51..], [0x8F, 0x9E, 0xBF]);
    choose(&mut state, 1, 7, true, None).unwrap();
    assert_eq!(state.registers[51..], [0x8C, 0x98, 0xAC]);
}

#[test]
fn an_example_for_bright_tables_names_its_exposure() {
    // What leaving it unnamed gave while that meant 0300h.
    let mut before = State::RESET;
    (before.registers[2], before.registers[3]) = (3, 0);
    before.registers[6..].copy_from_slice(&printed()[14]);
    let mut state = State::RESET;
    choose(&mut state, 0, 7, false, Some(0x0300)).unwrap();
    assert_eq!(state, before);
}

#[test]
fn refused_choices() {
    let mut random = Random::new(16);
    for before in states(&mut random) {
        for light in 0..=255 {
            for level in 0..=255 {
                let mut state = before;
                let chosen = choose(&mut state, light, level, false, Some(1));
                if light > 1 || level > 15 {
                    assert_eq!((chosen, state), (Err(Refusal::Choice), before));
                } else {
                    assert_eq!(chosen, Ok(()));
                }
                let broken = State {
                    rom_bank: 64,
                    ..before
                };
                let mut state = broken;
                let chosen = choose(&mut state, light, level, true, None);
                assert_eq!((chosen, state), (Err(Refusal::State), broken));
            }
        }
    }
}
