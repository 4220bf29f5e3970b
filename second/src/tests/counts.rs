//! The counts of captures, beside the history of calls.

use super::random::Random;
use super::slow::started;
use crate::{inspect, read, tick, write, Refusal, State};

const FRAME: [u8; 16_384] = [0; 16_384];

fn counts(state: &State) -> (u16, u16) {
    (state.started, state.ended)
}

/// A controller whose window shows the registers.
fn open(started: u16, ended: u16) -> State {
    State {
        ram_select: 16,
        started,
        ended,
        ..State::RESET
    }
}

fn trigger(state: &mut State, value: u8) {
    let (mut ram, mut store) = ([0; 8_192], FRAME);
    write(state, &mut ram, &mut store, &FRAME, 0xA000, value).unwrap();
}

fn pass(state: &mut State, cycles: u32) {
    tick(state, &mut [0; 8_192], &FRAME, cycles).unwrap();
}

#[test]
fn starts_and_ends_count_and_resumes_do_not() {
    let mut state = open(0, 0);
    trigger(&mut state, 6);
    assert_eq!(counts(&state), (0, 0));
    trigger(&mut state, 3);
    assert_eq!(counts(&state), (1, 0));
    trigger(&mut state, 3);
    trigger(&mut state, 2);
    trigger(&mut state, 5);
    assert_eq!(counts(&state), (1, 0));
    pass(&mut state, 32_957);
    assert_eq!(counts(&state), (1, 0));
    pass(&mut state, 1);
    assert_eq!(counts(&state), (1, 1));
    pass(&mut state, u32::MAX);
    assert_eq!(counts(&state), (1, 1));
    trigger(&mut state, 1);
    assert_eq!(counts(&state), (2, 1));
    assert_eq!(counts(&State::RESET), (0, 0));
}

#[test]
fn each_wraps_on_its_own() {
    for (before, after) in [((65_535, 7), (0, 8)), ((7, 65_535), (8, 0))] {
        let mut state = open(before.0, before.1);
        trigger(&mut state, 1);
        assert_eq!(counts(&state), (after.0, before.1));
        pass(&mut state, u32::MAX);
        assert_eq!(counts(&state), after);
    }
    let mut state = open(65_535, 65_535);
    trigger(&mut state, 1);
    pass(&mut state, u32::MAX);
    assert_eq!(counts(&state), (0, 0));
}

#[test]
fn any_pair_can_exist() {
    let mut registers = [0; 54];
    registers[0] = 3;
    for counts in [(0, 0), (0, 65_535), (65_535, 0), (1, 2), (65_535, 65_535)] {
        for base in [State::RESET, started(&registers)] {
            let state = State {
                started: counts.0,
                ended: counts.1,
                ..base
            };
            assert!(state.can_exist());
            assert_eq!(inspect(&state), Ok(None));
            let broken = State {
                ram_select: 32,
                ..state
            };
            assert_eq!(inspect(&broken), Err(Refusal::State));
        }
    }
}

#[test]
fn a_refused_call_counts_nothing() {
    let before = open(3, 2);
    let (mut state, mut ram, mut store) = (before, [0; 8_192], FRAME);
    let refused = write(&mut state, &mut ram, &mut store, &FRAME[1..], 0xA000, 1);
    assert_eq!((refused, state), (Err(Refusal::Frame), before));
    trigger(&mut state, 1);
    let before = state;
    let refused = tick(&mut state, &mut ram[1..], &store, u32::MAX);
    assert_eq!((refused, state), (Err(Refusal::Ram), before));
}

#[test]
fn the_history_tells_both_counts() {
    let mut random = Random::new(17);
    let (rom, mut ram, mut store) = ([0xFF; 16_384], [0; 8_192], FRAME);
    let mut state = State::RESET;
    // What the history has shown, counted without end since the last reset.
    let (mut starts, mut ends) = (0_u32, 0_u32);
    let (mut most, mut stops) = (0, 0);
    for _ in 0..20_000 {
        let before = state;
        match random.below(40) {
            0 if random.below(40) == 0 => {
                most = most.max(ends);
                (state, starts, ends) = (State::RESET, 0, 0);
            }
            0..=19 => {
                let cycles = match random.below(3) {
                    0 => 40_000,
                    _ => random.below(9_000) as u32,
                };
                tick(&mut state, &mut ram, &store, cycles).unwrap();
                ends += u32::from(before.held && !state.held);
            }
            20..=23 => {
                read(&state, &rom, &ram, 0xA000).unwrap();
            }
            pick => {
                let (address, value) = match pick {
                    24..=31 => (0xA000, random.byte()),
                    32..=35 => (0x4000, random.byte() | 16),
                    36 => (0x4000, 3),
                    _ => (0xA004 + random.below(50) as u16, random.byte()),
                };
                write(&mut state, &mut ram, &mut store, &FRAME, address, value).unwrap();
                starts += u32::from(!before.held && state.held);
                stops += u32::from(before.running() && !state.running());
            }
        }
        assert_eq!(counts(&state), (starts as u16, ends as u16));
        assert!(starts - ends == u32::from(state.held));
    }
    assert!(most > 100 && stops > 100, "{most} ends, {stops} stops");
}
