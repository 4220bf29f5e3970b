//! Refusals, the bus rules and matrix inspection.

use super::random::Random;
use super::slow::{lit_store, started};
use crate::{inspect, picture, read, tick, write, Element, Refusal, State};

const ROM: [u8; 16_384] = [0xFF; 16_384];
const FRAME: [u8; 16_384] = [0; 16_384];

/// Writes with one bank of RAM that is not looked at.
fn poke(state: &mut State, address: u16, value: u8) {
    let (mut ram, mut store) = ([0; 8_192], FRAME);
    write(state, &mut ram, &mut store, &FRAME, address, value).unwrap();
}

fn busy() -> State {
    let mut registers = [0; 54];
    (registers[0], registers[3]) = (7, 0x40);
    started(&registers)
}

#[test]
fn states_that_cannot_exist() {
    let free = State::RESET;
    let held = busy();
    let mut stopped = held;
    stopped.registers[0] = 6;
    let total = 32_958 + 16 * 0x40;
    let registers = |base: State, at: usize, value| {
        let mut state = base;
        state.registers[at] = value;
        state
    };
    let taken = |base: State, at: usize, value| {
        let mut state = base;
        state.taken[at] = value;
        state
    };
    for good in [
        free,
        held,
        stopped,
        State {
            rom_bank: 63,
            ram_select: 31,
            ram_enabled: true,
            ..free
        },
        State {
            rom_bank: 0,
            ..free
        },
        State {
            elapsed: total - 1,
            ..held
        },
        registers(free, 0, 6),
        registers(free, 53, 255),
        taken(held, 53, 255),
    ] {
        assert!(good.can_exist(), "{good:?}");
        assert_eq!(read(&good, &ROM, &[7; 8_192], 0), Ok(0xFF));
    }
    for bad in [
        State {
            rom_bank: 64,
            ..free
        },
        State {
            ram_select: 32,
            ..free
        },
        registers(free, 0, 8),
        registers(free, 0, 1),
        State { elapsed: 1, ..free },
        taken(free, 0, 1),
        taken(free, 53, 1),
        taken(held, 0, 6),
        taken(held, 0, 9),
        State {
            elapsed: total,
            ..held
        },
        taken(
            State {
                elapsed: total - 1,
                ..held
            },
            1,
            0x80,
        ),
    ] {
        let mut state = bad;
        let (mut ram, mut store) = ([7; 8_192], FRAME);
        assert!(!bad.can_exist(), "{bad:?}");
        assert_eq!(read(&bad, &[], &[], 0x8000), Err(Refusal::State));
        assert_eq!(inspect(&bad), Err(Refusal::State));
        assert_eq!(tick(&mut state, &mut ram, &store, 5), Err(Refusal::State));
        let written = write(&mut state, &mut ram, &mut store, &[1; 16_384], 0x2000, 5);
        assert_eq!(written, Err(Refusal::State));
        assert_eq!((state, ram, store), (bad, [7; 8_192], FRAME));
    }
}

#[test]
fn lengths() {
    let state = State::RESET;
    for banks in 0..130 {
        let rom = vec![9; banks * 16_384];
        let fits = [1, 2, 4, 8, 16, 32, 64].contains(&banks);
        let answer = if fits { Ok(9) } else { Err(Refusal::Rom) };
        assert_eq!(read(&state, &rom, &[0; 8_192], 0x7FFF), answer, "{banks}");
    }
    for banks in 0..34 {
        let ram = vec![9; banks * 8_192];
        let fits = [1, 2, 4, 8, 16].contains(&banks);
        let answer = if fits { Ok(9) } else { Err(Refusal::Ram) };
        assert_eq!(read(&state, &ROM, &ram, 0xBFFF), answer, "{banks}");
    }
    assert_eq!(read(&state, &ROM[1..], &[], 0x8000), Err(Refusal::Rom));
    assert_eq!(
        read(&state, &[0; 16_385], &[0; 8_191], 0),
        Err(Refusal::Rom)
    );
    assert_eq!(read(&state, &ROM, &[0; 8_191], 0x8000), Err(Refusal::Ram));
    assert_eq!(read(&state, &ROM, &[0; 8_193], 0), Err(Refusal::Ram));
    assert_eq!(picture(&FRAME[1..], &[0; 54]), Err(Refusal::Frame));
    let (mut state, mut ram, mut store) = (state, [0; 8_192], FRAME);
    let before = state;
    let refused = write(&mut state, &mut ram, &mut store, &[0; 16_385], 0x8000, 1);
    assert_eq!(refused, Err(Refusal::Frame));
    let refused = write(&mut state, &mut ram, &mut store[1..], &FRAME, 0x2000, 1);
    assert_eq!(refused, Err(Refusal::Frame));
    let refused = write(
        &mut state,
        &mut ram[1..],
        &mut store[1..],
        &FRAME,
        0x2000,
        5,
    );
    assert_eq!(refused, Err(Refusal::Ram));
    assert_eq!(
        tick(&mut state, &mut ram, &store[1..], 1),
        Err(Refusal::Frame)
    );
    assert_eq!(
        tick(&mut state, &mut ram[1..], &store[1..], 1),
        Err(Refusal::Ram)
    );
    assert_eq!(state, before);
}

#[test]
fn addresses() {
    let mut state = State::RESET;
    for address in 0..=0xFFFF {
        let on = matches!(address, 0..=0x7FFF | 0xA000..=0xBFFF);
        let read = read(&state, &ROM, &[0xFF; 8_192], address);
        assert_eq!(read, if on { Ok(0xFF) } else { Err(Refusal::Address) });
        let (mut ram, mut store) = ([0; 8_192], FRAME);
        let written = write(&mut state, &mut ram, &mut store, &FRAME, address, 0x20);
        assert_eq!(written.is_ok(), on);
    }
    assert_eq!(
        state,
        State {
            rom_bank: 0x20,
            ..State::RESET
        }
    );
}

#[test]
fn control_writes() {
    let mut state = State::RESET;
    poke(&mut state, 0x1FFF, 0x0A);
    assert!(state.ram_enabled);
    (1..=255).for_each(|value| poke(&mut state, 0x0000, value));
    assert!(state.ram_enabled);
    poke(&mut state, 0x0000, 0);
    assert!(!state.ram_enabled);
    for value in 0..=255 {
        poke(&mut state, 0x2000, value);
        poke(&mut state, 0x5FFF, value);
        poke(&mut state, 0x6000, !value);
        assert_eq!((state.rom_bank, state.ram_select), (value & 63, value & 31));
    }
}

#[test]
fn banks() {
    let mut random = Random::new(6);
    let rom = random.bytes(64 * 16_384);
    let ram = random.bytes(16 * 8_192);
    let mut state = State::RESET;
    for bank in 0..64 {
        poke(&mut state, 0x3000, bank as u8);
        poke(&mut state, 0x4000, bank as u8);
        for small in [1, 2, 4, 8, 16, 32, 64] {
            let (rom, place) = (&rom[..small * 16_384], bank % small * 16_384 + 0x1234);
            assert_eq!(read(&state, rom, &ram, 0x1234), Ok(rom[0x1234]));
            assert_eq!(read(&state, rom, &ram, 0x5234), Ok(rom[place]));
        }
        for small in [1, 2, 4, 8, 16] {
            let (ram, place) = (&ram[..small * 8_192], bank % 16 % small * 8_192 + 0x123);
            let byte = if bank & 16 == 0 { ram[place] } else { 0 };
            assert_eq!(read(&state, &rom, ram, 0xA123), Ok(byte));
        }
    }
}

#[test]
fn ram_writes() {
    let mut ram = vec![0; 2 * 8_192];
    let mut store = FRAME;
    for (enabled, trigger, lands) in [(true, 6, true), (false, 6, false), (true, 7, false)] {
        let mut state = busy();
        (state.ram_enabled, state.registers[0], state.ram_select) = (enabled, trigger, 7);
        let before = state;
        ram.fill(0);
        write(&mut state, &mut ram, &mut store, &FRAME, 0xBFFF, 0x77).unwrap();
        assert_eq!(ram[16_383] == 0x77, lands);
        assert!(ram[..16_383].iter().all(|&byte| byte == 0));
        assert_eq!(state, before);
        assert_eq!(
            read(&state, &ROM, &ram, 0xBFFF),
            Ok(if lands { 0x77 } else { 0 })
        );
    }
}

#[test]
fn registers() {
    let mut state = State {
        ram_select: 0x1F,
        ..State::RESET
    };
    for address in 0xA000..=0xBFFF {
        let before = state;
        let value = (address >> 3) as u8 & 0xFE;
        poke(&mut state, address, value);
        let register = usize::from(address % 128);
        let mut wanted = before;
        match register {
            0 => wanted.registers[0] = value & 7,
            1..=53 => wanted.registers[register] = value,
            _ => {}
        }
        assert_eq!(state, wanted);
        let byte = if register == 0 { value & 7 } else { 0 };
        assert_eq!(read(&state, &ROM, &[0xFF; 8_192], address), Ok(byte));
    }
}

#[test]
fn a_start_takes_the_new_trigger() {
    let mut state = State {
        ram_select: 16,
        ..State::RESET
    };
    state.registers = [0x55; 54];
    (state.registers[0], state.registers[2], state.registers[3]) = (2, 1, 0x50);
    let (mut ram, mut store) = ([0; 8_192], FRAME);
    write(&mut state, &mut ram, &mut store, &[8; 16_384], 0xA080, 0xFD).unwrap();
    let mut taken = [0x55; 54];
    (taken[0], taken[2], taken[3]) = (5, 1, 0x50);
    assert_eq!(
        (state.registers, state.taken, state.held),
        (taken, taken, true)
    );
    // Light 8 becomes 53, and at exposure 0150h 69.
    assert_eq!(store, [69; 16_384]);
    write(&mut state, &mut ram, &mut store, &[9; 16_384], 0xA000, 0x03).unwrap();
    assert_eq!((state.registers[0], state.taken[0]), (3, 5));
    assert_eq!(store, [69; 16_384]);
}

#[test]
fn a_start_lights_every_pixel_with_the_registers_just_taken() {
    let mut random = Random::new(28);
    let every_light: Vec<u8> = (0..16_384).map(|place| place as u8).collect();
    for round in 0..400 {
        let mut taken: [u8; 54] = random.bytes(54).try_into().unwrap();
        taken[0] = taken[0] & 6 | 1;
        taken[2] >>= round % 8;
        // Around the exposure from which on every light becomes 255, and the largest.
        if let Some(exposure) = [1_359_u16, 1_360, 1_361, 0xFFFF, 0].get(round / 2) {
            taken[2..4].copy_from_slice(&exposure.to_be_bytes());
        }
        let mut state = State {
            registers: taken,
            ram_select: 16,
            ..State::RESET
        };
        state.registers[0] = 0;
        let (mut ram, mut store) = ([0; 8_192], FRAME);
        write(
            &mut state,
            &mut ram,
            &mut store,
            &every_light,
            0xA000,
            taken[0],
        )
        .unwrap();
        assert!(store[..] == lit_store(&every_light, &taken));
    }
}

#[test]
fn idle_ticks() {
    let mut state = State::RESET;
    let mut ram = [0x33; 8_192];
    assert_eq!(tick(&mut state, &mut ram, &FRAME, u32::MAX), Ok(0));
    assert_eq!((state, ram), (State::RESET, [0x33; 8_192]));
    let mut state = busy();
    assert_eq!(tick(&mut state, &mut ram, &FRAME, 0), Ok(0));
    assert_eq!((state, ram), (busy(), [0x33; 8_192]));
}

#[test]
fn inspection() {
    let mut state = busy();
    state.taken[6] = 9;
    assert_eq!(inspect(&state), Ok(None));
    state.registers[6..].fill(0x40);
    assert_eq!(inspect(&state), Ok(None));
    for place in (0..16).rev() {
        let element = Element {
            row: place as u8 / 4,
            column: place as u8 % 4,
        };
        for values in [[1, 0, 2], [0, 2, 1], [2, 1, 0], [255, 254, 255]] {
            state.registers[6 + 3 * place..][..3].copy_from_slice(&values);
            assert_eq!(inspect(&state), Ok(Some(element)));
        }
    }
}

#[test]
fn records() {
    let mut state = busy();
    (state.elapsed, state.rom_bank, state.ram_select) = (0x0102_0304, 5, 6);
    (state.started, state.ended) = (0x0807, 0x0A09);
    let bytes = state.to_bytes();
    let start = [3, 0, 5, 6, 1, 4, 3, 2, 1, 7, 8, 9, 10];
    assert_eq!(
        bytes[..],
        [&start[..], &state.registers, &state.taken].concat()
    );
    assert_eq!(State::from_bytes(&bytes), Some(state));
    let first_layout = [&bytes[1..9], &bytes[13..]].concat();
    for other in [&bytes[1..], &bytes[..120], &first_layout, &[]] {
        assert_eq!(State::from_bytes(other), None);
    }
    for (place, byte) in [
        (0, 0),
        (0, 1),
        (0, 2),
        (0, 4),
        (0, 255),
        (1, 2),
        (4, 2),
        (4, 255),
    ] {
        let mut bytes = bytes;
        bytes[place] = byte;
        assert_eq!(State::from_bytes(&bytes), None);
    }
    // A capture half way, as the version saved it whose stores were raw.
    let second_layout = include_bytes!("../../../tests/data/layout-2.state");
    assert_eq!((second_layout[0], second_layout[4]), (2, 1));
    assert_eq!(State::from_bytes(second_layout), None);
}
