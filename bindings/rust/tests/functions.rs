//! The typed functions against the archive: a short session, and each refusal.

use gulxinett::{
    inspect, picture, read, reset, tick, write, Element, Refusal, State, FRAME_BYTES,
    PICTURE_BYTES, PICTURE_OFFSET, RAM_BANK, REGISTERS, ROM_BANK,
};

const ROM: [u8; ROM_BANK] = [0xFF; ROM_BANK];
const IMAGE: [u8; FRAME_BYTES] = [0; FRAME_BYTES];

#[test]
fn reset_state() {
    let state = State {
        ram_enabled: false,
        rom_bank: 1,
        ram_select: 0,
        held: false,
        elapsed: 0,
        registers: [0; REGISTERS],
        taken: [0; REGISTERS],
        started: 0,
        ended: 0,
    };
    assert_eq!(reset(), state);
    assert_eq!(State::decode(&state.encode()), Some(state));
}

#[test]
fn records_have_fields_apart() {
    let mut bytes = [0; 121];
    for (place, byte) in bytes.iter_mut().enumerate() {
        *byte = place as u8;
    }
    (bytes[0], bytes[1], bytes[4]) = (3, 1, 1);
    let state = State::decode(&bytes).expect("the flags are 0 or 1");
    assert_eq!(
        (state.rom_bank, state.ram_select, state.elapsed),
        (2, 3, 0x0807_0605)
    );
    assert_eq!((state.started, state.ended), (0x0A09, 0x0C0B));
    assert_eq!((state.registers[0], state.taken[53]), (13, 120));
    assert_eq!(state.encode(), bytes);
    bytes[4] = 2;
    assert_eq!(State::decode(&bytes), None);
    bytes[4] = 1;
    for layout in [0, 1, 2, 4, 255] {
        bytes[0] = layout;
        assert_eq!(State::decode(&bytes), None);
    }
}

#[test]
fn a_capture_stopped_and_resumed() {
    let (mut state, mut ram) = (reset(), [0xFF; RAM_BANK]);
    let mut store = [0x5A; FRAME_BYTES];
    let poke = |state: &mut State, ram: &mut [u8], store: &mut [u8], address, value| {
        write(state, ram, store, &IMAGE, address, value)
    };
    poke(&mut state, &mut ram, &mut store, 0x4000, 0x10).unwrap();
    poke(&mut state, &mut ram, &mut store, 0xA000, 3).unwrap();
    // at exposure 0 every light becomes 0
    assert_eq!(store, [0; FRAME_BYTES]);
    assert_eq!(read(&state, &ROM, &ram, 0xA000), Ok(3));
    assert_eq!(tick(&mut state, &mut ram, &store, 0x8BA), Ok(0x8BA));
    poke(&mut state, &mut ram, &mut store, 0xA000, 2).unwrap();
    poke(&mut state, &mut ram, &mut store, 0x4000, 0).unwrap();
    assert_eq!(read(&state, &ROM, &ram, 0xA100), Ok(0x7F));
    poke(&mut state, &mut ram, &mut store, 0x4000, 0x10).unwrap();
    poke(&mut state, &mut ram, &mut store, 0xA000, 3).unwrap();
    let mut taken = [0; REGISTERS];
    taken[0] = 3;
    assert_eq!(
        (state.held, state.taken, state.elapsed),
        (true, taken, 0x8BA)
    );
    assert_eq!(tick(&mut state, &mut ram, &store, u32::MAX), Ok(0x7804));
    let plate = picture(&IMAGE, &taken).unwrap();
    assert_eq!(plate, ram[PICTURE_OFFSET..PICTURE_OFFSET + PICTURE_BYTES]);
}

#[test]
fn inspection() {
    let mut state = reset();
    assert_eq!(inspect(&state), Ok(None));
    state.registers[6 + 3 * 7] = 1;
    assert_eq!(inspect(&state), Ok(Some(Element { row: 1, column: 3 })));
    state.registers[6] = 1;
    assert_eq!(inspect(&state), Ok(Some(Element { row: 0, column: 0 })));
}

#[test]
fn refusals() {
    let (good, ram) = (reset(), [0; RAM_BANK]);
    let mut bad = State {
        rom_bank: 64,
        ..good
    };
    assert_eq!(read(&bad, &[], &[], 0x8000), Err(Refusal::State));
    assert_eq!(inspect(&bad), Err(Refusal::State));
    assert_eq!(tick(&mut bad, &mut [], &[], 1), Err(Refusal::State));
    assert_eq!(
        bad,
        State {
            rom_bank: 64,
            ..good
        }
    );
    assert_eq!(read(&good, &[], &[], 0x8000), Err(Refusal::Rom));
    assert_eq!(read(&good, &ROM, &[], 0x8000), Err(Refusal::Ram));
    assert_eq!(read(&good, &ROM, &ram, 0x8000), Err(Refusal::Address));
    assert_eq!(picture(&[], &[0; REGISTERS]), Err(Refusal::Frame));
    assert_eq!(
        gulxinett::bytes::reset(&mut [0; 115]).result(),
        Err(Refusal::State)
    );
}
