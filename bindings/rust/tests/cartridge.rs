//! The owner of a cartridge's memory: a save picked up by another, and what bad input gets.

mod common;

use common::{begin, frame, registers};
use gulxinett::{
    bytes, layout_of, picture, Cartridge, Choice, Element, Parts, Refusal, FRAME_BYTES, LAYOUT,
    PICTURE_BYTES, PLATE_BYTES, RAM_BANK, REGISTERS, ROM_BANK, SHADES_BYTES, STATE_BYTES,
};

const TOTAL: u32 = 32_958 + 16 * 0x80;

/// A cartridge with a capture half way.
fn half_way() -> Cartridge {
    let mut cartridge = Cartridge::default();
    begin(&mut cartridge, TOTAL / 2);
    cartridge
}

#[test]
fn a_save_goes_on_elsewhere() {
    let save = half_way().parts();
    let mut other = Cartridge::from_parts(save.clone()).unwrap();
    assert!(other.parts() == save);
    let fresh = picture(&frame(), &registers()).unwrap();
    assert!(other.area() != fresh);
    assert_eq!(other.tick(u32::MAX), Ok(TOTAL - TOTAL / 2));
    assert!(other.area() == fresh);
    assert!(!other.state().held);
}

#[test]
fn the_calls() {
    let mut rom = vec![0x5A; 2 * ROM_BANK];
    rom[ROM_BANK] = 0xA5;
    let mut cartridge = Cartridge::new(rom.clone(), vec![1; 2 * RAM_BANK]).unwrap();
    assert_eq!(cartridge.read(0), Ok(0x5A));
    assert_eq!(cartridge.read(0x4000), Ok(0xA5));
    assert_eq!(cartridge.inspect(), Ok(None));
    cartridge.lend(&frame()).unwrap();
    cartridge.write(0x4000, 0x10).unwrap();
    cartridge.write(0xA000, registers()[0] & 6).unwrap();
    for (address, value) in (0xA000..).zip(registers()).skip(1) {
        cartridge.write(address, value).unwrap();
    }
    assert!(cartridge.picture() == picture(&frame(), &registers()));
    cartridge.write(0xA006, 0xFF).unwrap();
    let first = Element { row: 0, column: 0 };
    assert_eq!(cartridge.inspect(), Ok(Some(first)));
    let mut other = Cartridge::from_parts_with(cartridge.parts(), rom).unwrap();
    assert_eq!(other.read(0x4000), Ok(0xA5));
    cartridge.reset();
    assert_eq!(cartridge.inspect(), Ok(None));
    assert!(cartridge.area() == [1; PICTURE_BYTES]);
}

/// The file of a picture area, worked out here: each shade's low bit in one byte, its high bit in
/// the next.
fn file_of(area: &[u8]) -> Vec<u8> {
    let grey = |place: usize| {
        let (x, y) = (place % 128, place / 128);
        let at = 256 * (y / 8) + 16 * (x / 8) + 2 * (y % 8);
        let bit = |byte: u8| usize::from(byte >> (7 - x % 8) & 1);
        [255, 170, 85, 0][bit(area[at]) + 2 * bit(area[at + 1])]
    };
    let header = b"P5\n128 112\n255\n".iter().copied();
    header.chain((0..128 * 112).map(grey)).collect()
}

#[test]
fn plates_as_grey_images() {
    let mut cartridge = half_way();
    assert!(cartridge.plate() == file_of(cartridge.area()));
    cartridge.tick(u32::MAX).unwrap();
    assert!(cartridge.plate() == file_of(cartridge.area()));
    assert!(Cartridge::default().plate()[15..] == [0; PLATE_BYTES - 15]);
}

#[test]
fn exports_that_are_refused() {
    let mut room = [0xA5; PLATE_BYTES];
    let short = &mut room[1..];
    assert_eq!(export(&[0; RAM_BANK], short), Err(Refusal::Room));
    assert_eq!(export(&[0; RAM_BANK - 1], short), Err(Refusal::Ram));
    assert_eq!(room, [0xA5; PLATE_BYTES]);
    assert_eq!(export(&[0; RAM_BANK], &mut room), Ok(PLATE_BYTES as u32));
}

/// A plate of its own for each number, with the four greys and no other.
fn plate(number: usize) -> Vec<u8> {
    let grey = |i: usize| [255, 170, 85, 0][(i * (7 + 2 * number) + i / 128) / 64 % 4];
    let header = b"P5\n128 112\n255\n".iter().copied();
    header.chain((0..128 * 112).map(grey)).collect()
}

/// The lines of a placing: RAM writing on, select to bank 0, the area, and both back.
fn place_lines(area: &[u8], select: u8, enable: u8) -> String {
    let byte = |(place, byte): (usize, &u8)| format!("02{:04X}{byte:02X}\n", 0xA100 + place);
    let area: String = area.iter().enumerate().map(byte).collect();
    format!("0200000A\n02400000\n{area}024000{select:02X}\n020000{enable:02X}\n")
}

#[test]
fn plates_back_into_the_cartridge() -> Result<(), Refusal> {
    let mut cartridge = half_way();
    cartridge.tick(u32::MAX)?;
    let (file, area) = (cartridge.plate(), cartridge.area().to_vec());
    let mut other = Cartridge::new(vec![0; ROM_BANK], vec![0x33; 16 * RAM_BANK])?;
    let mut due = other.clone();
    other.place(&file)?;
    assert!(other.area() == area && other.plate() == file);
    // what is placed is all that has changed
    due.write(0x0000, 0x0A)?;
    for (address, &byte) in (0xA100..).zip(&area) {
        due.write(address, byte)?;
    }
    due.write(0x0000, 0)?;
    assert!(other == due);
    assert_ne!(plate(1), file);
    for number in 1..4 {
        other.place(&plate(number))?;
        assert!(other.plate() == plate(number));
    }
    Ok(())
}

#[test]
fn placings_are_recorded_as_writes() -> Result<(), Refusal> {
    for (select, enable) in [(0x00, 0x00), (0x05, 0x0A), (0x13, 0x00), (0x1F, 0x0A)] {
        let mut cartridge = Cartridge::default();
        cartridge.write(0x4000, select)?;
        cartridge.write(0x0000, enable)?;
        cartridge.record();
        cartridge.place(&plate(1))?;
        assert_eq!(cartridge.place(&plate(1)[1..]), Err(Refusal::File));
        let due = place_lines(cartridge.area(), select, enable);
        assert!(cartridge.recording() == due.as_bytes());
    }
    Ok(())
}

#[test]
fn placings_that_are_refused() -> Result<(), Refusal> {
    let good = plate(1);
    let mut cartridge = half_way();
    cartridge.record();
    let mut before = cartridge.clone();
    assert_eq!(cartridge.place(&good), Err(Refusal::Held));
    assert_eq!(cartridge.place(&good[1..]), Err(Refusal::File));
    assert!(cartridge == before);
    cartridge.write(0xA000, 2)?;
    before = cartridge.clone();
    assert_eq!(cartridge.place(&good), Err(Refusal::Held));
    assert!(cartridge == before);
    cartridge.write(0xA000, 3)?;
    cartridge.tick(u32::MAX)?;
    before = cartridge.clone();
    for (place, byte) in [(1, b'6'), (2, b' '), (15, 1), (16, 254), (14_350, 86)] {
        let mut file = good.clone();
        file[place] = byte;
        assert_eq!(cartridge.place(&file), Err(Refusal::File));
    }
    for file in [
        &[],
        &good[..15],
        &good[..14_350],
        &[&good[..], &[0]].concat(),
    ] {
        assert_eq!(cartridge.place(file), Err(Refusal::File));
    }
    assert!(cartridge == before);
    cartridge.place(&good)?;
    assert!(cartridge.plate() == good);
    let place = |state: &[u8], ram: &mut [u8], file: &[u8]| bytes::place(state, ram, file).result();
    let state = half_way().parts().state;
    let mut ram = [0xA5; RAM_BANK];
    assert_eq!(place(&[], &mut ram[1..], &[]), Err(Refusal::State));
    assert_eq!(place(&state, &mut ram[1..], &[]), Err(Refusal::Ram));
    assert_eq!(ram, [0xA5; RAM_BANK]);
    Ok(())
}

#[test]
fn shades_of_the_area() {
    let mut cartridge = half_way();
    for _ in 0..2 {
        let shades = cartridge.shades();
        assert_eq!(shades.len(), SHADES_BYTES);
        let greys = shades.iter().map(|&shade| 255 - 85 * shade);
        assert!(greys.eq(cartridge.plate()[15..].iter().copied()));
        cartridge.tick(u32::MAX).unwrap();
    }
    let shades = |ram: &[u8], out: &mut [u8]| bytes::shades(ram, out).result();
    let mut room = [0xA5; SHADES_BYTES + 1];
    let short = &mut room[2..];
    assert_eq!(shades(&[0; RAM_BANK], short), Err(Refusal::Room));
    assert_eq!(shades(&[0; RAM_BANK - 1], short), Err(Refusal::Ram));
    assert_eq!(room, [0xA5; SHADES_BYTES + 1]);
    assert_eq!(shades(&[0; RAM_BANK], &mut room), Ok(SHADES_BYTES as u32));
    assert_eq!((room[SHADES_BYTES - 1], room[SHADES_BYTES]), (0, 0xA5));
}

/// The file that a matrix makes of readings, worked out here.
fn dotted(readings: &[u8], registers: &[u8; REGISTERS]) -> Vec<u8> {
    let grey = |(place, value): (usize, &u8)| {
        let element = 6 + 3 * (4 * (place / 128 % 4) + place % 4);
        let above = registers[element..element + 3].iter();
        85 * above.filter(|&least| value >= least).count() as u8
    };
    let header = readings[..15].iter().copied();
    header
        .chain(readings[15..].iter().enumerate().map(grey))
        .collect()
}

#[test]
fn readings_before_the_dots() -> Result<(), Refusal> {
    let mut cartridge = half_way();
    cartridge.record();
    let before = cartridge.clone();
    let readings = cartridge.readings()?;
    assert!(cartridge == before);
    let fresh = picture(&frame(), &registers())?;
    assert!(dotted(&readings, &registers()) == file_of(&fresh));
    cartridge.write(0xA000, 2)?;
    cartridge.write(0xA006, 0xFF)?;
    cartridge.lend(&[9; FRAME_BYTES])?;
    assert!(cartridge.readings()? == readings, "stopped, and touched");
    cartridge.write(0xA000, 3)?;
    cartridge.tick(u32::MAX)?;
    assert_eq!(cartridge.readings(), Err(Refusal::NotHeld));
    assert!(cartridge.plate() == dotted(&readings, &registers()));
    // at exposure 0100h the brightest light is stored and read as 207, and inverted as 48
    cartridge.reset();
    cartridge.lend(&[0xFF; FRAME_BYTES])?;
    for (inverted, value) in [(0, 207), (8, 48)] {
        for (address, byte) in [(0x4000, 0x10), (0xA002, 1), (0xA004, inverted), (0xA000, 3)] {
            cartridge.write(address, byte)?;
        }
        assert!(cartridge.parts().store == [value; FRAME_BYTES]);
        assert!(cartridge.readings()?[15..] == [value; SHADES_BYTES]);
        cartridge.tick(u32::MAX)?;
    }
    Ok(())
}

#[test]
fn readings_that_are_refused() {
    let read =
        |state: &[u8], store: &[u8], out: &mut [u8]| bytes::readings(state, store, out).result();
    let (held, free) = (half_way().parts(), Cartridge::default().parts());
    let mut room = [0xA5; PLATE_BYTES + 1];
    let short = &mut room[2..];
    assert_eq!(read(&[], &[], short), Err(Refusal::State));
    assert_eq!(read(&free.state, &[], short), Err(Refusal::Frame));
    assert_eq!(read(&free.state, &free.store, short), Err(Refusal::Room));
    assert_eq!(read(&held.state, &held.store, short), Err(Refusal::Room));
    assert_eq!(
        read(&free.state, &free.store, &mut room),
        Err(Refusal::NotHeld)
    );
    assert_eq!(room, [0xA5; PLATE_BYTES + 1]);
    let written = read(&held.state, &held.store, &mut room);
    assert_eq!(written, Ok(PLATE_BYTES as u32));
    assert_eq!(room[PLATE_BYTES], 0xA5);
}

fn export(ram: &[u8], out: &mut [u8]) -> Result<u32, Refusal> {
    bytes::export(ram, out).result()
}

#[test]
fn choices_write_their_registers_alone() {
    let mut cartridge = half_way();
    cartridge.write(0x4000, 5).unwrap();
    let before = *cartridge.state();
    let (area, store) = (cartridge.area().to_vec(), cartridge.parts().store);
    cartridge.record();
    cartridge.lend(&frame()).unwrap();
    let start = cartridge.recording().len();
    let low = Choice {
        light: 1,
        level: 7,
        dithering: true,
        exposure: None,
    };
    cartridge.choose(low).unwrap();
    let mut due = before;
    due.registers = cartridge.state().registers;
    assert_eq!(*cartridge.state(), due);
    assert_eq!(due.registers[..2], before.registers[..2]);
    assert_eq!(due.registers[2..4], [0x10, 0]);
    assert_eq!(due.registers[4..6], before.registers[4..6]);
    assert_eq!(due.registers[6..9], [0x8C, 0x98, 0xAC]);
    assert!(cartridge.area() == area && cartridge.parts().store == store);
    let register = |n: usize| format!("02A0{n:02X}{:02X}\n", due.registers[n]);
    let lines: String = [2, 3].into_iter().chain(6..54).map(register).collect();
    let script = format!("02400010\n{lines}02400005\n");
    assert!(cartridge.recording()[start..] == *script.as_bytes());
    let recorded = cartridge.clone();
    for (light, level) in [(2, 7), (0, 16), (255, 255)] {
        let none = Choice {
            light,
            level,
            ..low
        };
        assert_eq!(cartridge.choose(none), Err(Refusal::Choice));
    }
    assert!(cartridge == recorded);
    let plain = Choice {
        dithering: false,
        exposure: Some(0x1234),
        ..low
    };
    cartridge.choose(plain).unwrap();
    let chosen = cartridge.state().registers;
    assert_eq!(chosen[2..4], [0x12, 0x34]);
    assert!(chosen[6..]
        .chunks(3)
        .all(|three| three == [0x8C, 0x98, 0xAC]));
    assert_eq!(cartridge.inspect(), Ok(None));
    assert_eq!(cartridge.tick(u32::MAX), Ok(TOTAL - TOTAL / 2));
    assert!(cartridge.area() == picture(&frame(), &registers()).unwrap());
}

#[test]
fn refused_calls_change_nothing() {
    let mut cartridge = half_way();
    let before = cartridge.clone();
    assert_eq!(cartridge.read(0x8000), Err(Refusal::Address));
    assert_eq!(cartridge.write(0xC000, 1), Err(Refusal::Address));
    for length in [0, FRAME_BYTES - 1, FRAME_BYTES + 1] {
        assert_eq!(cartridge.lend(&vec![9; length]), Err(Refusal::Frame));
    }
    assert!(cartridge == before);
}

#[test]
fn memory_of_a_wrong_length() {
    let made = |rom, ram| Cartridge::new(vec![0; rom], vec![0; ram]).map(|_| ());
    assert_eq!(made(64 * ROM_BANK, 16 * RAM_BANK), Ok(()));
    for rom in [0, 1, ROM_BANK - 1, 3 * ROM_BANK, 128 * ROM_BANK] {
        assert_eq!(made(rom, RAM_BANK), Err(Refusal::Rom));
    }
    for ram in [0, 1, RAM_BANK - 1, 3 * RAM_BANK, 32 * RAM_BANK] {
        assert_eq!(made(ROM_BANK, ram), Err(Refusal::Ram));
    }
}

/// One more at a start and at an end, none at a stop or a resume, and from 65,535 to 0.
#[test]
fn captures_are_counted() -> Result<(), Refusal> {
    let mut cartridge = Cartridge::default();
    cartridge.write(0x4000, 0x10)?;
    for serial in [1, 2] {
        cartridge.write(0xA000, 1)?;
        cartridge.tick(20_000)?;
        assert_eq!(
            (cartridge.started(), cartridge.ended()),
            (serial, serial - 1)
        );
        cartridge.write(0xA000, 0)?;
        cartridge.write(0xA000, 1)?;
        cartridge.tick(1_000_000)?;
        assert_eq!((cartridge.started(), cartridge.ended()), (serial, serial));
    }
    let mut save = cartridge.parts();
    save.state[9..13].copy_from_slice(&[0xFF, 0xFF, 0xFE, 0xFF]);
    let mut worn = Cartridge::from_parts(save)?;
    worn.write(0xA000, 1)?;
    worn.tick(1_000_000)?;
    assert_eq!((worn.started(), worn.ended()), (0, 0xFFFF));
    cartridge.reset();
    assert_eq!((cartridge.started(), cartridge.ended()), (0, 0));
    Ok(())
}

/// A state that another version saved is refused, with a sentence that says so, and never finished.
#[test]
fn saves_of_another_layout() {
    let good = half_way().parts();
    assert_eq!((LAYOUT, layout_of(&good.state)), (3, Some(3)));
    let first = include_bytes!("../../../tests/data/layout-1.state").to_vec();
    let second = include_bytes!("../../../tests/data/layout-2.state").to_vec();
    // each is of a capture half way
    assert_eq!((first[3], second[4]), (1, 1));
    let later = [&[4], &good.state[1..]].concat();
    for (layout, state) in [(1, first), (2, second), (4, later)] {
        let (mut ticked, mut ram) = (state.clone(), good.ram.clone());
        let refused = bytes::tick(&mut ticked, &mut ram, &good.store, u32::MAX).result();
        assert_eq!(refused, Err(Refusal::State));
        assert!(ticked == state && ram == good.ram);
        assert_eq!(layout_of(&state), Some(layout));
        let save = Parts {
            state,
            ..good.clone()
        };
        let refusal = Cartridge::from_parts(save).expect_err("it is of another layout");
        assert_eq!((refusal, refusal.number()), (Refusal::Layout(layout), 1));
        let said =
            format!("the state is of layout {layout}, and this program reads layout {LAYOUT}");
        assert_eq!(refusal.to_string(), said + ": another version saved it");
    }
}

#[test]
fn saves_that_are_none() {
    let good = half_way().parts();
    let restored = |change: &dyn Fn(&mut Parts)| {
        let mut save = good.clone();
        change(&mut save);
        Cartridge::from_parts(save).map(|_| ())
    };
    assert_eq!(restored(&|_| ()), Ok(()));
    for length in [0, STATE_BYTES - 1, STATE_BYTES + 1] {
        let cut = restored(&|save| save.state.resize(length, 0));
        assert_eq!(cut, Err(Refusal::State));
    }
    assert_eq!(restored(&|save| save.state[4] = 2), Err(Refusal::State));
    assert_eq!(restored(&|save| save.state[2] = 64), Err(Refusal::State));
    for length in [0, RAM_BANK - 1, 3 * RAM_BANK] {
        let cut = restored(&|save| save.ram.resize(length, 0));
        assert_eq!(cut, Err(Refusal::Ram));
    }
    for length in [0, FRAME_BYTES - 1, FRAME_BYTES + 1] {
        let cut = restored(&|save| save.store.resize(length, 0));
        assert_eq!(cut, Err(Refusal::Frame));
    }
}
