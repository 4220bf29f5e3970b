//! A capture that tests begin.

use gulxinett::{Cartridge, FRAME_BYTES, REGISTERS};

/// A frame of many shades.
pub fn frame() -> Vec<u8> {
    (0..FRAME_BYTES).map(|i| (i * 7 + i / 128) as u8).collect()
}

/// A start at exposure 0080h, under a rising matrix.
pub fn registers() -> [u8; REGISTERS] {
    let mut registers = [0; REGISTERS];
    (registers[0], registers[3]) = (3, 0x80);
    for (place, value) in registers.iter_mut().enumerate().skip(6) {
        *value = (0x40 + 0x20 * (place % 3) + place) as u8;
    }
    registers
}

/// Lends the frame, writes the registers, which starts the capture, and lets cycles of it pass.
pub fn begin(cartridge: &mut Cartridge, cycles: u32) {
    cartridge.lend(&frame()).unwrap();
    cartridge.write(0x4000, 0x10).unwrap();
    // register 0 last: it starts the capture
    for number in (0..REGISTERS).rev() {
        let address = 0xA000 + number as u16;
        cartridge.write(address, registers()[number]).unwrap();
    }
    assert_eq!(cartridge.tick(cycles), Ok(cycles));
}
