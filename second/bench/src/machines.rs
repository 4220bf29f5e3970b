//! The two controllers, driven alike: the archive's C functions over a record of bytes, and the second
//! program's own functions over its record.

use gulxinett::bytes;
use second::{State, FRAME_BYTES, RAM_BANK, RECORD_BYTES, ROM_BANK};

/// Register 0, whose lowest bit starts a capture.
pub const TRIGGER: u16 = 0xA000;

/// A controller with its memory.
pub trait Machine {
    fn read(&mut self, address: u16) -> u8;
    fn write(&mut self, address: u16, value: u8);
    fn tick(&mut self, cycles: u32) -> u32;
    /// Chooses a level in low light, with dithering and no exposure named.
    fn choose(&mut self, level: u8);
    /// Starts a capture and goes back to the state before.
    fn start_again(&mut self);
}

/// What every machine is lent: one bank of ROM and RAM, a store and an image.
struct Memory {
    rom: Vec<u8>,
    ram: Vec<u8>,
    store: Vec<u8>,
    image: Vec<u8>,
}

impl Memory {
    fn new(image: &[u8]) -> Self {
        Memory {
            rom: vec![0xFF; ROM_BANK],
            ram: vec![0xFF; RAM_BANK],
            store: vec![0; FRAME_BYTES],
            image: image.to_vec(),
        }
    }
}

/// The archive, as C calls it.
pub struct Archive {
    state: [u8; RECORD_BYTES],
    memory: Memory,
}

impl Archive {
    pub fn new(image: &[u8]) -> Self {
        let mut state = [0; RECORD_BYTES];
        accepted(bytes::reset(&mut state));
        Archive {
            state,
            memory: Memory::new(image),
        }
    }
}

/// The value of an answer, which is to be no refusal.
fn accepted(answer: bytes::Answer) -> u32 {
    answer.result().expect("nothing here is refused")
}

impl Machine for Archive {
    fn read(&mut self, address: u16) -> u8 {
        let Memory { rom, ram, .. } = &self.memory;
        accepted(bytes::read(&self.state, rom, ram, address)) as u8
    }

    fn write(&mut self, address: u16, value: u8) {
        let Memory {
            ram, store, image, ..
        } = &mut self.memory;
        accepted(bytes::write(
            &mut self.state,
            ram,
            store,
            image,
            address,
            value,
        ));
    }

    fn tick(&mut self, cycles: u32) -> u32 {
        let Memory { ram, store, .. } = &mut self.memory;
        accepted(bytes::tick(&mut self.state, ram, store, cycles))
    }

    fn choose(&mut self, level: u8) {
        accepted(bytes::choose(&mut self.state, 1, level, 0, 0x1_0000));
    }

    fn start_again(&mut self) {
        let before = self.state;
        self.write(TRIGGER, 3);
        self.state = before;
    }
}

/// The second program's controller.
pub struct Direct {
    state: State,
    memory: Memory,
}

impl Direct {
    pub fn new(image: &[u8]) -> Self {
        Direct {
            state: State::RESET,
            memory: Memory::new(image),
        }
    }
}

impl Machine for Direct {
    fn read(&mut self, address: u16) -> u8 {
        let Memory { rom, ram, .. } = &self.memory;
        second::read(&self.state, rom, ram, address).expect("a read is not refused")
    }

    fn write(&mut self, address: u16, value: u8) {
        let Memory {
            ram, store, image, ..
        } = &mut self.memory;
        second::write(&mut self.state, ram, store, image, address, value)
            .expect("a write is not refused");
    }

    fn tick(&mut self, cycles: u32) -> u32 {
        let Memory { ram, store, .. } = &mut self.memory;
        second::tick(&mut self.state, ram, store, cycles).expect("a tick is not refused")
    }

    fn choose(&mut self, level: u8) {
        second::choose(&mut self.state, 1, level, false, None).expect("a choice is not refused");
    }

    fn start_again(&mut self) {
        let before = self.state;
        self.write(TRIGGER, 3);
        self.state = before;
    }
}
