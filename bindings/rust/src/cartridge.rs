//! A cartridge that owns its memory.

use crate::bytes;
use crate::calls::{choose, inspect, picture, read, reset, tick, write, Choice, Element};
use crate::recorder::Recorder;
use crate::refusal::Refusal;
use crate::sizes::{
    ANSWER_BYTES, FRAME_BYTES, PICTURE_BYTES, PICTURE_OFFSET, PLATE_BYTES, RAM_BANK, ROM_BANK,
    SAVE_BYTES, SHADES_BYTES, STATE_BYTES,
};
use crate::state::State;

/// The answer to a line that is malformed, and to no other.
const MALFORMED: &[u8] = b"06\n";

/// State, ROM, RAM, frame store and the image lent. Dropping it is closing it.
#[derive(Clone, Debug, PartialEq, Eq)]
pub struct Cartridge {
    state: State,
    rom: Vec<u8>,
    ram: Vec<u8>,
    store: Vec<u8>,
    image: Vec<u8>,
    /// The image is the one a script begins with: the job begins here, and none was lent yet.
    image_untouched: bool,
    recorder: Option<Recorder>,
}

/// What a save has, in loose pieces; the ROM is no part of it.
#[derive(Clone, Debug, PartialEq, Eq)]
pub struct Parts {
    /// The state record's bytes.
    pub state: Vec<u8>,
    /// The RAM.
    pub ram: Vec<u8>,
    /// The frame store: the image of the last start, lit under the registers it took.
    pub store: Vec<u8>,
}

impl Default for Cartridge {
    /// One bank of ROM and of RAM full of FF, the state after reset.
    fn default() -> Self {
        Cartridge {
            state: reset(),
            rom: vec![0xFF; ROM_BANK],
            ram: vec![0xFF; RAM_BANK],
            store: vec![0; FRAME_BYTES],
            image: vec![0; FRAME_BYTES],
            image_untouched: true,
            recorder: None,
        }
    }
}

impl Cartridge {
    /// A cartridge with this ROM and RAM, after reset.
    pub fn new(rom: Vec<u8>, ram: Vec<u8>) -> Result<Self, Refusal> {
        Cartridge {
            rom,
            ram,
            ..Cartridge::default()
        }
        .judged()
    }

    /// A cartridge as after reset over a battery save of another emulator, which is the RAM as it is: 131,072
    /// bytes of a real cartridge. Its ROM is one bank full of FF; [`Cartridge::new`] takes another.
    pub fn from_battery(ram: Vec<u8>) -> Result<Self, Refusal> {
        Cartridge::new(vec![0xFF; ROM_BANK], ram)
    }

    /// A cartridge that goes on from a save file, made here or in another language, with one bank of
    /// ROM full of FF. What is not exactly a save is refused as [`Refusal::File`].
    pub fn restore(file: &[u8]) -> Result<Self, Refusal> {
        Cartridge::restore_with(file, vec![0xFF; ROM_BANK])
    }

    /// A cartridge that goes on from a save file with this ROM.
    pub fn restore_with(file: &[u8], rom: Vec<u8>) -> Result<Self, Refusal> {
        let mut state = vec![0; STATE_BYTES];
        let mut ram = vec![0; ram_bytes(file)];
        let mut store = vec![0; FRAME_BYTES];
        bytes::restore(file, &mut state, &mut ram, &mut store).result()?;
        Cartridge::from_parts_with(Parts { state, ram, store }, rom)
    }

    /// A cartridge that goes on from loose pieces, with one bank of ROM full of FF.
    pub fn from_parts(parts: Parts) -> Result<Self, Refusal> {
        Cartridge::from_parts_with(parts, vec![0xFF; ROM_BANK])
    }

    /// A cartridge that goes on from loose pieces with this ROM.
    pub fn from_parts_with(parts: Parts, rom: Vec<u8>) -> Result<Self, Refusal> {
        let record = parts.state.as_slice().try_into().ok();
        let no_record = || Refusal::of_no_record(&parts.state);
        Cartridge {
            state: record.and_then(State::decode).ok_or_else(no_record)?,
            rom,
            ram: parts.ram,
            store: parts.store,
            image_untouched: false,
            ..Cartridge::default()
        }
        .judged()
    }

    /// Lets the archive judge what was given: a read looks at state, ROM and RAM, no cycles at the
    /// store too.
    fn judged(mut self) -> Result<Self, Refusal> {
        self.read(0)?;
        self.tick(0)?;
        Ok(self)
    }

    /// Captures started since reset, 65,536 counting as 0; as a capture starts this becomes its plate's
    /// serial.
    pub fn started(&self) -> u16 {
        self.state.started
    }

    /// Captures that reached their end since reset, counted likewise.
    pub fn ended(&self) -> u16 {
        self.state.ended
    }

    /// Resets the state; RAM, frame store and image stay.
    pub fn reset(&mut self) {
        self.note(Recorder::reset);
        self.state = reset();
    }

    /// Reads the byte at an address.
    pub fn read(&mut self, address: u16) -> Result<u8, Refusal> {
        self.note(|recorder| recorder.read(address));
        read(&self.state, &self.rom, &self.ram, address)
    }

    /// Writes a byte to an address; a start lights the image lent into the frame store.
    pub fn write(&mut self, address: u16, value: u8) -> Result<(), Refusal> {
        let Cartridge {
            state,
            ram,
            store,
            image,
            recorder,
            ..
        } = self;
        if let Some(recorder) = recorder {
            recorder.write(image, address, value);
        }
        write(state, ram, store, image, address, value)
    }

    /// Lets cycles pass; returns how many fell while a capture was running.
    pub fn tick(&mut self, cycles: u32) -> Result<u32, Refusal> {
        self.note(|recorder| recorder.tick(cycles));
        tick(&mut self.state, &mut self.ram, &self.store, cycles)
    }

    /// Carries out a line of a bus script, without its LF, as the program `bus` does; the answer has its LF. A
    /// malformed line is answered `06` and changes nothing; a recorder has every other as it is.
    pub fn step(&mut self, line: &[u8]) -> Vec<u8> {
        if let Some(recorder) = &mut self.recorder {
            recorder.before_line(&self.image);
        }
        let mut record = self.state.encode();
        let session = bytes::Session {
            state: &mut record,
            rom: &self.rom,
            ram: &mut self.ram,
            store: &mut self.store,
            image: &mut self.image,
        };
        let mut answer = vec![0; ANSWER_BYTES];
        let length = bytes::step(session, line, &mut answer).result();
        let length = length.expect("what a cartridge has is a record, and there is room");
        answer.truncate(length as usize);
        self.state.take(&record);
        if answer != MALFORMED {
            // a row is lent
            self.image_untouched &= !line.starts_with(b"04");
            self.note(|recorder| recorder.line(line));
        }
        answer
    }

    /// Writes the matrix and the exposure registers as chosen, and nothing else: a capture held goes on
    /// with the registers of its start. A recorder has it as the bus writes that it amounts to, unless
    /// it is refused.
    pub fn choose(&mut self, choice: Choice) -> Result<(), Refusal> {
        choose(&mut self.state, choice)?;
        let Cartridge {
            state,
            image,
            recorder,
            ..
        } = self;
        if let Some(recorder) = recorder {
            recorder.choose(image, state);
        }
        Ok(())
    }

    /// The first element of the current matrix whose three values don't rise or stay level.
    pub fn inspect(&self) -> Result<Option<Element>, Refusal> {
        inspect(&self.state)
    }

    /// Lends an image of 16,384 bytes to the writes that follow; until then it is all 00.
    pub fn lend(&mut self, image: &[u8]) -> Result<(), Refusal> {
        if image.len() != FRAME_BYTES {
            return Err(Refusal::Frame);
        }
        if let Some(recorder) = &mut self.recorder {
            recorder.lend(&self.image, image);
        }
        self.image.copy_from_slice(image);
        self.image_untouched = false;
        Ok(())
    }

    /// Lends the image of a colour photograph, a Netpbm P6 file of 128 by 128 pixels with largest value
    /// 255, each (2R + 5G + B) / 8.
    pub fn lend_photo(&mut self, file: &[u8]) -> Result<(), Refusal> {
        let mut image = [0; FRAME_BYTES];
        bytes::import_photo(file, &mut image).result()?;
        self.lend(&image)
    }

    /// Switches the recorder on: from here on every call, refused ones too, is a line of a script
    /// that the program `bus` plays. Switched on again, it goes on.
    pub fn record(&mut self) {
        let untouched = self.image_untouched;
        self.recorder
            .get_or_insert_with(|| Recorder::new(untouched));
    }

    /// The script so far; empty if the recorder was never switched on.
    pub fn recording(&self) -> &[u8] {
        self.recorder.as_ref().map_or(&[], Recorder::script)
    }

    /// Lets the recorder note a call, if it is switched on.
    fn note(&mut self, call: impl FnOnce(&mut Recorder)) {
        self.recorder.as_mut().map(call);
    }

    /// The picture afresh of the image lent, under the registers as last written.
    pub fn picture(&self) -> Result<[u8; PICTURE_BYTES], Refusal> {
        picture(&self.image, &self.state.registers)
    }

    /// The picture area as it stands in RAM.
    pub fn area(&self) -> &[u8] {
        &self.ram[PICTURE_OFFSET..PICTURE_OFFSET + PICTURE_BYTES]
    }

    /// The picture area as it stands, as a grey image: a Netpbm P5 file of 14,351 bytes.
    pub fn plate(&self) -> Vec<u8> {
        let mut file = vec![0; PLATE_BYTES];
        let written = bytes::export(&self.ram, &mut file).result();
        written.expect("the RAM has an allowed length, and there is room");
        file
    }

    /// Places a grey image as [`Cartridge::plate`] makes it in the picture area, whether or not RAM writing
    /// is enabled; not while a capture is held. A recorder has it as the bus writes that it amounts
    /// to, unless it is refused.
    pub fn place(&mut self, file: &[u8]) -> Result<(), Refusal> {
        bytes::place(&self.state.encode(), &mut self.ram, file).result()?;
        let Cartridge {
            state,
            ram,
            image,
            recorder,
            ..
        } = self;
        if let Some(recorder) = recorder {
            let area = &ram[PICTURE_OFFSET..PICTURE_OFFSET + PICTURE_BYTES];
            recorder.place(image, state, area);
        }
        Ok(())
    }

    /// The picture area as it stands, one shade a byte, 0 white to 3 black: 14,336 of them, row by row.
    pub fn shades(&self) -> Vec<u8> {
        let mut shades = vec![0; SHADES_BYTES];
        let written = bytes::shades(&self.ram, &mut shades).result();
        written.expect("the RAM has an allowed length, and there is room");
        shades
    }

    /// The reading of each pixel before the matrix makes a shade of it, from 0 to 255, as a grey image like
    /// [`Cartridge::plate`]'s: of the capture held, the whole of it however far it has run.
    pub fn readings(&self) -> Result<Vec<u8>, Refusal> {
        let mut file = vec![0; PLATE_BYTES];
        bytes::readings(&self.state.encode(), &self.store, &mut file).result()?;
        Ok(file)
    }

    /// The state record as it stands.
    pub fn state(&self) -> &State {
        &self.state
    }

    /// State, RAM and frame store as one save file, with a checksum over all of it; [`write_whole`](crate::write_whole)
    /// puts it in its place whole.
    pub fn save(&self) -> Vec<u8> {
        let mut file = vec![0; SAVE_BYTES + self.ram.len()];
        let written = bytes::save(&self.state.encode(), &self.ram, &self.store, &mut file).result();
        written.expect("what a cartridge has can exist, and there is room");
        file
    }

    /// Copies of state, RAM and frame store, in loose pieces.
    pub fn parts(&self) -> Parts {
        Parts {
            state: self.state.encode().to_vec(),
            ram: self.ram.clone(),
            store: self.store.clone(),
        }
    }

    /// The RAM as it is, which is the battery save that other emulators read.
    pub fn battery(&self) -> &[u8] {
        &self.ram
    }
}

/// Bytes of the RAM that a save of this length has; of what is no save's length, one bank.
fn ram_bytes(file: &[u8]) -> usize {
    let rest = file.len().saturating_sub(SAVE_BYTES);
    let allowed = [1, 2, 4, 8, 16].map(|banks| banks * RAM_BANK);
    allowed
        .into_iter()
        .find(|&bytes| bytes == rest)
        .unwrap_or(RAM_BANK)
}
