//! The two sides: the archive and the second program, each with memory of its own.

use crate::call::{hex, Call, Lent};
use crate::files::{photo, plate, save, script};
use crate::random::Random;
use gulxinett::bytes;
use second::{Frame, Refusal, Salvaged, State};

/// What the bytes of a picture, or of what else a call gives out, hold before.
pub const UNDRAWN: u8 = 0xA5;

/// A refusal as the interface answers it.
pub fn refused(number: u64) -> u64 {
    number << 32
}

/// What the second program gave, as the interface answers it.
fn answered<T>(given: Result<T, Refusal>, value: impl FnOnce(T) -> u64) -> u64 {
    given.map_or_else(|refusal| refused(refusal.number().into()), value)
}

/// What one side is lent, and the record it handed back last.
#[derive(Clone)]
pub struct Side {
    pub state: Vec<u8>,
    pub rom: Vec<u8>,
    pub ram: Vec<u8>,
    pub store: Vec<u8>,
    pub image: Vec<u8>,
    pub file: Vec<u8>,
    pub picture: [u8; 3584],
    /// The bytes that a call gave out.
    pub out: Vec<u8>,
    /// The bytes that a salvage gave out besides.
    pub report: Vec<u8>,
}

/// Writes a frame as a line through the archive.
pub fn record_archive(frame: &Frame<impl AsRef<[u8]>>, out: &mut [u8]) -> u64 {
    let answer = match frame {
        Frame::Reset => bytes::record_reset(out),
        Frame::Read { address } => bytes::record_read(*address, out),
        Frame::Write { address, value } => bytes::record_write(*address, *value, out),
        Frame::Tick { cycles } => bytes::record_tick(*cycles, out),
        Frame::Row { row, pixels } => bytes::record_row(*row, pixels.as_ref(), out),
    };
    answer.0
}

/// Writes a frame as a line through the second program, answering as the interface does.
pub fn record_second(frame: &Frame<impl AsRef<[u8]>>, out: &mut [u8]) -> u64 {
    answered(frame.write_line(out), |length| length as u64)
}

impl Side {
    /// A cartridge after reset, with so many banks of ROM and of RAM and all its memory full of noise.
    pub fn of_noise(rom_banks: usize, ram_banks: usize, seed: u64) -> Self {
        let mut random = Random::new(seed);
        let mut noise = |length| {
            let mut bytes = vec![0; length];
            random.fill(&mut bytes);
            bytes
        };
        Side {
            state: State::RESET.to_bytes().to_vec(),
            rom: noise(rom_banks * 16_384),
            ram: noise(ram_banks * 8_192),
            store: noise(16_384),
            image: noise(16_384),
            file: Vec::new(),
            picture: [0; 3584],
            out: Vec::new(),
            report: Vec::new(),
        }
    }

    fn lent(&mut self, what: Lent) -> &mut Vec<u8> {
        match what {
            Lent::Rom => &mut self.rom,
            Lent::Ram => &mut self.ram,
            Lent::Store => &mut self.store,
            Lent::Image => &mut self.image,
        }
    }

    /// Does what is no call, the same on both sides.
    fn arrange(&mut self, call: &Call) {
        match call {
            Call::Image { kind, seed } => paint(&mut self.image, *kind, *seed),
            Call::Photo { seed } => self.file = photo::random(&mut Random::new(*seed)),
            Call::Plate { seed } => self.file = plate::random(&mut Random::new(*seed)),
            Call::Script { seed } => self.file = script::random(&mut Random::new(*seed)),
            Call::Keep => self.keep(),
            Call::KeepSave => self.file = self.saved(),
            Call::Damage { seed } => save::damage(&mut self.file, &mut Random::new(*seed)),
            Call::Lend { what, length } => self.lent(*what).resize(*length, 0x3C),
            Call::Put { record } => self.state = record.to_vec(),
            _ => {}
        }
    }

    /// Makes the file of the picture area, or none if there is no such RAM.
    fn keep(&mut self) {
        self.file = vec![0; second::GREY_FILE_BYTES];
        if second::export(&self.ram, &mut self.file).is_err() {
            self.file.clear();
        }
    }

    /// The save of state, RAM and frame store; no bytes if there is none.
    pub fn saved(&self) -> Vec<u8> {
        let mut file = vec![0; second::SAVE_BYTES + self.ram.len()];
        match second::save(&self.state, &self.ram, &self.store, &mut file) {
            Ok(_) => file,
            Err(_) => Vec::new(),
        }
    }

    /// Room for what a call gives out, none of it written.
    fn make_room(&mut self, room: usize) -> &mut [u8] {
        self.out.clear();
        self.out.resize(room, UNDRAWN);
        &mut self.out
    }

    /// Room for a script that is salvaged and for its report, none of it written.
    fn make_both_rooms(&mut self, room: usize, report: usize) {
        self.make_room(room);
        self.report.clear();
        self.report.resize(report, UNDRAWN);
    }

    /// Calls the archive.
    pub fn call_archive(&mut self, call: &Call) -> u64 {
        if let Call::Record { frame, room } = call {
            return record_archive(frame, self.make_room(*room));
        }
        if let Call::Export { room } = call {
            self.make_room(*room);
            return bytes::export(&self.ram, &mut self.out).0;
        }
        if let Call::Import = call {
            return bytes::import_photo(&self.file, &mut self.image).0;
        }
        if let Call::Place = call {
            return bytes::place(&self.state, &mut self.ram, &self.file).0;
        }
        if let Call::Shades { room } = call {
            self.make_room(*room);
            return bytes::shades(&self.ram, &mut self.out).0;
        }
        if let Call::Readings { room } = call {
            self.make_room(*room);
            return bytes::readings(&self.state, &self.store, &mut self.out).0;
        }
        if let Call::Salvage { room, report } = call {
            self.make_both_rooms(*room, *report);
            return bytes::salvage(&self.file, &mut self.out, &mut self.report).0;
        }
        if let Call::Save { room } = call {
            self.make_room(*room);
            return bytes::save(&self.state, &self.ram, &self.store, &mut self.out).0;
        }
        if let Call::Judge {
            of,
            plate,
            registers,
            room,
        } = call
        {
            self.make_room(*room);
            let frame = self.lent(*of).clone();
            return bytes::judge(plate, &frame, registers, &mut self.out).0;
        }
        if let Call::Step { line, room } = call {
            self.make_room(*room);
            return self.step_archive(line);
        }
        let Side {
            state,
            rom,
            ram,
            store,
            image,
            file,
            picture,
            ..
        } = self;
        let answer = match call {
            Call::Reset => bytes::reset(state),
            Call::Read { address } => bytes::read(state, rom, ram, *address),
            Call::Write { address, value } => {
                bytes::write(state, ram, store, image, *address, *value)
            }
            Call::Tick { cycles } => bytes::tick(state, ram, store, *cycles),
            Call::Inspect => bytes::inspect(state),
            Call::Restore => bytes::restore(file, state, ram, store),
            Call::Choose {
                light,
                level,
                plain,
                exposure,
            } => bytes::choose(state, *light, *level, *plain, *exposure),
            Call::Picture { of, registers } => {
                let frame = if *of == Lent::Image { image } else { store };
                picture.fill(UNDRAWN);
                bytes::picture(frame, registers, picture)
            }
            _ => bytes::Answer(0),
        };
        answer.0
    }

    /// Calls the second program, answering as the interface does.
    pub fn call_second(&mut self, call: &Call) -> u64 {
        if let Call::Reset = call {
            return self.reset_second();
        }
        if let Call::Picture { of, registers } = call {
            return self.draw_second(*of, registers);
        }
        if let Call::Record { frame, room } = call {
            return record_second(frame, self.make_room(*room));
        }
        if let Call::Export { room } = call {
            self.make_room(*room);
            return self.export_second();
        }
        if let Call::Import = call {
            return self.import_second();
        }
        if let Call::Shades { room } = call {
            self.make_room(*room);
            return self.shades_second();
        }
        if let Call::Readings { room } = call {
            self.make_room(*room);
            return self.readings_second();
        }
        if let Call::Salvage { room, report } = call {
            self.make_both_rooms(*room, *report);
            return self.salvage_second();
        }
        if let Call::Save { room } = call {
            self.make_room(*room);
            return self.save_second();
        }
        if let Call::Restore = call {
            return self.restore_second();
        }
        if let Call::Judge {
            of,
            plate,
            registers,
            room,
        } = call
        {
            self.make_room(*room);
            let frame = self.lent(*of).clone();
            let judged = second::judge(plate, &frame, registers, &mut self.out);
            return answered(judged, |rows| rows as u64);
        }
        if let Call::Step { line, room } = call {
            self.make_room(*room);
            return self.step_second(line);
        }
        let Some(mut state) = State::from_bytes(&self.state) else {
            return refused(1);
        };
        let Side {
            rom,
            ram,
            store,
            image,
            file,
            ..
        } = self;
        let result = match call {
            Call::Read { address } => second::read(&state, rom, ram, *address).map(u32::from),
            Call::Write { address, value } => {
                second::write(&mut state, ram, store, image, *address, *value).map(|()| 0)
            }
            Call::Tick { cycles } => second::tick(&mut state, ram, store, *cycles),
            Call::Place => second::place(&state, ram, file).map(|()| 0),
            Call::Inspect => second::inspect(&state).map(|element| {
                element.map_or(0, |e| 0x100 + 16 * u32::from(e.row) + u32::from(e.column))
            }),
            Call::Choose {
                light,
                level,
                plain,
                exposure,
            } => {
                let named = u16::try_from(*exposure).ok();
                second::choose(&mut state, *light, *level, *plain != 0, named).map(|()| 0)
            }
            _ => Ok(0),
        };
        self.state.copy_from_slice(&state.to_bytes());
        answered(result, u64::from)
    }

    fn reset_second(&mut self) -> u64 {
        if self.state.len() != second::RECORD_BYTES {
            return refused(1);
        }
        self.state.copy_from_slice(&State::RESET.to_bytes());
        0
    }

    fn export_second(&mut self) -> u64 {
        let written = second::export(&self.ram, &mut self.out);
        answered(written, |()| second::GREY_FILE_BYTES as u64)
    }

    fn shades_second(&mut self) -> u64 {
        let read = second::shades(&self.ram, &mut self.out);
        answered(read, |()| second::PIXELS as u64)
    }

    fn readings_second(&mut self) -> u64 {
        let Some(state) = State::from_bytes(&self.state) else {
            return refused(1);
        };
        let written = second::export_readings(&state, &self.store, &mut self.out);
        answered(written, |()| second::GREY_FILE_BYTES as u64)
    }

    fn import_second(&mut self) -> u64 {
        let read = second::import(&mut self.image, &self.file);
        answered(read, |()| 0)
    }

    fn salvage_second(&mut self) -> u64 {
        let salvaged = second::salvage(&self.file, &mut self.out, &mut self.report);
        answered(salvaged, |Salvaged { length, lines }| {
            lines as u64 * 65_536 + length as u64
        })
    }

    fn save_second(&mut self) -> u64 {
        let written = second::save(&self.state, &self.ram, &self.store, &mut self.out);
        answered(written, |length| length as u64)
    }

    fn restore_second(&mut self) -> u64 {
        let Side {
            file,
            state,
            ram,
            store,
            ..
        } = self;
        let read = second::restore(file, state, ram, store);
        answered(read, |()| 0)
    }

    fn step_archive(&mut self, line: &[u8]) -> u64 {
        let session = bytes::Session {
            state: &mut self.state,
            rom: &self.rom,
            ram: &mut self.ram,
            store: &mut self.store,
            image: &mut self.image,
        };
        bytes::step(session, line, &mut self.out).0
    }

    fn step_second(&mut self, line: &[u8]) -> u64 {
        let Side {
            state,
            rom,
            ram,
            store,
            image,
            out,
            ..
        } = self;
        let stepped = second::step(state, rom, ram, store, image, line, out);
        answered(stepped, |length| length as u64)
    }

    fn draw_second(&mut self, of: Lent, registers: &[u8; 54]) -> u64 {
        self.picture.fill(UNDRAWN);
        let drawn = second::picture(self.lent(of), registers);
        answered(drawn, |plate| {
            self.picture = plate;
            0
        })
    }
}

/// An image of some kind: noise, black and white, a slope, one shade, or soft noise.
pub fn paint(image: &mut [u8], kind: u8, seed: u64) {
    let mut random = Random::new(seed);
    random.fill(image);
    let shade = random.byte();
    for (place, v) in image.iter_mut().enumerate() {
        *v = match kind % 5 {
            0 => *v,
            1 => 0_u8.wrapping_sub(*v & 1),
            2 => (place % 128 + place / 128) as u8 ^ shade,
            3 => shade,
            _ => shade.wrapping_add(*v & 31),
        };
    }
}

/// Where two sides part.
pub fn parted(name: &str, archive: &[u8], second: &[u8]) -> Option<String> {
    if archive == second {
        return None;
    }
    if archive.len() != second.len() {
        return Some(format!(
            "{name}: {} and {} bytes",
            archive.len(),
            second.len()
        ));
    }
    let place = archive.iter().zip(second).position(|(a, b)| a != b)?;
    let (a, b) = (archive[place], second[place]);
    Some(format!(
        "{name} at {place:X}h: archive {a:02X}, second {b:02X}"
    ))
}

/// Both sides, lent the same.
pub struct Pair {
    pub archive: Side,
    pub second: Side,
}

/// How a history begins.
#[derive(Clone, Copy, Debug)]
pub struct Beginning {
    pub rom_banks: usize,
    pub ram_banks: usize,
    pub seed: u64,
}

impl Pair {
    pub fn new(beginning: &Beginning) -> Self {
        let Beginning {
            rom_banks,
            ram_banks,
            seed,
        } = *beginning;
        let side = Side::of_noise(rom_banks, ram_banks, seed);
        Pair {
            archive: side.clone(),
            second: side,
        }
    }

    /// Plays one step on both sides and says where they part.
    pub fn play(&mut self, call: &Call) -> Result<u64, String> {
        if !call.is_call() {
            self.archive.arrange(call);
            self.second.arrange(call);
            return Ok(0);
        }
        let archive = self.archive.call_archive(call);
        let second = self.second.call_second(call);
        if archive != second {
            return Err(format!("answer: archive {archive:X}h, second {second:X}h"));
        }
        self.parting(call).map_or(Ok(second), Err)
    }

    /// Compares the record and all the call was lent.
    fn parting(&self, call: &Call) -> Option<String> {
        let (a, b) = (&self.archive, &self.second);
        let lent: &[(&str, &[u8], &[u8])] = match call {
            Call::Read { .. } => &[("ROM", &a.rom, &b.rom), ("RAM", &a.ram, &b.ram)],
            Call::Write { .. } => &[
                ("RAM", &a.ram, &b.ram),
                ("store", &a.store, &b.store),
                ("image", &a.image, &b.image),
            ],
            Call::Tick { .. } => &[("RAM", &a.ram, &b.ram), ("store", &a.store, &b.store)],
            Call::Picture {
                of: Lent::Image, ..
            } => &[
                ("image", &a.image, &b.image),
                ("picture", &a.picture, &b.picture),
            ],
            Call::Picture { .. } => &[
                ("store", &a.store, &b.store),
                ("picture", &a.picture, &b.picture),
            ],
            Call::Record { .. } => &[("line", &a.out, &b.out)],
            Call::Export { .. } => &[("RAM", &a.ram, &b.ram), ("file", &a.out, &b.out)],
            Call::Import => &[("image", &a.image, &b.image), ("file", &a.file, &b.file)],
            Call::Place => &[("RAM", &a.ram, &b.ram), ("file", &a.file, &b.file)],
            Call::Shades { .. } => &[("RAM", &a.ram, &b.ram), ("shades", &a.out, &b.out)],
            Call::Readings { .. } => &[("store", &a.store, &b.store), ("file", &a.out, &b.out)],
            Call::Save { .. } => &[
                ("RAM", &a.ram, &b.ram),
                ("store", &a.store, &b.store),
                ("save", &a.out, &b.out),
            ],
            Call::Restore => &[
                ("RAM", &a.ram, &b.ram),
                ("store", &a.store, &b.store),
                ("file", &a.file, &b.file),
            ],
            Call::Judge { .. } => &[
                ("store", &a.store, &b.store),
                ("image", &a.image, &b.image),
                ("rows", &a.out, &b.out),
            ],
            Call::Step { .. } => &[
                ("ROM", &a.rom, &b.rom),
                ("RAM", &a.ram, &b.ram),
                ("store", &a.store, &b.store),
                ("image", &a.image, &b.image),
                ("answer", &a.out, &b.out),
            ],
            Call::Salvage { .. } => &[
                ("script", &a.file, &b.file),
                ("text", &a.out, &b.out),
                ("report", &a.report, &b.report),
            ],
            _ => &[],
        };
        let state = parted("state", &a.state, &b.state)
            .map(|place| format!("{place}\n  {}\n  {}", hex(&a.state), hex(&b.state)));
        state.or_else(|| lent.iter().find_map(|(name, a, b)| parted(name, a, b)))
    }
}
