//! Random histories, aimed at the edges of captures.

use crate::answers::Answers;
use crate::call::{Call, Lent};
use crate::lines;
use crate::random::Random;
use crate::script::{frames, spoil};
use crate::sides::{refused, Beginning, Pair};
use crate::sweep::{first_layout, room_for, EXPOSURES};
use second::{
    Refusal, State, Timing, GREY_FILE_BYTES, PIXELS, PLATE_BYTES, PLATE_OFFSET, SAVE_BYTES,
};
use std::collections::VecDeque;

/// Addresses at the edges of the areas and of the picture.
const EDGES: [u16; 24] = [
    0x0000, 0x1FFF, 0x2000, 0x3FFF, 0x4000, 0x5FFF, 0x6000, 0x7FFF, 0x8000, 0x9FFF, 0xA000, 0xA001,
    0xA035, 0xA036, 0xA07F, 0xA080, 0xA100, 0xAEFF, 0xAF00, 0xBF80, 0xBFFF, 0xC000, 0xFFFF, 0xE000,
];

/// A history while it is made up and played.
pub struct History<'a> {
    random: &'a mut Random,
    pub beginning: Beginning,
    pub calls: Vec<Call>,
    pair: Pair,
    planned: VecDeque<Call>,
    pub compared: u64,
    pub captures: u64,
    /// Files made while a capture was running.
    pub halves: u64,
    /// Files placed, and those turned away while a capture was held.
    pub placed: [u64; 2],
    /// Files made of the readings of a capture.
    pub readings: u64,
    /// Scripts salvaged, none of them refused.
    pub salvaged: u64,
    /// Saves restored, and files refused as none.
    pub restored: [u64; 2],
    /// A start was seen, so that its end makes a whole capture.
    started: bool,
}

impl<'a> History<'a> {
    pub fn new(random: &'a mut Random) -> Self {
        let beginning = Beginning {
            rom_banks: if random.once_in(8) {
                1 << random.below(7)
            } else {
                1 << random.below(3)
            },
            ram_banks: if random.once_in(3) {
                1 << random.below(5)
            } else {
                1
            },
            seed: random.next(),
        };
        History {
            random,
            beginning,
            calls: Vec::new(),
            pair: Pair::new(&beginning),
            planned: VecDeque::new(),
            compared: 0,
            captures: 0,
            halves: 0,
            placed: [0; 2],
            readings: 0,
            salvaged: 0,
            restored: [0; 2],
            started: false,
        }
    }

    /// Makes up and plays steps until so many calls are compared or the sides part.
    pub fn play(&mut self, calls: u64, mut answers: Option<&mut Answers>) -> Result<(), String> {
        while self.compared < calls {
            let call = self.next();
            let before = self.state();
            let mut answers = answers.as_deref_mut().filter(|_| call.is_call());
            if let Some(answers) = &mut answers {
                answers.lend(&self.pair.second);
            }
            self.calls.push(call.clone());
            let answer = self.pair.play(&call)?;
            if let Some(answers) = answers {
                answers.call(&call, answer, &self.pair.second);
            }
            self.compared += u64::from(call.is_call());
            if let Call::Place = call {
                let counted = [0, refused(Refusal::Held.number().into())];
                let counts = counted.iter().zip(&mut self.placed);
                counts.for_each(|(&due, count)| *count += u64::from(answer == due));
            }
            if let Call::Readings { .. } = call {
                self.readings += u64::from(answer >> 32 == 0);
            }
            if let Call::Restore = call {
                let counted = [0, refused(Refusal::File.number().into())];
                let counts = counted.iter().zip(&mut self.restored);
                counts.for_each(|(&due, count)| *count += u64::from(answer == due));
            }
            if let Call::Salvage { .. } = call {
                self.salvaged += u64::from(answer >> 32 == 0);
            }
            self.count_captures(&call, before);
        }
        Ok(())
    }

    fn count_captures(&mut self, call: &Call, before: Option<State>) {
        let held = |state: Option<State>| state.is_some_and(|state| state.held);
        let running = before.is_some_and(|state| state.running());
        let (before, after) = (held(before), held(self.state()));
        match call {
            Call::Write { .. } | Call::Step { .. } if after && !before => self.started = true,
            Call::Tick { .. } if before && !after => {
                self.captures += u64::from(std::mem::take(&mut self.started));
            }
            Call::Step { line, .. } if before && !after => {
                let whole = std::mem::take(&mut self.started);
                // by a reset it is let go
                self.captures += u64::from(whole && line.starts_with(b"03"));
            }
            Call::Reset | Call::Restore | Call::Put { .. } => self.started = false,
            Call::Export { .. } if running => self.halves += 1,
            _ => {}
        }
    }

    fn state(&self) -> Option<State> {
        State::from_bytes(&self.pair.second.state)
    }

    /// Whether nothing lent or put makes every call a refusal.
    fn sound(&self) -> bool {
        let side = &self.pair.second;
        side.rom.len() == self.beginning.rom_banks * 16_384
            && side.ram.len() == self.beginning.ram_banks * 8_192
            && side.store.len() == 16_384
            && side.image.len() == 16_384
            && self.state().is_some_and(|state| state.can_exist())
    }

    fn next(&mut self) -> Call {
        if let Some(call) = self.planned.pop_front() {
            return call;
        }
        if !self.sound() && self.random.once_in(4) {
            self.plan_repair();
        } else {
            match self.random.below(2_000) {
                0..=3 => self.plan_capture(),
                4..=6 => return self.lend_badly(),
                7..=9 => {
                    return Call::Put {
                        record: self.broken_record(),
                    }
                }
                10..=12 => {
                    return Call::Put {
                        record: self.held_record(),
                    }
                }
                13 => {
                    let record = self.free_record();
                    self.planned.push_back(Call::Put { record });
                    self.plan_capture();
                }
                14..=15 => return Call::Reset,
                16..=17 => return self.picture(),
                18..=30 => return self.image(),
                31..=57 => return Call::Inspect,
                58..=61 => return self.choose(),
                62..=65 => self.plan_photo(),
                66..=70 => {
                    return Call::Export {
                        room: room_for(GREY_FILE_BYTES, self.random),
                    }
                }
                71..=80 => return self.record(),
                81..=85 => self.plan_placing(),
                94..=95 => self.plan_salvage(),
                96..=101 => self.plan_save(),
                86..=88 => {
                    return Call::Shades {
                        room: room_for(PIXELS, self.random),
                    }
                }
                89..=93 => {
                    return Call::Readings {
                        room: room_for(GREY_FILE_BYTES, self.random),
                    }
                }
                102..=104 => return self.judge(),
                105..=140 => self.plan_steps(),
                141..=480 => {
                    return Call::Read {
                        address: self.address(),
                    }
                }
                481..=1_180 => return self.write(),
                _ => return self.tick(),
            }
        }
        self.planned.pop_front().unwrap_or(Call::Inspect)
    }

    /// Lends everything in its right size again and resets.
    fn plan_repair(&mut self) {
        let Beginning {
            rom_banks,
            ram_banks,
            ..
        } = self.beginning;
        for (what, length) in [
            (Lent::Rom, rom_banks * 16_384),
            (Lent::Ram, ram_banks * 8_192),
            (Lent::Store, 16_384),
            (Lent::Image, 16_384),
        ] {
            self.planned.push_back(Call::Lend { what, length });
        }
        let record = Box::new(State::RESET.to_bytes());
        self.planned.push_back(Call::Put { record });
    }

    /// Writes registers and a start over the bus.
    fn plan_capture(&mut self) {
        let registers = self.registers();
        let image = self.image();
        self.planned.push_back(image);
        self.planned.push_back(Call::Write {
            address: 0x4000,
            value: 0x10,
        });
        self.planned.push_back(Call::Write {
            address: 0xA000,
            value: 0,
        });
        for (address, value) in (0xA000..).zip(registers).skip(1) {
            self.planned.push_back(Call::Write { address, value });
        }
        self.planned.push_back(Call::Write {
            address: 0xA000,
            value: registers[0],
        });
    }

    /// Lends a file, which may be none that can be read, and reads it into the image.
    fn plan_photo(&mut self) {
        let seed = self.random.next() >> 40;
        self.planned.push_back(Call::Photo { seed });
        self.planned.push_back(Call::Import);
    }

    /// Lends a file, which may be none that can be placed, or keeps the area for later; the file lent is
    /// placed, as captures leave it or after what runs has ended.
    fn plan_placing(&mut self) {
        match self.random.below(4) {
            0 => {}
            1 => self.planned.push_back(Call::Keep),
            _ => {
                let seed = self.random.next() >> 40;
                self.planned.push_back(Call::Plate { seed });
            }
        }
        if self.random.once_in(2) {
            for (address, value) in [(0x4000, 0x10), (0xA000, 1)] {
                self.planned.push_back(Call::Write { address, value });
            }
            let cycles = u32::MAX;
            self.planned.push_back(Call::Tick { cycles });
        }
        self.planned.push_back(Call::Place);
    }

    /// Saves, or keeps the save for later, which may be damaged, or goes on from what was kept.
    fn plan_save(&mut self) {
        let seed = self.random.next() >> 40;
        let length = SAVE_BYTES + self.pair.second.ram.len();
        match self.random.below(6) {
            0 => self.planned.push_back(Call::Save {
                room: room_for(length, self.random),
            }),
            1 | 2 => self.planned.push_back(Call::KeepSave),
            3 => {
                self.planned.push_back(Call::Damage { seed });
                self.planned.push_back(Call::Restore);
            }
            4 => {
                // back to a moment that was kept some calls ago
                self.planned.push_back(Call::KeepSave);
                for _ in 0..self.random.below(20) {
                    let call = if self.random.once_in(2) {
                        self.write()
                    } else {
                        self.tick()
                    };
                    self.planned.push_back(call);
                }
                self.planned.push_back(Call::Restore);
            }
            _ => self.planned.push_back(Call::Restore),
        }
    }

    /// Lends a file, which may be a script, and salvages it.
    fn plan_salvage(&mut self) {
        let seed = self.random.next() >> 40;
        let most = self.random.pick(&[200, 2_000, 33_000]);
        self.planned.push_back(Call::Script { seed });
        self.planned.push_back(Call::Salvage {
            room: room_for(most, self.random),
            report: room_for(most, self.random),
        });
    }

    /// Registers that start a capture, with exposures at which pixels differ more often than not.
    fn registers(&mut self) -> [u8; 54] {
        let random = &mut *self.random;
        let mut registers = [0; 54];
        random.fill(&mut registers);
        registers[0] = registers[0] & 6 | 1;
        match random.below(8) {
            0 => {}
            1 => registers[2] = 0,
            2 => registers[2..4].fill(0),
            3 => registers[2..4].fill(0xFF),
            _ => registers[2] = random.below(4) as u8,
        }
        match random.below(4) {
            0 => {}
            1 => registers[6..]
                .chunks_exact_mut(3)
                .for_each(|element| element.sort()),
            2 => registers[6..].fill(random.byte()),
            _ => {
                for element in registers[6..].chunks_exact_mut(3) {
                    let least = 0x40 + random.below(0x60) as u8;
                    element.copy_from_slice(&[least, least + 0x10, least + 0x20]);
                }
            }
        }
        registers
    }

    fn image(&mut self) -> Call {
        Call::Image {
            kind: self.random.byte() % 5,
            seed: self.random.next() >> 40,
        }
    }

    fn picture(&mut self) -> Call {
        let of = self.random.pick(&[Lent::Image, Lent::Store]);
        let registers = match self.state() {
            Some(state) if self.random.once_in(3) => state.taken,
            Some(state) if self.random.once_in(2) => state.registers,
            _ => self.registers(),
        };
        Call::Picture {
            of,
            registers: Box::new(registers),
        }
    }

    /// A choice, which may be none.
    fn choose(&mut self) -> Call {
        Call::Choose {
            light: self.random.below(3) as u8,
            level: self.random.below(17) as u8,
            plain: self.random.pick(&[0, 0, 1, 255]),
            exposure: self.random.pick(&EXPOSURES),
        }
    }

    /// A frame as a line, in a buffer that it may not fit.
    fn record(&mut self) -> Call {
        let kind = self.random.below(5) as u8;
        Call::Record {
            frame: lines::frame(self.random, kind),
            room: self.random.below(lines::MOST_ROOM as u32 + 1) as usize,
        }
    }

    /// A plate beside a frame: the picture area, the picture of a frame, or bytes of which no picture is made, with rows
    /// that are others' now and then.
    fn judge(&mut self) -> Call {
        let of = self.random.pick(&[Lent::Image, Lent::Image, Lent::Store]);
        let registers = match self.state() {
            Some(state) if self.random.once_in(2) => state.taken,
            _ => self.registers(),
        };
        let side = &self.pair.second;
        let frame = match of {
            Lent::Image => &side.image,
            _ => &side.store,
        };
        let mut plate = second::picture(frame, &registers).unwrap_or([0; PLATE_BYTES]);
        let area = side.ram.get(PLATE_OFFSET..PLATE_OFFSET + PLATE_BYTES);
        match (self.random.below(4), area) {
            (0, Some(area)) => plate.copy_from_slice(area),
            (1, Some(area)) => {
                let from = self.random.below(PLATE_BYTES as u32) as usize;
                plate[from..].copy_from_slice(&area[from..]);
            }
            (2, _) => {
                for _ in 0..self.random.below(20) {
                    plate[self.random.below(PLATE_BYTES as u32) as usize] = self.random.byte();
                }
            }
            _ => {}
        }
        Call::Judge {
            of,
            plate: Box::new(plate),
            registers: Box::new(registers),
            room: room_for(112, self.random),
        }
    }

    /// Script lines carried out, some of them broken, their answers in buffers that may be too short.
    fn plan_steps(&mut self) {
        for mut line in frames(self.random) {
            if self.random.once_in(8) {
                spoil(self.random, &mut line);
            }
            let room = match self.random.below(30) {
                0 => self.random.below(11) as usize,
                1 => 11 + self.random.below(300) as usize,
                _ => 11,
            };
            self.planned.push_back(Call::Step {
                line: line.into(),
                room,
            });
        }
    }

    fn lend_badly(&mut self) -> Call {
        let what = self
            .random
            .pick(&[Lent::Rom, Lent::Ram, Lent::Store, Lent::Image]);
        let length = match what {
            Lent::Rom => self
                .random
                .pick(&[0, 1, 8_192, 16_383, 16_385, 49_152, 24_576]),
            Lent::Ram => self
                .random
                .pick(&[0, 1, 4_096, 8_191, 8_193, 24_576, 12_288]),
            _ => self.random.pick(&[0, 1, 8_192, 16_383, 16_385, 32_768]),
        };
        Call::Lend { what, length }
    }

    /// A record of a held capture, running or not, close to one of its edges.
    fn held_record(&mut self) -> Box<[u8]> {
        let taken = self.registers();
        let mut registers = self.registers();
        registers[0] = self.random.byte() & 7;
        let edges = edges(&taken);
        let edge = self.random.pick(&edges);
        let total = Timing::of(&taken).total();
        let state = State {
            ram_enabled: self.random.once_in(2),
            rom_bank: self.random.byte() & 63,
            ram_select: self.random.byte() & 31,
            held: true,
            elapsed: (edge + self.random.below(7))
                .saturating_sub(3)
                .min(total - 1),
            registers,
            taken,
            started: self.count(),
            ended: self.count(),
        };
        Box::new(state.to_bytes())
    }

    /// A count of captures, close to its wrapping more often than not.
    fn count(&mut self) -> u16 {
        match self.random.below(3) {
            0 => self.random.next() as u16,
            _ => self.random.pick(&[0, 1, 0xFF, 0x100, 0xFFFE, 0xFFFF]),
        }
    }

    /// A record of no capture, with any counts.
    fn free_record(&mut self) -> Box<[u8]> {
        let mut state = State {
            registers: self.registers(),
            ram_select: 0x10,
            started: self.count(),
            ended: self.count(),
            ..State::RESET
        };
        state.registers[0] &= 6;
        Box::new(state.to_bytes())
    }

    /// A record that can't exist, or bytes that are none.
    fn broken_record(&mut self) -> Box<[u8]> {
        let mut record = if self.random.once_in(2) {
            self.held_record()
        } else {
            self.free_record()
        };
        let random = &mut *self.random;
        let held = record[4] == 1;
        match random.below(if held { 10 } else { 11 }) {
            0 => record[2] = 64 + random.below(192) as u8,
            1 => record[3] = 32 + random.below(224) as u8,
            2 => record[13] = 8 + random.below(248) as u8,
            3 => record[1] = 2 + random.below(254) as u8,
            4 => record[4] = 2 + random.below(254) as u8,
            5 => {
                let length = random.pick(&[0, 1, 67, 115, 116, 120]);
                return record[..length].into();
            }
            6 => return [&record[..], &[0]].concat().into(),
            7 => {
                let later = 4 + random.below(252) as u8;
                record[0] = random.pick(&[0, 1, 2, later]);
            }
            8 => return first_layout(&record).into(),
            9 if held => match random.below(3) {
                0 => record[67] &= 6,
                1 => record[67] |= 8 << random.below(5),
                _ => {
                    let mut taken = [0; 54];
                    taken.copy_from_slice(&record[67..]);
                    let late = Timing::of(&taken).total() + random.pick(&[0, 1, 2, 1 << 31]);
                    record[5..9].copy_from_slice(&late.to_le_bytes());
                }
            },
            9 => record[13] |= 1,
            _ if random.once_in(2) => record[5 + random.below(4) as usize] = 1,
            _ => record[67 + random.below(54) as usize] = 1 << random.below(8),
        }
        record
    }

    fn address(&mut self) -> u16 {
        match self.random.below(10) {
            0 => self.random.next() as u16,
            1 => self.random.pick(&EDGES),
            2 => self.random.below(0x8000) as u16,
            3..=5 => 0xA000 + self.random.below(0x2000) as u16,
            6 => 0xA000 + 0x80 * self.random.below(64) as u16,
            _ => 0xA100 + self.random.below(0xE00) as u16,
        }
    }

    fn write(&mut self) -> Call {
        let random = &mut *self.random;
        let low = random.below(0x2000) as u16;
        let (address, value) = match random.below(20) {
            0 => (low, random.pick(&[0x0A, 0x0A, 0x00, 0x0B, 0xFA])),
            1 => (0x2000 + low, random.byte()),
            2 => (0x4000 + low, 0x10 | random.byte() & 0xF0),
            3 => (0x4000 + low, random.byte()),
            4 => (0x6000 + low, random.byte()),
            5..=7 => (
                0xA000 + 0x80 * (low % 64),
                random.byte() | u8::from(random.once_in(2)),
            ),
            8..=12 => (0xA000 + low % 0x60, random.byte()),
            13..=14 => (0xA000 + low, random.byte()),
            _ => {
                return Call::Write {
                    address: self.address(),
                    value: self.random.byte(),
                }
            }
        };
        Call::Write { address, value }
    }

    fn tick(&mut self) -> Call {
        let state = self.state().filter(|state| state.held && state.can_exist());
        let random = &mut *self.random;
        let cycles = match random.below(100) {
            0..=59 => random.below(10),
            60..=84 => random.below(600),
            85..=97 => match state {
                Some(state) => {
                    let ahead = edges(&state.taken)
                        .into_iter()
                        .find(|&e| e > state.elapsed + 2);
                    let edge = ahead.unwrap_or(Timing::of(&state.taken).total());
                    (edge - state.elapsed + random.below(3)).saturating_sub(1)
                }
                None => random.next() as u32,
            },
            98 => random.below(40_000),
            _ => random.pick(&[u32::MAX, u32::MAX - 1, 1 << 31, 1_081_518, 1_081_517]),
        };
        Call::Tick { cycles }
    }
}

/// The cycles at which something new happens in a capture, rising.
fn edges(taken: &[u8; 54]) -> [u32; 9] {
    let timing = Timing::of(taken);
    let reading = 2 * timing.reading_starts();
    let first_row = u32::from(taken[1] >> 7);
    // Pixel k is written when elapsed reaches twice the reading's start + k + 1.
    let written = |row: u32, x: u32| reading + 2 * (128 * (row - first_row) + x + 1);
    [
        reading,
        written(1, 0),
        written(8, 0),
        written(8, 127),
        written(64, 5),
        written(119, 127),
        written(120, 0),
        written(126, 127),
        timing.total(),
    ]
}
