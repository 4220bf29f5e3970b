//! A worker of a job: random calls on a recorded cartridge, the same ones in every language for the
//! same seed.
//!
//! usage: session SAVE OUT SEED STEPS [plate]; session.mjs has what the words mean

use gulxinett::{
    write_whole, Cartridge, Choice, Refusal, FRAME_BYTES, PICTURE_BYTES, PLATE_BYTES, REGISTERS,
};
use std::error::Error;
use std::fs;
use std::path::Path;
use std::process::ExitCode;

const TRIGGER: u16 = 0xA000;
const AREA: u16 = 0xA100;
const PLATE_HEADER: &[u8] = b"P5\n128 112\n255\n";
/// A choice amounts to select, 2 registers of the exposure, 48 of the matrix, and select.
const CHOICE_WRITES: usize = 52;
/// A placing amounts to RAM writing, select, the bytes of the area, select, and RAM writing.
const PLACE_WRITES: usize = 3588;

struct Session {
    cartridge: Cartridge,
    state: u32,
    image: Vec<u8>,
    answers: Vec<String>,
}

impl Session {
    fn new(mut cartridge: Cartridge, seed: u32) -> Self {
        cartridge.record();
        Session {
            cartridge,
            state: seed,
            image: vec![0; FRAME_BYTES],
            answers: Vec::new(),
        }
    }

    /// A number below a limit.
    fn below(&mut self, limit: u32) -> u32 {
        let next = self.state.wrapping_mul(1_664_525);
        self.state = next.wrapping_add(1_013_904_223);
        ((u64::from(self.state >> 8) * u64::from(limit)) >> 24) as u32
    }

    /// Notes what `bus` would answer.
    fn note(&mut self, answer: Result<String, Refusal>) {
        self.answers.push(match answer {
            Ok(value) => format!("00{value}"),
            Err(refusal) => format!("{:02X}", refusal.number()),
        });
    }

    fn read(&mut self, address: u16) {
        let answer = self.cartridge.read(address);
        self.note(answer.map(|byte| format!("{byte:02X}")));
    }

    fn write(&mut self, address: u16, value: u8) {
        let answer = self.cartridge.write(address, value);
        self.note(answer.map(|()| String::new()));
    }

    fn tick(&mut self, cycles: u32) {
        let answer = self.cartridge.tick(cycles);
        self.note(answer.map(|running| format!("{running:08X}")));
    }

    fn reset(&mut self) {
        self.cartridge.reset();
        self.note(Ok(String::new()));
    }

    fn step(&mut self) {
        match self.below(100) {
            0 => self.reset(),
            1..=4 => self.lend(),
            5..=7 => self.capture(),
            8..=9 => self.choose(),
            10..=39 => {
                let address = self.address();
                self.read(address);
            }
            40..=54 => {
                let address = self.address();
                let value = self.below(256) as u8;
                self.write(address, value);
            }
            55..=59 => {
                let value = [0, 0x0A][self.below(2) as usize];
                self.write(0, value);
            }
            60..=64 => {
                let value = [0, 0x10][self.below(2) as usize];
                self.write(0x4000, value);
            }
            65..=69 => {
                let value = self.below(8) as u8;
                self.write(TRIGGER, value);
            }
            70..=94 => {
                let cycles = self.cycles();
                self.tick(cycles);
            }
            95..=98 => self.look(),
            _ => self.place(),
        }
    }

    fn address(&mut self) -> u16 {
        match self.below(4) {
            0 => self.below(65_536) as u16,
            1 => TRIGGER + self.below(128) as u16,
            _ => AREA + self.below(PICTURE_BYTES as u32) as u16,
        }
    }

    fn cycles(&mut self) -> u32 {
        if self.below(4) > 0 {
            return self.below(20_000);
        }
        let high = self.below(65_536);
        high << 16 | self.below(65_536)
    }

    /// The same image again, one with a few other rows, or quite another.
    fn lend(&mut self) {
        let kind = self.below(3);
        let (light, slope) = (self.below(256) as usize, self.below(256) as usize);
        let rows = match kind {
            0 => 0,
            1 => 1 + self.below(5) as usize,
            _ => 128,
        };
        let first = self.below(129 - rows as u32) as usize;
        for place in 128 * first..128 * (first + rows) {
            self.image[place] = (light + slope * place + 7 * (place >> 7)) as u8;
        }
        let lent = self.cartridge.lend(&self.image);
        lent.expect("an image of this size is lent");
    }

    /// Stops what runs, writes the registers, and starts.
    fn capture(&mut self) {
        self.write(0x4000, 0x10);
        self.write(TRIGGER, 0);
        for number in (1..REGISTERS as u16).rev() {
            let value = self.below(if number == 2 { 4 } else { 256 }) as u8;
            self.write(TRIGGER + number, value);
        }
        let kind = self.below(4) as u8;
        self.write(TRIGGER, 1 + 2 * kind);
    }

    /// A choice, which may be none: it has no line of its own, and one that is refused has none at
    /// all.
    fn choose(&mut self) {
        let choice = Choice {
            light: self.below(3) as u8,
            level: self.below(17) as u8,
            dithering: self.below(2) == 0,
            exposure: match self.below(3) {
                0 => None,
                _ => Some(self.below(65_536) as u16),
            },
        };
        match self.cartridge.choose(choice) {
            Ok(()) => (0..CHOICE_WRITES).for_each(|_| self.note(Ok(String::new()))),
            Err(refusal) => assert_eq!(refusal, Refusal::Choice),
        }
    }

    /// A plate, which may be none, placed: like a choice it has no line of its own.
    fn place(&mut self) {
        let (light, slope) = (self.below(256) as usize, self.below(256) as usize);
        let strange = self.below(4) == 0;
        let shade = |place: usize| (light + slope * place + 7 * (place >> 7)) >> 6 & 3;
        let mut file = PLATE_HEADER.to_vec();
        let pixels = PLATE_BYTES - file.len();
        file.extend((0..pixels).map(|place| [255, 170, 85, 0][shade(place)]));
        if strange {
            file[PLATE_HEADER.len() + self.below(pixels as u32) as usize] = 1;
        }
        match self.cartridge.place(&file) {
            Ok(()) => (0..PLACE_WRITES).for_each(|_| self.note(Ok(String::new()))),
            Err(refusal) => assert!([Refusal::File, Refusal::Held].contains(&refusal)),
        }
    }

    /// What only looks is no call of a script.
    fn look(&self) {
        let picture = self.cartridge.picture();
        picture.expect("the image lent has a picture");
        let element = self.cartridge.inspect();
        element.expect("the state can exist");
        self.cartridge.area();
        self.cartridge.plate();
        self.cartridge.shades();
        self.cartridge.save();
        let readings = self.cartridge.readings();
        assert!(readings.is_ok() || readings == Err(Refusal::NotHeld));
    }

    /// Stops what runs and reads the plate by calls.
    fn read_out(&mut self) {
        self.write(0x4000, 0x10);
        self.write(TRIGGER, 0);
        self.write(0x4000, 0);
        let before = self.answers.len();
        for place in 0..PICTURE_BYTES as u16 {
            self.read(AREA + place);
        }
        let area = self.cartridge.area().iter();
        let area: Vec<String> = area.map(|byte| format!("00{byte:02X}")).collect();
        assert!(
            self.answers[before..] == area,
            "the bytes read are the plate"
        );
    }
}

fn main() -> ExitCode {
    let words: Vec<String> = std::env::args().skip(1).collect();
    let outcome = match &words[..] {
        [save, out, seed, steps] => work(save, out, seed, steps, false),
        [save, out, seed, steps, _] => work(save, out, seed, steps, true),
        _ => {
            eprintln!("usage: session SAVE OUT SEED STEPS [plate]");
            return ExitCode::from(2);
        }
    };
    match outcome {
        Ok(()) => ExitCode::SUCCESS,
        Err(error) => {
            eprintln!("session: {error}");
            ExitCode::FAILURE
        }
    }
}

/// Does what the words ask for.
fn work(save: &str, out: &str, seed: &str, steps: &str, plate: bool) -> Result<(), Box<dyn Error>> {
    let save = Path::new(save);
    let cartridge = if save.exists() {
        Cartridge::restore(&fs::read(save)?)?
    } else {
        Cartridge::default()
    };
    let mut session = Session::new(cartridge, seed.parse()?);
    for _ in 0..steps.parse::<u32>()? {
        session.step();
    }
    if plate {
        session.read_out();
    }
    write_whole(save, &session.cartridge.save())?;
    fs::write(format!("{out}.script"), session.cartridge.recording())?;
    let answers = session.answers.iter().map(|answer| format!("{answer}\n"));
    fs::write(format!("{out}.answers"), answers.collect::<String>())?;
    Ok(())
}
