//! The proved archive beside the second program, in the same run; mGBA and the browser module too.
//!
//! `bench [--quick] [--save FILE] [--compare FILE] [--mgba PROGRAM] [--browser PROGRAM] [--zlib PROGRAM]
//! [--audit PROGRAM] PROVED SECOND`: PROVED and SECOND are the two script programs, --audit names the proved one that
//! audits, and every program is named with its arguments in one word of the shell. The proved controller is called by its C functions, which take the state as bytes;
//! the second program's functions are called as they are.
//!
//! The modules from the bottom up, each of which uses only those named before it:
//! machines, timing, outside, table, saves, script, written.

#![forbid(unsafe_code)]

mod machines;
mod outside;
mod saves;
mod script;
mod table;
mod timing;
mod written;

use machines::{Archive, Direct, Machine, TRIGGER};
use outside::Outside;
use std::hint::black_box;
use std::io;
use std::process::ExitCode;
use table::Table;
use timing::{here, race, Effort};

/// What is done to a machine so many times.
type Action = fn(&mut dyn Machine, u32);

/// The modes with a filter of their own, and the plain one.
const MODES: [u8; 7] = [0x0, 0x2, 0x3, 0xC, 0xD, 0xE, 0xF];

fn main() -> ExitCode {
    let Some(words) = Words::new(std::env::args().skip(1)) else {
        eprintln!(
            "usage: bench [--quick] [--save FILE] [--compare FILE] [--mgba PROGRAM] \
             [--browser PROGRAM] [--zlib PROGRAM] [--audit PROGRAM] PROVED SECOND"
        );
        return ExitCode::from(2);
    };
    match words.bench() {
        Ok(()) => ExitCode::SUCCESS,
        Err(error) => {
            eprintln!("bench: {error}");
            ExitCode::FAILURE
        }
    }
}

/// What the command asks for.
struct Words {
    effort: Effort,
    save: Option<String>,
    compare: Option<String>,
    mgba: Option<String>,
    browser: Option<String>,
    zlib: Option<String>,
    audit: Option<String>,
    programs: [String; 2],
}

impl Words {
    fn new(mut words: impl Iterator<Item = String>) -> Option<Self> {
        let mut effort = Effort::FULL;
        let [mut save, mut compare, mut mgba, mut browser, mut zlib, mut audit] =
            [const { None }; 6];
        let mut programs = Vec::new();
        while let Some(word) = words.next() {
            match word.as_str() {
                "--quick" => effort = Effort::QUICK,
                "--save" => save = Some(words.next()?),
                "--compare" => compare = Some(words.next()?),
                "--mgba" => mgba = Some(words.next()?),
                "--browser" => browser = Some(words.next()?),
                "--zlib" => zlib = Some(words.next()?),
                "--audit" => audit = Some(words.next()?),
                word if word.starts_with("--") => return None,
                _ => programs.push(word),
            }
        }
        Some(Words {
            effort,
            save,
            compare,
            mgba,
            browser,
            zlib,
            audit,
            programs: programs.try_into().ok()?,
        })
    }

    /// Times everything, then saves and compares as asked.
    fn bench(&self) -> io::Result<()> {
        let started = |program: &Option<String>| program.as_deref().map(Outside::new).transpose();
        let mut bench = Bench {
            effort: self.effort,
            table: Table::new(),
            mgba: started(&self.mgba)?,
            browser: started(&self.browser)?,
        };
        bench.captures()?;
        bench.calls();
        written::measure(self.effort, &mut bench.table);
        saves::measure(self.effort, &mut bench.table, &mut started(&self.zlib)?)?;
        let [proved, second] = &self.programs;
        let audit = self.audit.as_deref();
        script::compare([proved, second], audit, self.effort, &mut bench.table)?;
        println!(
            "best of {} rounds; of the ratios by rounds the quartiles",
            self.effort.rounds
        );
        if let Some(path) = &self.compare {
            bench.table.compare(path)?;
        }
        self.save
            .as_ref()
            .map_or(Ok(()), |path| bench.table.save(path))
    }
}

struct Bench {
    effort: Effort,
    table: Table,
    mgba: Option<Outside>,
    browser: Option<Outside>,
}

impl Bench {
    /// Whole captures with their starts, of two images, and the start alone.
    fn captures(&mut self) -> io::Result<()> {
        for (name, image) in [("smooth", smooth()), ("noisy", noisy())] {
            for mode in MODES {
                let outsiders = [&mut self.mgba, &mut self.browser].into_iter().flatten();
                for outside in outsiders {
                    outside.show(mode, &image)?;
                }
                self.measure(
                    &format!("capture, mode {mode:X}, {name}"),
                    mode,
                    &image,
                    capture,
                    true,
                );
            }
        }
        let noise = noisy();
        for mode in [0x0, 0x2, 0xE] {
            let what = format!("capture by 4 cycles, mode {mode:X}");
            self.measure(&what, mode, &noise, capture_by_fours, false);
        }
        self.measure(
            "start alone",
            0xE,
            &noise,
            |machine, runs| repeat(runs, |_| machine.start_again()),
            false,
        );
        Ok(())
    }

    /// Calls that do little.
    fn calls(&mut self) {
        let image = smooth();
        let mut measure = |what: &str, action: Action| self.measure(what, 0, &image, action, false);
        measure("idle tick of 1", |machine, runs| {
            repeat(runs, |_| machine.tick(black_box(1)))
        });
        measure("idle tick of 2^32 - 1", |machine, runs| {
            repeat(runs, |_| machine.tick(black_box(u32::MAX)))
        });
        measure("read of RAM", |machine, runs| {
            machine.write(0x4000, 0);
            repeat(runs, |run| machine.read(0xA000 + run as u16 % 0x2000))
        });
        measure("write to RAM", |machine, runs| {
            machine.write(0x4000, 0);
            machine.write(0x0000, 0x0A);
            repeat(runs, |run| {
                machine.write(0xA000 + run as u16 % 0x2000, run as u8)
            })
        });
        measure("choice of a level", |machine, runs| {
            repeat(runs, |run| machine.choose(run as u8 % 16))
        });
    }

    /// Times an action on both machines, and captures on those outside if they are asked too.
    fn measure(&mut self, what: &str, mode: u8, image: &[u8], action: Action, outside: bool) {
        let (mut archive, mut direct) = (Archive::new(image), Direct::new(image));
        prepare(&mut archive, mode);
        prepare(&mut direct, mode);
        let mut all = vec![
            here(|runs| action(&mut archive, runs)),
            here(|runs| action(&mut direct, runs)),
        ];
        let mut asked = [false; 2];
        if outside {
            asked = [self.mgba.is_some(), self.browser.is_some()];
            let outsiders = [&mut self.mgba, &mut self.browser].into_iter().flatten();
            all.extend(outsiders.map(Outside::timed));
        }
        let times = race(self.effort, &mut all);
        drop(all);
        let mut others = times[2..].iter();
        let [mgba, browser] = asked.map(|asked| asked.then(|| others.next()).flatten());
        self.table.add(what, &times[0], &times[1], mgba, browser);
    }
}

/// Runs something so many times and keeps the compiler from leaving it out.
fn repeat<T>(runs: u32, mut run: impl FnMut(u32) -> T) {
    for number in 0..runs {
        black_box(run(number));
    }
}

/// A slope from one corner to the other.
fn smooth() -> Vec<u8> {
    (0..second::FRAME_BYTES)
        .map(|place| (place % 128 + place / 128) as u8)
        .collect()
}

/// No pixel says anything of the next.
fn noisy() -> Vec<u8> {
    let mut state = 1_u64;
    let mut light = || {
        state = state
            .wrapping_mul(6_364_136_223_846_793_005)
            .wrapping_add(1_442_695_040_888_963_407);
        (state >> 40) as u8
    };
    (0..second::FRAME_BYTES).map(|_| light()).collect()
}

/// Sets the registers of a mode, at 75 per cent and exposure 0100h, with a rising matrix.
fn prepare(machine: &mut dyn Machine, mode: u8) {
    machine.write(0x4000, 0x10);
    machine.write(TRIGGER + 1, mode >> 1 << 5);
    machine.write(TRIGGER + 2, 0x01);
    machine.write(TRIGGER + 4, mode << 7 | 0x10);
    for place in 0..48 {
        let value = 0x60 + 2 * (place / 3) + 0x18 * (place % 3);
        machine.write(TRIGGER + 6 + u16::from(place), value);
    }
}

fn capture(machine: &mut dyn Machine, runs: u32) {
    for _ in 0..runs {
        machine.write(TRIGGER, black_box(3));
        black_box(machine.tick(black_box(u32::MAX)));
    }
}

fn capture_by_fours(machine: &mut dyn Machine, runs: u32) {
    for _ in 0..runs {
        machine.write(TRIGGER, black_box(3));
        while machine.tick(black_box(4)) == 4 {}
    }
}
