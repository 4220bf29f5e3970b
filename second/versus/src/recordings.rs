//! Random recordings audited by two programs.

use crate::random::Random;
use crate::script::{agreed, spoil, Script};
use std::collections::BTreeMap;
use std::path::PathBuf;
use std::time::Instant;
use std::{env, fs, io, process};

/// Bytes of a bank of RAM.
const BANK: usize = 8_192;
/// The word of a program's arguments that stands for the name of a battery save.
const SAVE: &str = "SAVE";
/// Offsets beside a border of the picture area or of a bank.
const BORDERS: [u16; 10] = [
    0x0000, 0x0001, 0x00FE, 0x00FF, 0x0100, 0x0EFE, 0x0EFF, 0x0F00, 0x1FFE, 0x1FFF,
];

/// Feeds recordings to both programs; true if they print the same, byte for byte, and end alike.
pub fn compare(a: &str, b: &str, recordings: u64, seed: u64) -> bool {
    let start = Instant::now();
    let mut random = Random::new(seed);
    let (mut lines, mut events) = (0, BTreeMap::new());
    for number in 0..recordings {
        let recording = recording(&mut random, number);
        lines += recording.lines.len();
        let save = match Save::random(&mut random) {
            Ok(save) => save,
            Err(error) => {
                println!("a battery save can't be written: {error}");
                return false;
            }
        };
        let [a, b] = [a, b].map(|program| program.replace(SAVE, &save.0.to_string_lossy()));
        match agreed(&a, &b, recording) {
            Some(printed) => count(&mut events, &printed),
            None => return false,
        }
    }
    let events: Vec<String> = events
        .into_iter()
        .map(|(event, count)| format!("{count} {event}"))
        .collect();
    println!(
        "seed {seed}: {recordings} recordings of {lines} lines, 0 differences, {:.1} s; {}",
        start.elapsed().as_secs_f64(),
        events.join(", ")
    );
    true
}

/// Counts the events that were printed, writes by their area and ends by their verdict.
fn count(events: &mut BTreeMap<String, u64>, printed: &[u8]) {
    for line in String::from_utf8_lossy(printed).lines() {
        let words: Vec<&str> = line.split(' ').collect();
        let after = |key| {
            let place = words.iter().position(|&word| word == key)?;
            words.get(place + 1).copied()
        };
        let event = after("event").unwrap_or("without a name");
        let more = after("verdict").or(after("area"));
        let event = more.map_or(event.into(), |more| format!("{event} {more}"));
        *events.entry(event).or_insert(0) += 1;
    }
}

/// A file that is lent as a battery save, and removed when it is no longer needed.
struct Save(PathBuf);

impl Save {
    /// A save of any number of banks.
    fn random(random: &mut Random) -> io::Result<Save> {
        let length = BANK * random.pick(&[1, 1, 2, 4, 8, 16]);
        let mut bytes = vec![random.pick(&[0, 0xFF]); length];
        if random.once_in(2) {
            random.fill(&mut bytes);
        }
        let path = env::temp_dir().join(format!("versus-{}.sav", process::id()));
        let save = Save(path);
        fs::write(&save.0, bytes)?;
        Ok(save)
    }
}

impl Drop for Save {
    fn drop(&mut self) {
        // Nothing is lost if it stays.
        let _ = fs::remove_file(&self.0);
    }
}

/// A recording, of one worker or of a few, one after the other.
fn recording(random: &mut Random, number: u64) -> Script {
    // Some are all valid, some damaged now and then, some mostly so.
    let damage = [0, 60, 8][(number % 3) as usize];
    let mut lines = Vec::new();
    for _ in 0..random.pick(&[1, 1, 1, 2, 3]) {
        worker(random, damage, &mut lines);
    }
    let whole = Script {
        lines,
        ended: !random.once_in(3),
    };
    if random.once_in(3) {
        cut(random, &whole)
    } else {
        whole
    }
}

/// What one worker recorded.
fn worker(random: &mut Random, damage: u32, lines: &mut Vec<Vec<u8>>) {
    for _ in 0..random.pick(&[0, 1, 2, 5, 30, 200, 600]) {
        for line in part(random) {
            let mut line = line.into_bytes();
            if damage > 0 && random.once_in(damage) {
                spoil(random, &mut line);
            }
            lines.push(line);
        }
    }
}

/// A recording cut at any byte.
fn cut(random: &mut Random, whole: &Script) -> Script {
    let bytes = whole.bytes();
    let kept = &bytes[..random.below(bytes.len() as u32 + 1) as usize];
    let ended = kept.ends_with(b"\n");
    let text = if ended { &kept[..kept.len() - 1] } else { kept };
    let mut lines: Vec<Vec<u8>> = text.split(|&byte| byte == b'\n').map(Vec::from).collect();
    if kept.is_empty() {
        lines.clear();
    }
    Script { lines, ended }
}

/// A few lines that belong together.
fn part(random: &mut Random) -> Vec<String> {
    match random.below(40) {
        0 => vec!["00".into()],
        1..=2 => setting(random),
        3..=7 => trigger(random, 1),
        8..=10 => trigger(random, 0),
        11..=18 => vec![tick(random)],
        19..=22 => rows(random),
        23..=31 => touch(random),
        32..=33 => vec![format!(
            "020000{:02X}",
            random.pick(&[0x0A, 0x0A, 0x0A, 0, 0x33])
        )],
        34 => vec![format!("024000{:02X}", random.byte())],
        35..=36 => vec![format!("01{:04X}", random.next() as u16)],
        37 => vec![format!(
            "02{:04X}{:02X}",
            random.next() as u16,
            random.byte()
        )],
        // Whatever it is, it is refused.
        38 => vec![format!(
            "01{:04X}",
            random.pick(&[0x8000_u32, 0x9FFF, 0xC000, 0xFFFF])
        )],
        _ => vec![format!("02{:04X}0A", 0xC000 + random.below(0x4000))],
    }
}

/// All registers but the first, with a short exposure most times.
fn setting(random: &mut Random) -> Vec<String> {
    let mut lines = vec!["02400010".into()];
    for register in 1..54 {
        let value = match register {
            2 => random.pick(&[0, 0, 0, 1, 3]),
            _ => random.byte(),
        };
        lines.push(format!("02A0{register:02X}{value:02X}"));
    }
    lines
}

/// Register 0 written with bit 0 as given, at any of its mirrors.
fn trigger(random: &mut Random, bit: u8) -> Vec<String> {
    let address = 0xA000
        + 0x80
            * if random.once_in(4) {
                random.below(64)
            } else {
                0
            };
    let value = random.byte() & 0xFE | bit;
    vec![
        format!("024000{:02X}", 0x10 | random.below(16)),
        format!("02{address:04X}{value:02X}"),
    ]
}

/// A tick of few cycles, of many, or of enough for any capture to end.
fn tick(random: &mut Random) -> String {
    let cycles = match random.below(6) {
        0 => random.below(3),
        1 => random.below(300),
        2..=3 => random.below(40_000),
        4 => 1_081_518,
        _ => random.next() as u32,
    };
    format!("03{cycles:08X}")
}

/// A row or two; some are none.
fn rows(random: &mut Random) -> Vec<String> {
    (0..=random.below(2))
        .map(|_| {
            let row = random.byte() & if random.once_in(8) { 0xFF } else { 0x7F };
            let pixels: String = (0..128).map(|_| format!("{:02X}", random.byte())).collect();
            format!("04{row:02X}{pixels}")
        })
        .collect()
}

/// A capture stopped, some bytes of the RAM written, and the capture resumed, with any step left out at times.
fn touch(random: &mut Random) -> Vec<String> {
    let mut lines = Vec::new();
    if !random.once_in(4) {
        lines.extend(trigger(random, 0));
    }
    if !random.once_in(4) {
        lines.push("0200000A".into());
    }
    let bank = random.pick(&[0, 0, 0, 1, 2, 15]) | if random.once_in(9) { 0x10 } else { 0 };
    lines.push(format!("024000{bank:02X}"));
    let first = match random.below(3) {
        0 => random.pick(&BORDERS),
        1 => 0x100 + random.below(0xE00) as u16,
        _ => random.below(0x2000) as u16,
    };
    for place in 0..random.pick(&[1, 1, 2, 3, 6]) {
        let offset = (first + place) % 0x2000;
        let byte = if random.once_in(2) {
            random.byte()
        } else {
            0xFF
        };
        lines.push(format!("02{:04X}{byte:02X}", 0xA000 + offset));
    }
    if random.once_in(2) {
        lines.extend(trigger(random, 1));
    }
    lines
}
