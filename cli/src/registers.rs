//! Registers as people name them: 108 digits, or a choice of the desk.

use crate::failure::Failure;
use gulxinett::{choose, reset, Choice, REGISTERS};
use std::fmt;

/// How registers are named, for the help of each command that takes them.
pub const NAMED: &str = "\
Registers are 108 hexadecimal digits, registers 0 to 53 as 'audit' prints them, or a choice of the desk:
  set=0,level=7,dither=on,exposure=0100
set 0 is high light, 1 low light; level 0 the lowest contrast, 7 the default, 15 the highest; dither is on or
off; exposure up to four hexadecimal digits. What is left out is set=0, level=7, dither=on, exposure=1000. A
choice may name registers 0, 1, 4 and 5 too, each two hexadecimal digits: r1=E4,r4=27. Else register 0 is 03, as
the camera's own program starts a capture, and the other three are 00.
";

/// The registers that a choice leaves alone.
const OTHERS: [usize; 4] = [0, 1, 4, 5];
/// What they are where they are not named: a start as the camera's own program makes it, by 03, and what reset leaves.
const UNNAMED: [u8; 4] = [3, 0, 0, 0];

/// A choice of the desk, with the registers that it leaves alone.
#[derive(Clone, Copy, Debug, PartialEq, Eq)]
pub struct Chosen {
    choice: Choice,
    others: [u8; 4],
}

impl Chosen {
    /// The default level of a light set, dithered.
    const PLAINEST: Chosen = Chosen {
        choice: Choice {
            light: 0,
            level: 7,
            dithering: true,
            exposure: None,
        },
        others: UNNAMED,
    };

    /// The 54 registers, as the desk writes them.
    pub fn registers(&self) -> Result<[u8; REGISTERS], Failure> {
        let mut state = reset();
        choose(&mut state, self.choice).map_err(|refusal| {
            Failure::usage(format!(
                "{self}: {refusal}; sets are 0 and 1, levels 0 to 15"
            ))
        })?;
        for (number, value) in OTHERS.into_iter().zip(self.others) {
            state.registers[number] = value;
        }
        Ok(state.registers)
    }

    /// Takes a choice apart, words like `level=7` between commas.
    fn parse(text: &str) -> Result<Chosen, Failure> {
        let mut chosen = Chosen::PLAINEST;
        let mut named: Vec<&str> = Vec::new();
        for word in text.split(',') {
            let none = || Failure::usage(format!("'{word}' is no word of a choice, in '{text}'"));
            let (key, value) = word.split_once('=').ok_or_else(none)?;
            if named.contains(&key) {
                return Err(Failure::usage(format!("{key} is named twice in '{text}'")));
            }
            named.push(key);
            chosen.put(key, value).ok_or_else(none)?;
        }
        Ok(chosen)
    }

    /// Puts a word's value in its place, if it is one.
    fn put(&mut self, key: &str, value: &str) -> Option<()> {
        let choice = &mut self.choice;
        match key {
            "set" => choice.light = decimal(value)?,
            "level" => choice.level = decimal(value)?,
            "dither" => choice.dithering = on_or_off(value)?,
            "exposure" => choice.exposure = Some(exposure(value)?),
            _ => {
                let number = decimal(key.strip_prefix('r')?)?;
                let place = OTHERS
                    .iter()
                    .position(|&other| other == usize::from(number))?;
                self.others[place] = byte(value)?;
            }
        }
        Some(())
    }
}

impl fmt::Display for Chosen {
    fn fmt(&self, f: &mut fmt::Formatter<'_>) -> fmt::Result {
        let Choice {
            light,
            level,
            dithering,
            exposure,
        } = self.choice;
        let dither = if dithering { "on" } else { "off" };
        write!(f, "set={light},level={level},dither={dither}")?;
        if let Some(exposure) = exposure {
            write!(f, ",exposure={exposure:04X}")?;
        }
        let others = OTHERS.into_iter().zip(self.others);
        for ((number, value), unnamed) in others.zip(UNNAMED) {
            if value != unnamed {
                write!(f, ",r{number}={value:02X}")?;
            }
        }
        Ok(())
    }
}

/// The exposures that are tried where none is named: each power of two from 0010 on, and half as much again.
const USUAL: [u16; 26] = [
    0x0010, 0x0018, 0x0020, 0x0030, 0x0040, 0x0060, 0x0080, 0x00C0, 0x0100, 0x0180, 0x0200, 0x0300,
    0x0400, 0x0600, 0x0800, 0x0C00, 0x1000, 0x1800, 0x2000, 0x3000, 0x4000, 0x6000, 0x8000, 0xC000,
    0xE000, 0xFFFF,
];

/// The desk's 64 choices, dithered ones first and the default level before others, under each exposure of a list, or the
/// usual ones; others are the registers that the desk leaves alone, if they are named.
pub fn tried(exposures: Option<&str>, others: Option<&str>) -> Result<Vec<Chosen>, Failure> {
    let exposures = exposures.map_or_else(|| Ok(USUAL.to_vec()), listed)?;
    let base = others.map_or(Ok(Chosen::PLAINEST), Chosen::parse)?;
    if base.choice != Chosen::PLAINEST.choice {
        return Err(Failure::usage(
            "--others names registers 0, 1, 4 and 5 alone",
        ));
    }
    let mut levels: Vec<u8> = (0..16).collect();
    levels.sort_by_key(|level| level.abs_diff(7));
    let mut tried = Vec::new();
    for dithering in [true, false] {
        for &level in &levels {
            for light in [0, 1] {
                tried.extend(exposures.iter().map(|&exposure| Chosen {
                    choice: Choice {
                        light,
                        level,
                        dithering,
                        exposure: Some(exposure),
                    },
                    ..base
                }));
            }
        }
    }
    Ok(tried)
}

/// The exposures of a list, each a number or from one to another.
fn listed(text: &str) -> Result<Vec<u16>, Failure> {
    let mut exposures = Vec::new();
    for word in text.split(',') {
        let (first, last) = word.split_once('-').unwrap_or((word, word));
        match (exposure(first), exposure(last)) {
            (Some(first), Some(last)) if first <= last => exposures.extend(first..=last),
            _ => {
                return Err(Failure::usage(format!(
                    "'{word}' is no exposure, in '{text}'"
                )))
            }
        }
    }
    Ok(exposures)
}

/// The 54 registers that a text names, by their digits or as a choice.
pub fn registers(text: &str) -> Result<[u8; REGISTERS], Failure> {
    if text.contains('=') {
        return Chosen::parse(text)?.registers();
    }
    let none = || {
        Failure::usage(format!(
            "'{text}' names no registers: they are {} hexadecimal digits, or a choice like set=0,level=7",
            2 * REGISTERS
        ))
    };
    let digits = text.as_bytes();
    if digits.len() != 2 * REGISTERS || !text.is_ascii() {
        return Err(none());
    }
    let mut registers = [0; REGISTERS];
    for (place, value) in registers.iter_mut().enumerate() {
        *value = byte(&text[2 * place..2 * place + 2]).ok_or_else(none)?;
    }
    Ok(registers)
}

fn decimal(text: &str) -> Option<u8> {
    text.bytes()
        .all(|digit| digit.is_ascii_digit())
        .then(|| text.parse().ok())?
}

fn on_or_off(text: &str) -> Option<bool> {
    match text {
        "on" => Some(true),
        "off" => Some(false),
        _ => None,
    }
}

/// A number of up to four hexadecimal digits.
fn exposure(text: &str) -> Option<u16> {
    hexadecimal(text, 4).map(|number| number as u16)
}

fn byte(text: &str) -> Option<u8> {
    (text.len() == 2).then(|| hexadecimal(text, 2).map(|number| number as u8))?
}

fn hexadecimal(text: &str, most: usize) -> Option<u32> {
    let digits = text.bytes().all(|digit| digit.is_ascii_hexdigit());
    (digits && text.len() <= most).then(|| u32::from_str_radix(text, 16).ok())?
}
