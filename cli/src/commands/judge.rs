//! `judge`: which rows of a plate are whose.

use super::Command;
use crate::failure::Failure;
use crate::frames::{self, frame};
use crate::input::Input;
use crate::judging::{Judgement, Stretch};
use crate::marking::{colour, marked};
use crate::output::{self, Output};
use crate::progress::Progress;
use crate::registers::{self, registers, Chosen};
use crate::saves::{area, plate_of};
use crate::words::{at_most_one_standard, Words};
use gulxinett::{Refusal, FRAME_BYTES, PICTURE_BYTES, PICTURE_ROWS, REGISTERS};
use std::ops::Range;

pub const COMMAND: Command = Command {
    name: "judge",
    about: "which rows of a plate are which frame's: one frame, or withdraw",
    help: &[
        "\
usage: gulxinett judge --plate PLATE [--registers HEX|CHOICE] [--mark FILE] FRAME..

Compares a plate, row by row, with the picture of each frame under the registers, and prints for each stretch of
rows which frame gives it. The last line is the verdict: 'one frame: NAME', where one frame gives every row, or
'WITHDRAW: rows 0 to 55 NAME, rows 56 to 111 OTHER'. A row that several frames give is counted to the frame of the
rows before it.

PLATE is a plate as 'plate' writes it, or a save, a battery's or of Gulxinett, whose plate is judged. A FRAME is
16,384 bytes of light, or a Netpbm file P5 or P6 of 128 by 128 pixels with largest value 255.

Without --registers it tries the desk's 64 choices (two sets, 16 levels, dithering on and off) under each of the usual
exposures, says which of them fit, so that the frames give every row, and judges under the one that fits best.

options:
  --plate PLATE       the plate, or a save
  --registers WORD    the registers, or a choice of the desk
  --exposures LIST    the exposures that are tried without --registers, hexadecimal, with commas, also from-to:
                      0300,0400-04FF; else 0010 to FFFF in 26 steps
  --others LIST       registers 0, 1, 4 and 5 under each choice that is tried: r1=E4,r4=27
  --mark FILE         writes a picture, a Netpbm file P6: the plate, and beside it a strip for each frame, coloured
                      at the rows that the frame gives; rows that none gives are red at the plate's edge

",
        registers::NAMED,
        "
Exit status: 0 one frame, 1 withdraw, 2 wrong words, or a file that is refused or can't be read or written.

example:
  gulxinett judge --plate suspect.pgm --registers set=0,level=7,exposure=0300 beetle.ppm moth.ppm
",
    ],
    options: &["--plate", "--registers", "--exposures", "--others", "--mark"],
    failed: 2,
    run,
};

/// The status of a plate that is to be withdrawn.
const WITHDRAW: u8 = 1;
/// How many of the choices that fit are named, and of the rows that other frames give too.
const NAMED_AT_MOST: usize = 10;

/// A frame and what it is called.
struct Named {
    name: String,
    frame: [u8; FRAME_BYTES],
}

/// A plate and the frames that it may be of.
struct Case {
    area: [u8; PICTURE_BYTES],
    frames: Vec<Named>,
}

fn run(words: Words) -> Result<u8, Failure> {
    let plate = words.option("--plate");
    let plate = Input::named(plate.ok_or_else(|| Failure::usage("--plate must name the plate"))?);
    let files = words.files();
    if files.is_empty() {
        return Err(Failure::usage("at least one frame must be named"));
    }
    at_most_one_standard(files.iter().chain([&plate]))?;
    if words.option("--mark").is_some_and(|word| word == "-") {
        return Err(Failure::usage("--mark needs a file of its own"));
    }
    let named = words.text("--registers")?;
    let (exposures, others) = (words.text("--exposures")?, words.text("--others")?);
    if named.is_some() && (exposures.is_some() || others.is_some()) {
        return Err(Failure::usage(
            "--exposures and --others are for choices that are tried, without --registers",
        ));
    }
    let registers = named.map(registers).transpose()?;
    let tried = registers::tried(exposures, others)?;
    let case = Case::of(&plate, &files)?;
    let (judgement, mut said) = match registers {
        Some(registers) => (case.judged(&registers)?, Vec::new()),
        None => case.searched(&tried)?,
    };
    said.extend(case.stretches(&judgement));
    if let Some(word) = words.option("--mark") {
        let picture = marked(&plate_of(&case.area), &judgement, case.frames.len());
        Output::named(Some(word))?.all(&picture)?;
        let colours = case.colours();
        said.push(format!(
            "marked in {}: {colours}; red: none",
            word.to_string_lossy()
        ));
    }
    let (status, verdict) = case.verdict(&judgement);
    said.extend(verdict);
    output::say(&(said.join("\n") + "\n"))?;
    Ok(status)
}

impl Case {
    fn of(plate: &Input, files: &[Input]) -> Result<Case, Failure> {
        let area = area(plate)?;
        let named = |file: &Input| {
            Ok(Named {
                name: file.to_string(),
                frame: frame(file)?,
            })
        };
        let frames = files.iter().map(named).collect::<Result<_, Failure>>()?;
        Ok(Case { area, frames })
    }

    /// The rows that each frame gives under some registers.
    fn judged(&self, registers: &[u8; REGISTERS]) -> Result<Judgement, Failure> {
        let frames = self.frames.iter().map(|named| &named.frame[..]);
        let refused = |refusal: Refusal| Failure::refused("a frame", refusal, frames::KINDS);
        Judgement::of(&self.area, frames, registers).map_err(refused)
    }

    /// Tries choices: the judgement under the one that fits best, and what is said of those that fit.
    fn searched(&self, tried: &[Chosen]) -> Result<(Judgement, Vec<String>), Failure> {
        let progress = Progress::new("choices tried", true);
        let mut best: Option<(usize, usize, &Chosen, Judgement)> = None;
        let mut fits = Vec::new();
        for chosen in tried {
            let judgement = self.judged(&chosen.registers()?)?;
            let (given, stretches) = (judgement.given(), judgement.stretches().len());
            if given == PICTURE_ROWS {
                fits.push((chosen, judgement.whole().next()));
            }
            let better = |&(rows, others, ..): &(usize, usize, _, _)| {
                given > rows || given == rows && stretches < others
            };
            if best.as_ref().is_none_or(better) {
                best = Some((given, stretches, chosen, judgement));
            }
            progress.add(1);
        }
        drop(progress);
        let Some((given, _, chosen, judgement)) = best else {
            return Err(Failure::usage("there is no exposure to try"));
        };
        let mut said = vec![format!("{} of {} choices fit", fits.len(), tried.len())];
        if fits.is_empty() {
            let otherwise = "under registers that were not tried it may be otherwise";
            said.push(format!(
                "best: {chosen} gives {given} of {PICTURE_ROWS} rows; {otherwise}"
            ));
        } else {
            said.extend(self.fitting(&fits));
            said.push(format!("judged under {chosen}"));
            said.extend(self.doubted(&fits, judgement.whole().next()));
        }
        Ok((judgement, said))
    }

    /// The choices that fit, each with what it says.
    fn fitting(&self, fits: &[(&Chosen, Option<usize>)]) -> Vec<String> {
        let fit = |(chosen, whole): &(&Chosen, Option<usize>)| match whole {
            Some(frame) => format!("fits: {chosen}: one frame: {}", self.name(*frame)),
            None => format!("fits: {chosen}: more than one frame"),
        };
        let mut said: Vec<String> = fits.iter().take(NAMED_AT_MOST).map(fit).collect();
        if fits.len() > NAMED_AT_MOST {
            said.push(format!("fits: {} more", fits.len() - NAMED_AT_MOST));
        }
        said
    }

    /// Where a choice that fits says another frame than the one that was judged by.
    fn doubted(&self, fits: &[(&Chosen, Option<usize>)], judged: Option<usize>) -> Option<String> {
        let mut whole = fits
            .iter()
            .filter_map(|(chosen, frame)| Some((chosen, (*frame)?)));
        let (chosen, frame) = whole.find(|(_, frame)| Some(*frame) != judged)?;
        let name = self.name(frame);
        Some(format!(
            "in doubt: under {chosen} it is one frame too: {name}; name the registers to decide"
        ))
    }

    /// Each stretch, and what others give of it too.
    fn stretches(&self, judgement: &Judgement) -> Vec<String> {
        let line = |stretch: &Stretch| {
            let shared = judgement.shared(stretch);
            let named = shared.iter().take(NAMED_AT_MOST);
            let named = named.map(|(frame, rows)| format!("{} {}", self.name(*frame), said(rows)));
            let named: Vec<String> = named.collect();
            let others = match shared.len().checked_sub(NAMED_AT_MOST) {
                _ if shared.is_empty() => String::new(),
                None | Some(0) => format!(" (given too: {})", named.join(", ")),
                Some(more) => format!(" (given too: {}, and {more} more)", named.join(", ")),
            };
            format!("{}: {}{others}", said(&stretch.rows), self.giver(stretch))
        };
        judgement.stretches().iter().map(line).collect()
    }

    /// Which colour is whose.
    fn colours(&self) -> String {
        let colours =
            (0..self.frames.len()).map(|frame| format!("{} {}", self.name(frame), colour(frame)));
        colours.collect::<Vec<_>>().join(", ")
    }

    /// The verdict, and the status that it is.
    fn verdict(&self, judgement: &Judgement) -> (u8, Vec<String>) {
        let mut whole = judgement.whole();
        if let Some(frame) = whole.next() {
            let other = |frame| format!("in doubt: {} gives every row too", self.name(frame));
            let verdict = format!("one frame: {}", self.name(frame));
            return (0, whole.map(other).chain([verdict]).collect());
        }
        let stretch =
            |stretch: &Stretch| format!("{} {}", said(&stretch.rows), self.giver(stretch));
        let stretches: Vec<String> = judgement.stretches().iter().map(stretch).collect();
        (
            WITHDRAW,
            vec![format!("WITHDRAW: {}", stretches.join(", "))],
        )
    }

    fn name(&self, frame: usize) -> &str {
        &self.frames[frame].name
    }

    /// Whose a stretch is.
    fn giver(&self, stretch: &Stretch) -> &str {
        let name = |frame| self.name(frame);
        stretch.frame.map_or("none of these frames", name)
    }
}

/// Rows as they are said.
fn said(rows: &Range<usize>) -> String {
    match (rows.start, rows.end - 1) {
        (first, last) if first == last => format!("row {first}"),
        (first, last) => format!("rows {first} to {last}"),
    }
}
