//! `place`: a plate into a save.

use super::Command;
use crate::failure::Failure;
use crate::input::Input;
use crate::output::Output;
use crate::saves::{Save, PLATES};
use crate::words::{at_most_one_standard, Words};
use gulxinett::{Refusal, PLATE_BYTES};

pub const COMMAND: Command = Command {
    name: "place",
    about: "a plate into a save",
    help: &["\
usage: gulxinett place --save SAVE [PLATE] [--output FILE]

Puts a plate into the picture area of a save and writes the new save; nothing else in it changes. PLATE is a
grey image as 'plate' writes it: a Netpbm file P5 of 128 by 112 pixels with the greys 255, 170, 85 and 0 alone.
SAVE is a battery save or a save of Gulxinett, and the new one is of the same kind. A save in which a capture is
held is refused: its pixels would be drawn over the plate.

options:
  --save SAVE         the save that gets the plate; its file is only read
  -o, --output FILE   where the new save goes, in place of standard output; it may be SAVE itself

Exit status: 0 done, 1 a file that is refused, or can't be read or written, 2 wrong words.

example:
  gulxinett place --save game.sav cleaned.pgm --output game.sav
"],
    options: &["--save", "--output"],
    failed: 1,
    run,
};

fn run(words: Words) -> Result<u8, Failure> {
    let plate = words.file()?;
    let save = words.option("--save");
    let save = Input::named(save.ok_or_else(|| Failure::usage("--save must name the save"))?);
    at_most_one_standard([&plate, &save])?;
    // one byte more shows that a file is longer
    let file = plate.at_most(PLATE_BYTES as u64 + 1)?;
    let mut kept = Save::of(&save)?;
    kept.cartridge
        .place(&file)
        .map_err(|refusal| match refusal {
            Refusal::Held => Failure::refused(
                &save,
                refusal,
                "a plate is placed once the capture has ended",
            ),
            _ => Failure::refused(&plate, refusal, PLATES),
        })?;
    Output::not_for_people(words.option("--output"))?.all(&kept.file())?;
    Ok(0)
}
