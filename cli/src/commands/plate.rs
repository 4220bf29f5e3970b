//! `plate`: the plate out of a save.

use super::Command;
use crate::failure::Failure;
use crate::output::Output;
use crate::saves::Save;
use crate::words::Words;

pub const COMMAND: Command = Command {
    name: "plate",
    about: "the plate out of a save, as a grey image",
    help: &["\
usage: gulxinett plate [SAVE] [--output FILE]

Writes the picture area of a save as it stands: a grey image, a Netpbm file P5 of 128 by 112 pixels, which
picture programs open. SAVE is a battery save of any emulator, 8,192 bytes times 1, 2, 4, 8 or 16, or a save
of Gulxinett. Of a capture that is half way it is half a picture.

options:
  -o, --output FILE   where the plate goes, in place of standard output

Exit status: 0 done, 1 a file that is refused, or can't be read or written, 2 wrong words.

example:
  gulxinett plate game.sav --output plate.pgm
"],
    options: &["--output"],
    failed: 1,
    run,
};

fn run(words: Words) -> Result<u8, Failure> {
    let save = Save::of(&words.file()?)?;
    Output::not_for_people(words.option("--output"))?.all(&save.cartridge.plate())?;
    Ok(0)
}
