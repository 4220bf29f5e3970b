//! `picture`: the plate of a frame under some registers.

use super::Command;
use crate::failure::Failure;
use crate::frames::{self, frame};
use crate::output::Output;
use crate::registers::{self, registers};
use crate::saves::plate_of;
use crate::words::Words;
use gulxinett::picture;

pub const COMMAND: Command = Command {
    name: "picture",
    about: "a frame, and registers or a choice of the desk, to the plate they give",
    help: &[
        "\
usage: gulxinett picture --registers HEX|CHOICE [FRAME] [--output FILE]

Writes the plate of a frame as a capture under these registers gives it: a grey image, a Netpbm file P5 of 128
by 112 pixels. A frame is 16,384 bytes of light, 128 rows of 128, or a Netpbm file P5 or P6 of 128 by 128
pixels with largest value 255.

options:
  --registers WORD    the registers, or a choice of the desk
  -o, --output FILE   where the plate goes, in place of standard output

",
        registers::NAMED,
        "
Exit status: 0 done, 1 a file that is refused, or can't be read or written, 2 wrong words.

example:
  gulxinett picture --registers set=0,level=7,exposure=0300 beetle.ppm --output beetle.pgm
",
    ],
    options: &["--registers", "--output"],
    failed: 1,
    run,
};

fn run(words: Words) -> Result<u8, Failure> {
    let input = words.file()?;
    let named = words.text("--registers")?;
    let named = named.ok_or_else(|| Failure::usage("--registers must name the registers"))?;
    let registers = registers(named)?;
    let area = picture(&frame(&input)?, &registers)
        .map_err(|refusal| Failure::refused(&input, refusal, frames::KINDS))?;
    Output::not_for_people(words.option("--output"))?.all(&plate_of(&area))?;
    Ok(0)
}
