//! `photo`: a colour photograph to a frame.

use super::Command;
use crate::failure::Failure;
use crate::frames::photograph;
use crate::output::Output;
use crate::words::Words;

pub const COMMAND: Command = Command {
    name: "photo",
    about: "a colour photograph to a frame",
    help: &["\
usage: gulxinett photo [PHOTO] [--output FILE]

Writes the frame of a colour photograph: 16,384 bytes of light, 128 rows of 128, each (2R + 5G + B) / 8 of its
pixel. PHOTO is a Netpbm file P6 of 128 by 128 pixels with largest value 255. The frame's CRC-32, as 'crc32'
gives it, is the one that 'audit' names an image by.

options:
  -o, --output FILE   where the frame goes, in place of standard output

Exit status: 0 done, 1 a file that is refused, or can't be read or written, 2 wrong words.

example:
  pngtopnm beetle.png | gulxinett photo --output beetle.frame
"],
    options: &["--output"],
    failed: 1,
    run,
};

fn run(words: Words) -> Result<u8, Failure> {
    let input = words.file()?;
    let frame = photograph(&input.bytes()?).map_err(|refusal| {
        let due = "a photograph is a Netpbm file P6 of 128 by 128 pixels with largest value 255";
        Failure::refused(&input, refusal, due)
    })?;
    Output::not_for_people(words.option("--output"))?.all(&frame)?;
    Ok(0)
}
