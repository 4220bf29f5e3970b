//! `play`: a script to its answers.

use super::Command;
use crate::failure::Failure;
use crate::lines::Lines;
use crate::output::Output;
use crate::progress::Progress;
use crate::words::Words;
use gulxinett::Cartridge;

pub const COMMAND: Command = Command {
    name: "play",
    about: "a script to its answers, line by line",
    help: &["\
usage: gulxinett play [SCRIPT] [--output FILE]

Plays a bus script of any length and prints an answer for each line, as the program 'bus' does: ROM and RAM of
one bank full of FF, an image of 00, the state after reset. An answer is the number of a refusal, 00 for none,
and what was read or counted; a malformed line is answered 06.

  00                reset
  01A000            read an address
  02A00003          write a byte to an address
  03000008BA        let cycles pass
  04 row, 128 bytes a row of the image that is lent to writes

options:
  -o, --output FILE   where the answers go, in place of standard output

Exit status: 0 played, whatever the answers; 1 a file that can't be read or written, 2 wrong words.

example:
  gulxinett play examples/session.script
"],
    options: &["--output"],
    failed: 1,
    run,
};

fn run(words: Words) -> Result<u8, Failure> {
    let input = words.file()?;
    let source = input.open()?;
    let mut output = Output::named(words.option("--output"))?;
    let progress = Progress::new("lines", !output.is_seen() && !input.is_typed());
    let (mut cartridge, mut lines) = (Cartridge::default(), Lines::default());
    let mut answers = Vec::new();
    input.pieces(source, |piece| {
        let mut count = 0;
        lines.feed(piece, |line| {
            answers.extend(cartridge.step(line));
            count += 1;
        });
        output.write(&answers)?;
        answers.clear();
        progress.add(count);
        Ok(())
    })?;
    lines.finish(|line| answers.extend(cartridge.step(line)));
    output.write(&answers)?;
    output.finish()?;
    Ok(0)
}
