//! `salvage`: a script with broken lines, or twice over, as it was before.

use super::Command;
use crate::failure::Failure;
use crate::output::{remark, Output};
use crate::words::Words;
use gulxinett::{salvage, SCRIPT_BYTES};

pub const COMMAND: Command = Command {
    name: "salvage",
    about: "a script that arrived with broken lines, or twice over, cleaned",
    help: &["\
usage: gulxinett salvage [SCRIPT] [--output FILE]

Keeps the lines of a bus script of at most 32,768 bytes that are accepted, in order and unaltered, and of a
script followed by itself one copy. The script goes to standard output; how many lines were kept, malformed
and repeated is said on standard error.

options:
  -o, --output FILE   where the script goes, in place of standard output

Exit status: 0 done, 1 a script that is too long, or a file that can't be read or written, 2 wrong words.

example:
  gulxinett salvage upload.script --output clean.script
"],
    options: &["--output"],
    failed: 1,
    run,
};

fn run(words: Words) -> Result<u8, Failure> {
    let input = words.file()?;
    // one byte more shows that a script is longer
    let script = input.at_most(SCRIPT_BYTES as u64 + 1)?;
    let salvaged = salvage(&script).map_err(|refusal| {
        Failure::refused(
            &input,
            refusal,
            "cut it between two resets, and salvage each part",
        )
    })?;
    Output::named(words.option("--output"))?.all(&salvaged.text)?;
    let [kept, malformed, repeated] = [0, 1, 2].map(|fate| {
        let lines = salvaged.report.iter().filter(|&&line| line == fate);
        lines.count()
    });
    remark(&format!(
        "gulxinett salvage: {kept} lines kept, {malformed} malformed, {repeated} repeated\n"
    ));
    Ok(0)
}
