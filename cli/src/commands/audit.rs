//! `audit`: what became of a recording's captures.

use super::Command;
use crate::failure::Failure;
use crate::input::Input;
use crate::lines::LF;
use crate::output::Output;
use crate::progress::Progress;
use crate::words::{at_most_one_standard, Words};
use gulxinett::{Audit, RAM_BANK};

pub const COMMAND: Command = Command {
    name: "audit",
    about: "which frame, which registers, how many cycles, and what else changed",
    help: &["\
usage: gulxinett audit [RECORDING..] [--save SAVE] [--output FILE]

Plays a recording, a bus script of any length, and prints what became of its captures, an event to a line with
the number of the script's line: each start with the CRC-32 of its image and its registers, each stop, resume
and bus write that landed, each end with its cycles, the CRC-32 of the plate and the verdict, 'whole' or
'touched'; in the end what changed outside the picture area, and a summary. docs/AUDIT.md has every event.

Several recordings are one, in the order in which they are named: those of the workers of one job. Lines are
counted on from one to the next.

options:
  --save SAVE         a battery save whose RAM the recording begins with, 8,192 bytes times 1, 2, 4, 8 or 16;
                      without it one bank full of FF
  -o, --output FILE   where the events go, in place of standard output

Exit status: 0 audited, whatever the verdicts; 1 a file that is refused, or can't be read or written, 2 wrong
words.

example:
  gulxinett audit first-worker.script second-worker.script
"],
    options: &["--save", "--output"],
    failed: 1,
    run,
};

/// Bytes of the largest battery save.
const LARGEST: u64 = 16 * RAM_BANK as u64;

fn run(words: Words) -> Result<u8, Failure> {
    let save = words.option("--save").map(Input::named);
    let mut recordings = words.files();
    if recordings.is_empty() {
        recordings.push(Input::standard());
    }
    at_most_one_standard(recordings.iter().chain(&save))?;
    let mut audit = begun(save.as_ref())?;
    // what can't be read is found before anything is said
    let sources = recordings.iter().map(Input::open);
    let sources = sources.collect::<Result<Vec<_>, _>>()?;
    let mut output = Output::named(words.option("--output"))?;
    let typed = recordings.iter().any(Input::is_typed);
    let progress = Progress::new("lines", !output.is_seen() && !typed);
    let mut events = Vec::new();
    let mut last = LF;
    for (recording, source) in recordings.iter().zip(sources) {
        if last != LF {
            // a recording that lacks its last LF ends where the next begins
            audit.feed(&[LF], |event| events.extend_from_slice(event));
            last = LF;
        }
        recording.pieces(source, |piece| {
            audit.feed(piece, |event| events.extend_from_slice(event));
            last = piece.last().copied().unwrap_or(last);
            progress.add(piece.iter().filter(|&&byte| byte == LF).count() as u64);
            output.write(&events)?;
            events.clear();
            Ok(())
        })?;
    }
    audit.finish(|event| events.extend_from_slice(event));
    output.write(&events)?;
    output.finish()?;
    Ok(0)
}

/// An audit that begins with a save, if one is named.
fn begun(save: Option<&Input>) -> Result<Audit, Failure> {
    let Some(save) = save else {
        return Ok(Audit::default());
    };
    // one byte more shows that a file is larger
    Audit::from_battery(save.at_most(LARGEST + 1)?).map_err(|refusal| {
        let due = "an audit begins with a battery save, 8,192 bytes times 1, 2, 4, 8 or 16";
        Failure::refused(save, refusal, due)
    })
}
