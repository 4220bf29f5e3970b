//! Plays the bus script on standard input.
//!
//! `second` answers each line. `second audit [SAVE]` prints what became of the captures instead; SAVE is a
//! battery save, whose RAM the script then begins with.

#![forbid(unsafe_code)]

use second::{Audit, Lines, Session, RAM_BANK};
use std::env;
use std::ffi::{OsStr, OsString};
use std::fs::File;
use std::io::{self, ErrorKind, Read, Write};
use std::path::Path;
use std::process::ExitCode;

/// How much is read at once; all its answers are written before the next read.
const PIECE: usize = 1 << 16;
/// Banks of the largest battery save.
const MOST_BANKS: usize = 16;

/// What plays the lines.
trait Player {
    /// Plays a line, none if it was too long, and appends what is printed.
    fn line(&mut self, line: Option<&[u8]>, out: &mut Vec<u8>);
    /// Appends what is printed at the end of the text.
    fn end(&mut self, _out: &mut Vec<u8>) {}
}

impl Player for Session {
    fn line(&mut self, line: Option<&[u8]>, out: &mut Vec<u8>) {
        self.answer(line, out);
    }
}

impl Player for Audit {
    fn line(&mut self, line: Option<&[u8]>, out: &mut Vec<u8>) {
        Audit::line(self, line, out);
    }

    fn end(&mut self, out: &mut Vec<u8>) {
        self.finish(out);
    }
}

fn main() -> ExitCode {
    let words: Vec<OsString> = env::args_os().skip(1).collect();
    let played = match words.as_slice() {
        [] => play(Session::new()),
        [word] if word == "audit" => play(Audit::new()),
        [word, save] if word == "audit" => match battery(save) {
            Ok(audit) => play(audit),
            Err(sentence) => return refuse(&sentence),
        },
        _ => return refuse("usage: second [audit [SAVE]]"),
    };
    match played {
        Ok(()) => ExitCode::SUCCESS,
        Err(error) => {
            eprintln!("second: {error}");
            ExitCode::FAILURE
        }
    }
}

/// Says why nothing is played.
fn refuse(sentence: &str) -> ExitCode {
    eprintln!("{sentence}");
    ExitCode::from(2)
}

/// An audit that begins with the RAM of a battery save, or a sentence about the file.
fn battery(save: &OsStr) -> Result<Audit, String> {
    let name = Path::new(save).display();
    let mut ram = Vec::new();
    // A byte more than the largest shows that a file is larger.
    let most = (MOST_BANKS * RAM_BANK + 1) as u64;
    File::open(save)
        .and_then(|file| file.take(most).read_to_end(&mut ram))
        .map_err(|error| format!("second: {name} can't be read: {error}"))?;
    Audit::with_ram(ram).map_err(|_| {
        format!("second: {name} is no battery save: its size is not {RAM_BANK} bytes times 1, 2, 4, 8 or 16")
    })
}

/// Plays standard input piece by piece and prints after each.
fn play(mut player: impl Player) -> io::Result<()> {
    let (mut input, mut output) = (io::stdin().lock(), io::stdout().lock());
    let mut lines = Lines::new();
    let mut piece = vec![0; PIECE];
    let mut printed = Vec::with_capacity(2 * PIECE);
    loop {
        let length = match input.read(&mut piece) {
            Err(error) if error.kind() == ErrorKind::Interrupted => continue,
            length => length?,
        };
        if length == 0 {
            lines.finish(|line| player.line(line, &mut printed));
            player.end(&mut printed);
        }
        lines.feed(&piece[..length], |line| player.line(line, &mut printed));
        output.write_all(&printed)?;
        output.flush()?;
        printed.clear();
        if length == 0 {
            return Ok(());
        }
    }
}
