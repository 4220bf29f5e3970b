//! What is written: standard output, or a file that is there whole or not at all.

use crate::failure::Failure;
use gulxinett::Whole;
use std::ffi::OsStr;
use std::io::{self, IsTerminal, Write};
use std::path::Path;

/// Where something is written, and how it is called.
pub struct Output {
    name: String,
    into: Into,
}

enum Into {
    Standard(io::Stdout),
    /// A file beside the one that it becomes; a pipe or device as it is.
    Whole(Whole),
}

impl Output {
    /// The file of an option's value; `-`, its name in the system and none are standard output.
    pub fn named(word: Option<&OsStr>) -> Result<Output, Failure> {
        let Some(word) = word.filter(|word| *word != "-" && *word != "/dev/stdout") else {
            return Ok(Output {
                name: "standard output".to_owned(),
                into: Into::Standard(io::stdout()),
            });
        };
        let path = Path::new(word);
        let name = path.display().to_string();
        match Whole::beside(path) {
            Ok(whole) => Ok(Output {
                name,
                into: Into::Whole(whole),
            }),
            Err(error) => Err(Failure::unwritten(name, &error)),
        }
    }

    /// The same for what is no text, which nobody wants on a terminal.
    pub fn not_for_people(word: Option<&OsStr>) -> Result<Output, Failure> {
        let output = Output::named(word)?;
        if matches!(&output.into, Into::Standard(stdout) if stdout.is_terminal()) {
            return Err(Failure::usage(
                "this is no text: name a file with --output, or send it on with '|' or '>'",
            ));
        }
        Ok(output)
    }

    /// Whether what is written is seen at once.
    pub fn is_seen(&self) -> bool {
        matches!(&self.into, Into::Standard(stdout) if stdout.is_terminal())
    }

    /// Writes some bytes and has them on their way.
    pub fn write(&mut self, bytes: &[u8]) -> Result<(), Failure> {
        let written = match &mut self.into {
            Into::Standard(stdout) => stdout.write_all(bytes).and_then(|()| stdout.flush()),
            Into::Whole(whole) => whole.write_all(bytes),
        };
        written.map_err(|error| Failure::unwritten(&self.name, &error))
    }

    /// Everything is written: a file gets its name.
    pub fn finish(self) -> Result<(), Failure> {
        let finished = match self.into {
            Into::Whole(whole) => whole.finish(),
            Into::Standard(_) => Ok(()),
        };
        finished.map_err(|error| Failure::unwritten(self.name, &error))
    }

    /// Writes all there is.
    pub fn all(mut self, bytes: &[u8]) -> Result<(), Failure> {
        self.write(bytes)?;
        self.finish()
    }
}

/// Says a text on standard output; the status is 0.
pub fn say(text: &str) -> Result<u8, Failure> {
    Output::named(None)?.all(text.as_bytes())?;
    Ok(0)
}

/// Says a text on standard error; whoever can't be told is no reason to fail.
pub fn remark(text: &str) {
    let _ = io::stderr().write_all(text.as_bytes());
}
