//! Why a command did not do what it was asked.

use gulxinett::Refusal;
use std::fmt::Display;
use std::io;

/// Why nothing was done, as a sentence.
#[derive(Debug)]
pub enum Failure {
    /// The words of the command are none that it takes.
    Usage(String),
    /// A file was refused, or could not be read or written.
    Undone(String),
    /// Whoever read the output went away; there is nobody to tell.
    Unheard,
}

impl Failure {
    pub fn usage(sentence: impl Into<String>) -> Failure {
        Failure::Usage(sentence.into())
    }

    /// A file that was refused; `due` says what it should be.
    pub fn refused(name: impl Display, refusal: Refusal, due: &str) -> Failure {
        Failure::Undone(format!("{name}: {refusal}; {due}"))
    }

    /// A file that can't be read.
    pub fn unread(name: impl Display, error: &io::Error) -> Failure {
        Failure::Undone(format!("{name} can't be read: {}", reason(error)))
    }

    /// A file that can't be written.
    pub fn unwritten(name: impl Display, error: &io::Error) -> Failure {
        match error.kind() {
            io::ErrorKind::BrokenPipe => Failure::Unheard,
            _ => Failure::Undone(format!("{name} can't be written: {}", reason(error))),
        }
    }
}

/// The system's reason without its number.
fn reason(error: &io::Error) -> String {
    let said = error.to_string();
    match said.split_once(" (os error") {
        Some((sentence, _)) => sentence.to_owned(),
        None => said,
    }
}
