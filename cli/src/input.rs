//! Files that are read, and standard input.

use crate::failure::Failure;
use std::ffi::OsStr;
use std::fmt;
use std::fs::File;
use std::io::{self, IsTerminal, Read};
use std::path::{Path, PathBuf};

/// How much is read at once.
const PIECE: usize = 1 << 16;

/// A file, or standard input where there is no path.
#[derive(Debug)]
pub struct Input(Option<PathBuf>);

impl Input {
    pub fn standard() -> Input {
        Input(None)
    }

    /// The file of a word; `-` is standard input.
    pub fn named(word: &OsStr) -> Input {
        Input((word != "-").then(|| Path::new(word).to_owned()))
    }

    pub fn is_standard(&self) -> bool {
        self.0.is_none()
    }

    /// Whether somebody types it.
    pub fn is_typed(&self) -> bool {
        self.is_standard() && io::stdin().is_terminal()
    }

    /// What is read piece by piece.
    pub fn open(&self) -> Result<Box<dyn Read>, Failure> {
        match &self.0 {
            None => Ok(Box::new(io::stdin().lock())),
            Some(path) => match File::open(path) {
                Ok(file) => Ok(Box::new(file)),
                Err(error) => Err(Failure::unread(self, &error)),
            },
        }
    }

    /// Hands on what is read, piece by piece, to its end.
    pub fn pieces(
        &self,
        mut source: Box<dyn Read>,
        mut take: impl FnMut(&[u8]) -> Result<(), Failure>,
    ) -> Result<(), Failure> {
        let mut piece = vec![0; PIECE];
        loop {
            match source.read(&mut piece) {
                Ok(0) => return Ok(()),
                Ok(length) => take(&piece[..length])?,
                Err(error) if error.kind() == io::ErrorKind::Interrupted => {}
                Err(error) => return Err(Failure::unread(self, &error)),
            }
        }
    }

    /// All of its bytes.
    pub fn bytes(&self) -> Result<Vec<u8>, Failure> {
        self.at_most(u64::MAX)
    }

    /// Its bytes, but no more than so many: what is refused for its length need not be read to its end.
    pub fn at_most(&self, most: u64) -> Result<Vec<u8>, Failure> {
        let mut bytes = Vec::new();
        let read = self.open()?.take(most).read_to_end(&mut bytes);
        read.map_err(|error| Failure::unread(self, &error))?;
        Ok(bytes)
    }
}

impl fmt::Display for Input {
    fn fmt(&self, f: &mut fmt::Formatter<'_>) -> fmt::Result {
        match &self.0 {
            None => f.write_str("standard input"),
            Some(path) => path.display().fmt(f),
        }
    }
}
