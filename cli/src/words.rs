//! The words of a command: options with their values, and files.

use crate::failure::Failure;
use crate::input::Input;
use std::ffi::{OsStr, OsString};

/// What a command was called with.
#[derive(Debug, Default)]
pub struct Words {
    /// Help is asked for; nothing else counts then.
    pub help: bool,
    options: Vec<(&'static str, OsString)>,
    files: Vec<OsString>,
}

impl Words {
    /// Takes the words apart; each of the options takes a value.
    pub fn parse(words: Vec<OsString>, options: &[&'static str]) -> Result<Words, Failure> {
        let mut parsed = Words::default();
        let mut words = words.into_iter();
        while let Some(word) = words.next() {
            let (name, value) = match word.to_str() {
                Some("--help" | "-h") => {
                    parsed.help = true;
                    return Ok(parsed);
                }
                Some("--") => {
                    parsed.files.extend(words);
                    break;
                }
                Some("-o") => ("--output", None),
                Some(word) if word.len() > 1 && word.starts_with('-') => split(word),
                _ => {
                    parsed.files.push(word);
                    continue;
                }
            };
            let option = options.iter().find(|option| **option == name);
            let option = *option
                .ok_or_else(|| Failure::usage(format!("there is no option '{name}' here")))?;
            if parsed.options.iter().any(|(named, _)| *named == option) {
                return Err(Failure::usage(format!("{option} is given twice")));
            }
            let value = value.or_else(|| words.next());
            let value = value.ok_or_else(|| Failure::usage(format!("{option} needs a value")))?;
            parsed.options.push((option, value));
        }
        Ok(parsed)
    }

    /// The value of an option, if it was given.
    pub fn option(&self, name: &str) -> Option<&OsStr> {
        let mut options = self.options.iter();
        let found = options.find(|(option, _)| *option == name);
        found.map(|(_, value)| value.as_os_str())
    }

    /// The value of an option as text.
    pub fn text(&self, name: &str) -> Result<Option<&str>, Failure> {
        let text = |value: &OsStr| format!("{name} {}: that is no text", value.to_string_lossy());
        let option = self.option(name);
        option
            .map(|value| value.to_str().ok_or_else(|| Failure::usage(text(value))))
            .transpose()
    }

    /// The one file, or standard input.
    pub fn file(&self) -> Result<Input, Failure> {
        match self.files.as_slice() {
            [] => Ok(Input::standard()),
            [file] => Ok(Input::named(file)),
            [_, more, ..] => Err(Failure::usage(format!(
                "one file is read here, and '{}' is one too many",
                more.to_string_lossy()
            ))),
        }
    }

    /// All the files, in order.
    pub fn files(&self) -> Vec<Input> {
        self.files.iter().map(|file| Input::named(file)).collect()
    }
}

/// An option and the value that is written with it, as in `--output=FILE`.
fn split(word: &str) -> (&str, Option<OsString>) {
    match word.split_once('=') {
        Some((name, value)) => (name, Some(value.into())),
        None => (word, None),
    }
}

/// Standard input can be read once: refuses a second file that is it.
pub fn at_most_one_standard<'a>(
    inputs: impl IntoIterator<Item = &'a Input>,
) -> Result<(), Failure> {
    if inputs
        .into_iter()
        .filter(|input| input.is_standard())
        .count()
        > 1
    {
        return Err(Failure::usage(
            "only one of the files can be standard input",
        ));
    }
    Ok(())
}
