//! What people do with plates, saves and scripts at a terminal: `gulxinett COMMAND`.
//!
//! Every answer is a proved function's, over the Rust binding; here are words, files and sentences.

#![forbid(unsafe_code)]

// The modules from the bottom up, each of which uses only those named before it:
// failure, input, words, output, progress, lines, registers, frames, saves, judging, marking, commands.
mod commands;
mod failure;
mod frames;
mod input;
mod judging;
mod lines;
mod marking;
mod output;
mod progress;
mod registers;
mod saves;
mod words;

use commands::{Command, COMMANDS};
use failure::Failure;
use std::env;
use std::ffi::OsString;
use std::process::ExitCode;
use words::Words;

fn main() -> ExitCode {
    let mut words: Vec<OsString> = env::args_os().skip(1).collect();
    let Some(first) = (!words.is_empty()).then(|| words.remove(0)) else {
        return said_wrongly("gulxinett", &general_help());
    };
    match first.to_str() {
        Some("--help" | "-h" | "help") => return helped(&words),
        Some("--version") => return ended(output::say(&version()), "gulxinett"),
        _ => {}
    }
    match COMMANDS.iter().find(|command| first == command.name) {
        Some(command) => ran(command, words),
        None => {
            let sentence = format!("there is no command '{}'", first.to_string_lossy());
            said_wrongly("gulxinett", &format!("{sentence}\n{}", overview()))
        }
    }
}

/// Runs a command over its words; its status, or a sentence about what failed.
fn ran(command: &Command, words: Vec<OsString>) -> ExitCode {
    let who = format!("gulxinett {}", command.name);
    let outcome = Words::parse(words, command.options).and_then(|words| {
        if words.help {
            return output::say(&command.help.concat());
        }
        (command.run)(words)
    });
    match outcome {
        Ok(status) => ExitCode::from(status),
        Err(Failure::Usage(sentence)) => {
            let hint = format!("'{who} --help' says how it is called");
            said_wrongly(&who, &format!("{sentence}\n{hint}\n"))
        }
        Err(failure) => {
            tell(&who, &failure);
            ExitCode::from(command.failed)
        }
    }
}

/// `help`, `help COMMAND`, `--help`.
fn helped(words: &[OsString]) -> ExitCode {
    let text = match words {
        [] => general_help(),
        [name] => match COMMANDS.iter().find(|command| name == command.name) {
            Some(command) => command.help.concat(),
            None => {
                let sentence = format!("there is no command '{}'", name.to_string_lossy());
                return said_wrongly("gulxinett", &format!("{sentence}\n{}", overview()));
            }
        },
        _ => return said_wrongly("gulxinett", "help is about one command\n"),
    };
    ended(output::say(&text), "gulxinett")
}

/// The status of something that was said.
fn ended(said: Result<u8, Failure>, who: &str) -> ExitCode {
    match said {
        Ok(status) => ExitCode::from(status),
        Err(failure) => {
            tell(who, &failure);
            ExitCode::FAILURE
        }
    }
}

/// Says a failure on standard error, unless its reader went away.
fn tell(who: &str, failure: &Failure) {
    if let Failure::Usage(sentence) | Failure::Undone(sentence) = failure {
        output::remark(&format!("{who}: {sentence}\n"));
    }
}

/// Says what was wrong with the words, with status 2.
fn said_wrongly(who: &str, sentence: &str) -> ExitCode {
    output::remark(&format!("{who}: {sentence}"));
    ExitCode::from(2)
}

fn version() -> String {
    format!("gulxinett {}\n", env!("CARGO_PKG_VERSION"))
}

/// The commands, one to a line.
fn overview() -> String {
    let line = |command: &Command| format!("  {:<8} {}\n", command.name, command.about);
    COMMANDS.iter().map(line).collect()
}

fn general_help() -> String {
    format!(
        "usage: gulxinett COMMAND [OPTIONS] [FILE..]

{}
A FILE that is not named, or named '-', is standard input; what is made goes to standard output, or with
--output to a file, which is there whole or not at all.
'gulxinett COMMAND --help' has each command's options and an example; 'gulxinett --version' its version.

Exit status: 0 done, 1 refused or a file that can't be read or written, 2 words that are none. Of judge: 0 one
frame, 1 withdraw, 2 anything else.

example:
  gulxinett plate game.sav --output plate.pgm
",
        overview()
    )
}
