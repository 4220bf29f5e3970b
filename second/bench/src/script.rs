//! A long script through both programs, and audited by both.

use crate::table::Table;
use crate::timing::{best, Effort, Times};
use std::fs::File;
use std::io::{self, Write};
use std::path::{Path, PathBuf};
use std::process::{Command, Stdio};
use std::time::Instant;

/// A file that is removed when it is no longer needed.
struct Temporary(PathBuf);

impl Drop for Temporary {
    fn drop(&mut self) {
        // Nothing is lost if it stays.
        let _ = std::fs::remove_file(&self.0);
    }
}

/// Lines of the script.
const LINES: usize = 1_000_000;

/// Times both programs on the same script, and both as they audit it, after seeing that they print the same.
pub fn compare(
    [proved, second]: [&str; 2],
    audit: Option<&str>,
    effort: Effort,
    table: &mut Table,
) -> io::Result<()> {
    let path = std::env::temp_dir().join(format!("script-{}.txt", std::process::id()));
    let script = Temporary(path);
    std::fs::write(&script.0, lines(LINES))?;
    let mut programs = vec![proved.to_string(), second.to_string()];
    if let Some(audit) = audit {
        programs.extend([audit.to_string(), format!("{second} audit")]);
    }
    for pair in programs.chunks(2) {
        if output(&pair[0], &script.0)? != output(&pair[1], &script.0)? {
            let [a, b] = [&pair[0], &pair[1]];
            return Err(io::Error::other(format!(
                "{a} and {b} don't print the same"
            )));
        }
    }
    let mut times = vec![Times::new(); programs.len()];
    for _ in 0..effort.script_rounds {
        for (program, times) in programs.iter().zip(&mut times) {
            times.push(run(program, &script.0)?);
        }
    }
    table.add("a million script lines", &times[0], &times[1], None, None);
    if let [answers, others, audited, audited_too] = &times[..] {
        table.add("a million lines audited", audited, audited_too, None, None);
        println!(
            "  beside the answers to the same lines: proved {:.2}, at most 1.2; second {:.2}",
            best(audited) / best(answers),
            best(audited_too) / best(others)
        );
    }
    Ok(())
}

/// Reads, writes and small ticks, with a capture started again whenever one may have ended.
fn lines(count: usize) -> Vec<u8> {
    let mut script = Vec::with_capacity(count * 10);
    for number in 0..count {
        let line = match number % 10_000 {
            0 => "02400010".into(),
            1 => "02A00201".into(),
            2 => "02A00003".into(),
            5_000 => "02A00002".into(),
            5_001 => "02400000".into(),
            5_002 => "0200000A".into(),
            _ => mixed(number as u32),
        };
        writeln!(script, "{line}").expect("memory takes it");
    }
    script
}

fn mixed(number: u32) -> String {
    let noise = number.wrapping_mul(0x9E37_79B1) >> 7;
    match noise % 10 {
        0..=3 => format!("01{:04X}", 0xA100 + noise % 0xE00),
        4 => format!("01{:04X}", noise % 0x8000),
        5..=6 => format!("02{:04X}{:02X}", 0xA006 + noise % 0x30, noise & 0xFF),
        7 => format!("02{:04X}{:02X}", 0x2000 + noise % 0x2000, noise & 0x3F),
        _ => format!("03{:08X}", noise % 16),
    }
}

/// A program, named with its arguments in words apart by spaces, that reads the script.
fn command(program: &str, script: &Path) -> io::Result<Command> {
    let mut words = program.split_whitespace();
    let mut command = Command::new(words.next().unwrap_or_default());
    command.args(words).stdin(File::open(script)?);
    Ok(command)
}

fn output(program: &str, script: &Path) -> io::Result<Vec<u8>> {
    Ok(command(program, script)?
        .stderr(Stdio::inherit())
        .output()?
        .stdout)
}

/// Nanoseconds a program takes for the script.
fn run(program: &str, script: &Path) -> io::Result<f64> {
    let mut command = command(program, script)?;
    let start = Instant::now();
    let status = command.stdout(Stdio::null()).status()?;
    let elapsed = start.elapsed();
    if !status.success() {
        return Err(io::Error::other(format!("{program} ends badly")));
    }
    Ok(elapsed.as_secs_f64() * 1e9)
}
