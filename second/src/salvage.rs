//! Cleaning a script of malformed lines and of repetitions.

use crate::lines::Lines;
use crate::refusal::Refusal;
use crate::script::Frame;

/// The most bytes of a script that is cleaned.
pub const LONGEST_SCRIPT: usize = 32_768;

/// What is reported of a line.
const KEPT: u8 = 0;
const MALFORMED: u8 = 1;
const REPEATED: u8 = 2;

/// How much a salvage has written.
#[derive(Clone, Copy, Debug, PartialEq, Eq)]
pub struct Salvaged {
    /// Bytes of the cleaned text.
    pub length: usize,
    /// Lines of the script, and bytes of the report.
    pub lines: usize,
}

/// Writes the accepted lines of a script, repetitions left out, and a byte about each line into
/// lent buffers, whose later bytes stay.
pub fn salvage(script: &[u8], text: &mut [u8], report: &mut [u8]) -> Result<Salvaged, Refusal> {
    if script.len() > LONGEST_SCRIPT {
        return Err(Refusal::Script);
    }
    let (accepted, mut about) = sift(script);
    let kept = once(&accepted);
    mark_repeated(
        &mut about,
        kept.iter().filter(|&&byte| byte == b'\n').count(),
    );
    let text = text.get_mut(..kept.len()).ok_or(Refusal::Buffer)?;
    let report = report.get_mut(..about.len()).ok_or(Refusal::Buffer)?;
    text.copy_from_slice(kept);
    report.copy_from_slice(&about);
    Ok(Salvaged {
        length: text.len(),
        lines: report.len(),
    })
}

/// The accepted lines, each with LF, and for every line whether it is one of them.
fn sift(script: &[u8]) -> (Vec<u8>, Vec<u8>) {
    let mut accepted = Vec::with_capacity(script.len() + 1);
    let mut about = Vec::new();
    let mut each = |line: Option<&[u8]>| match line {
        Some(line) if Frame::parse(line).is_some() => {
            accepted.extend(line);
            accepted.push(b'\n');
            about.push(KEPT);
        }
        _ => about.push(MALFORMED),
    };
    let mut lines = Lines::new();
    lines.feed(script, &mut each);
    lines.finish(&mut each);
    (accepted, about)
}

/// The first half of lines that are some sequence twice, halved until they are not.
///
/// Every line ends in LF, so equal halves of the text are halves of the lines.
fn once(mut text: &[u8]) -> &[u8] {
    while text.starts_with(b"00\n") {
        let (first, second) = text.split_at(text.len() / 2);
        if first != second {
            break;
        }
        text = first;
    }
    text
}

/// Marks the accepted lines after the first so many.
fn mark_repeated(about: &mut [u8], kept: usize) {
    let accepted = about.iter_mut().filter(|about| **about == KEPT);
    accepted.skip(kept).for_each(|about| *about = REPEATED);
}
