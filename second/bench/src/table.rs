//! The table: printed as it grows, kept in a file, compared with another.

use crate::timing::{best, quartiles, Times};
use std::fs;
use std::io;

/// What a file of figures starts with.
const HEAD: &str =
    "what\tproved\tsecond\tproved/second\tmgba\tproved/mgba\tbrowser\tbrowser/proved";

/// Nanoseconds of one line: the best of the rounds.
struct Line {
    what: String,
    proved: f64,
    second: f64,
    mgba: Option<f64>,
    browser: Option<f64>,
}

#[derive(Default)]
pub struct Table(Vec<Line>);

impl Table {
    /// Prints the head.
    pub fn new() -> Self {
        println!(
            "{:<28} {:>9} {:>9} {:>22} {:>9} {:>13} {:>9} {:>16}",
            "",
            "proved",
            "second",
            "proved / second",
            "mGBA",
            "proved / mGBA",
            "browser",
            "browser / proved"
        );
        Table::default()
    }

    /// Takes the times of a line and prints it.
    pub fn add(
        &mut self,
        what: &str,
        proved: &Times,
        second: &Times,
        mgba: Option<&Times>,
        browser: Option<&Times>,
    ) {
        let [lower, upper] = quartiles(proved, second);
        let line = Line {
            what: what.into(),
            proved: best(proved),
            second: best(second),
            mgba: mgba.map(|times| best(times)),
            browser: browser.map(|times| best(times)),
        };
        let ratio = line.proved / line.second;
        println!(
            "{what:<28} {:>9} {:>9} {ratio:>6.2} ({lower:.2} to {upper:.2}) {:>9} {:>13} {:>9} {:>16}",
            time(line.proved),
            time(line.second),
            line.mgba.map_or_else(String::new, time),
            shown(line.mgba.map(|mgba| line.proved / mgba), 2),
            line.browser.map_or_else(String::new, time),
            shown(line.browser.map(|browser| browser / line.proved), 2),
        );
        self.0.push(line);
    }

    /// Writes all lines to a file: words apart by tabs, times in nanoseconds.
    pub fn save(&self, path: &str) -> io::Result<()> {
        let mut text = format!("{HEAD}\n");
        for line in &self.0 {
            let Line {
                what,
                proved,
                second,
                mgba,
                browser,
            } = line;
            text += &format!(
                "{what}\t{proved:.1}\t{second:.1}\t{:.3}\t{}\t{}\t{}\t{}\n",
                proved / second,
                shown(*mgba, 1),
                shown(mgba.map(|mgba| proved / mgba), 3),
                shown(*browser, 1),
                shown(browser.map(|browser| browser / proved), 3),
            );
        }
        fs::write(path, text)
    }

    /// Prints what became of each line of a file that was saved before.
    pub fn compare(&self, path: &str) -> io::Result<()> {
        let text = fs::read_to_string(path)?;
        println!();
        println!(
            "{:<28} proved, and its ratio to the second program: in {path}, now",
            ""
        );
        for line in &self.0 {
            let before = text.lines().find_map(|before| {
                let words: Vec<&str> = before.split('\t').collect();
                match words[..] {
                    [what, proved, _, ratio, ..] if what == line.what => {
                        Some((proved.parse::<f64>().ok()?, ratio.parse::<f64>().ok()?))
                    }
                    _ => None,
                }
            });
            match before {
                Some((proved, ratio)) => println!(
                    "{:<28} {:>9} -> {:>9} ({:.2} times), ratio {ratio:.2} -> {:.2}",
                    line.what,
                    time(proved),
                    time(line.proved),
                    line.proved / proved,
                    line.proved / line.second
                ),
                None => println!("{:<28} is not in {path}", line.what),
            }
        }
        Ok(())
    }
}

/// A figure that may be none.
fn shown(figure: Option<f64>, places: usize) -> String {
    figure.map_or_else(String::new, |figure| format!("{figure:.places$}"))
}

/// A time with a unit that fits.
fn time(nanoseconds: f64) -> String {
    match nanoseconds {
        n if n < 1e3 => format!("{n:.1} ns"),
        n if n < 1e6 => format!("{:.2} us", n / 1e3),
        n => format!("{:.2} ms", n / 1e6),
    }
}
