//! Cameras in processes of their own, which are told over their standard input what to do: mGBA's, and
//! the browser module under node. mgba.c has the words. zlib's checksum too; zlib.c has its words.

use crate::timing::Timed;
use std::io::{self, BufRead, BufReader, Write};
use std::process::{Child, ChildStdin, ChildStdout, Command, Stdio};

pub struct Outside {
    child: Child,
    words: ChildStdin,
    answers: BufReader<ChildStdout>,
}

impl Outside {
    /// Starts a program, named with its arguments in words apart by spaces.
    pub fn new(program: &str) -> io::Result<Self> {
        let mut words = program.split_whitespace();
        let mut child = Command::new(words.next().unwrap_or_default())
            .args(words)
            .stdin(Stdio::piped())
            .stdout(Stdio::piped())
            .spawn()?;
        let pipes = (child.stdin.take(), child.stdout.take());
        let (Some(words), Some(answers)) = pipes else {
            return Err(io::Error::other("a program without pipes"));
        };
        Ok(Outside {
            child,
            words,
            answers: BufReader::new(answers),
        })
    }

    /// Shows it another image, to be taken in another mode.
    pub fn show(&mut self, mode: u8, image: &[u8]) -> io::Result<()> {
        write!(self.words, "mode {mode}\nimage\n")?;
        self.words.write_all(image)
    }

    /// Tells it something that it does not answer.
    pub fn tell(&mut self, words: &str) -> io::Result<()> {
        self.words.write_all(words.as_bytes())
    }

    /// Lets it capture so many times; the nanoseconds it says that took.
    fn run(&mut self, runs: u32) -> io::Result<f64> {
        writeln!(self.words, "run {runs}")?;
        self.words.flush()?;
        let mut answer = String::new();
        self.answers.read_line(&mut answer)?;
        answer
            .trim()
            .parse()
            .map_err(|_| io::Error::other(format!("a program says '{}'", answer.trim())))
    }

    /// Its captures, to take turns with others.
    pub fn timed(&mut self) -> Timed<'_> {
        Box::new(|runs| self.run(runs).expect("the program answers"))
    }
}

impl Drop for Outside {
    fn drop(&mut self) {
        // It ends with its input, or is ended.
        let _ = self.child.kill();
        let _ = self.child.wait();
    }
}
