//! The program itself: it answers before it waits, and takes streams of any shape.

use std::fs;
use std::io::{BufRead, BufReader, Read, Write};
use std::path::PathBuf;
use std::process::{Child, ChildStdin, ChildStdout, Command, Output, Stdio};

fn start(words: &[&str]) -> (Child, ChildStdin, BufReader<ChildStdout>) {
    let mut program = Command::new(env!("CARGO_BIN_EXE_second"))
        .args(words)
        .stdin(Stdio::piped())
        .stdout(Stdio::piped())
        .spawn()
        .expect("the program starts");
    let input = program.stdin.take().expect("its input");
    let output = BufReader::new(program.stdout.take().expect("its output"));
    (program, input, output)
}

/// Writes pieces of a text, each followed by what must be printed before the next, and then the end.
fn talk(words: &[&str], pieces: &[(&str, &str)], end: &str, wanted: &str) {
    let (mut program, mut input, mut output) = start(words);
    for (piece, wanted) in pieces {
        input.write_all(piece.as_bytes()).unwrap();
        input.flush().unwrap();
        for wanted in wanted.split_inclusive('\n') {
            let mut answer = String::new();
            output.read_line(&mut answer).unwrap();
            assert_eq!(answer, wanted);
        }
    }
    input.write_all(end.as_bytes()).unwrap();
    drop(input);
    let mut rest = String::new();
    output.read_to_string(&mut rest).unwrap();
    assert_eq!(rest, wanted);
    assert!(program.wait().unwrap().success());
}

#[test]
fn answers_before_it_waits() {
    let pieces = [
        ("01A0", ""),
        ("00\n0200", "00FF\n"),
        ("000A\n018000\n", "00\n05\n"),
    ];
    talk(&[], &pieces, "01A000", "00FF\n");
}

#[test]
fn tells_events_before_it_waits() {
    let start = format!(
        "line 2 event start serial 1 image AB54D286 row 0 registers {:0<108}\n",
        "03"
    );
    let pieces = [
        ("02400010\n02A0", ""),
        ("0003\n", start.as_str()),
        (
            "0300000005\n02A00002\n",
            "line 4 event stop serial 1 cycles 5\n",
        ),
    ];
    let end = "line 5 event held serial 1 cycles 5\nline 5 event unchanged\nline 5 event summary \
               malformed 1 refused 0 captures 1 ended 0 whole 0 touched 0 dropped 0 held 1\n";
    talk(&["audit"], &pieces, "01A0", end);
}

#[test]
fn long_streams() {
    let (mut program, mut input, mut output) = start(&[]);
    let writer = std::thread::spawn(move || {
        let line = vec![b'0'; 3_000_000];
        for _ in 0..3 {
            input.write_all(&line).unwrap();
            input.write_all(b"\n0300000001\n").unwrap();
        }
        input.write_all(&b"\n".repeat(500_000)).unwrap();
    });
    let mut answers = String::new();
    output.read_to_string(&mut answers).unwrap();
    writer.join().unwrap();
    let wanted = "06\n0000000000\n".repeat(3) + &"06\n".repeat(500_000);
    assert!(answers == wanted);
    assert!(program.wait().unwrap().success());
}

#[test]
fn no_input_no_answer() {
    let (mut program, input, mut output) = start(&[]);
    drop(input);
    let mut answers = String::new();
    output.read_to_string(&mut answers).unwrap();
    assert_eq!(answers, "");
    assert!(program.wait().unwrap().success());
}

/// A file that is removed when it is no longer needed.
struct Temporary(PathBuf);

impl Temporary {
    fn new(name: &str, bytes: &[u8]) -> Self {
        let name = format!("second-{}-{name}", std::process::id());
        let path = std::env::temp_dir().join(name);
        fs::write(&path, bytes).expect("it can be written");
        Temporary(path)
    }

    fn path(&self) -> &str {
        self.0.to_str().expect("a plain name")
    }
}

impl Drop for Temporary {
    fn drop(&mut self) {
        // Nothing is lost if it stays.
        let _ = fs::remove_file(&self.0);
    }
}

/// What the program says to a script when called with some words.
fn run(words: &[&str], script: &str) -> Output {
    let mut program = Command::new(env!("CARGO_BIN_EXE_second"))
        .args(words)
        .stdin(Stdio::piped())
        .stdout(Stdio::piped())
        .stderr(Stdio::piped())
        .spawn()
        .expect("the program starts");
    let mut input = program.stdin.take().expect("its input");
    // A program that refuses its words reads nothing.
    let _ = input.write_all(script.as_bytes());
    drop(input);
    program.wait_with_output().expect("the program ends")
}

#[test]
fn the_size_of_a_save_decides_the_banks() {
    let script = "0200000A\n0240000F\n02A00512\n";
    let none = "captures 0 ended 0 whole 0 touched 0 dropped 0 held 0\n";
    for (banks, bank) in [(1, "0"), (2, "1"), (4, "3"), (8, "7"), (16, "F")] {
        let save = Temporary::new(&format!("banks-{banks}"), &vec![0; 8_192 * banks]);
        let said = run(&["audit", save.path()], script);
        let wanted = format!(
            "line 3 event changed bank {bank} from 0005 to 0005\n\
             line 3 event summary malformed 0 refused 0 {none}"
        );
        assert_eq!(String::from_utf8_lossy(&said.stdout), wanted);
        assert!(said.status.success() && said.stderr.is_empty());
    }
}

/// Nothing is printed but one sentence about why, and the status is 2.
fn refused(words: &[&str]) {
    let said = run(words, "00\n");
    assert_eq!(said.status.code(), Some(2), "{words:?}");
    assert!(said.stdout.is_empty());
    let sentence = String::from_utf8_lossy(&said.stderr);
    assert_eq!(sentence.lines().count(), 1, "{sentence}");
}

#[test]
fn refuses_words_and_files() {
    refused(&["audits"]);
    refused(&["audit", "no such file", "and a word more"]);
    refused(&["audit", "no such file"]);
    refused(&["audit", "/"]);
    refused(&["audit", "/dev/zero"]);
    for length in [0, 1, 8_191, 8_193, 3 * 8_192, 32 * 8_192, 131_073] {
        let save = Temporary::new(&format!("length-{length}"), &vec![0; length]);
        refused(&["audit", save.path()]);
    }
}
