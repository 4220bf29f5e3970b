//! Random scripts fed to two programs.

use crate::random::Random;
use crate::shrink::shrink;
use std::io::{self, BufRead, BufReader, Write};
use std::process::{Child, Command, Stdio};
use std::sync::mpsc;
use std::thread;
use std::time::{Duration, Instant};

/// How long an answer to a finished line may take.
const PATIENCE: Duration = Duration::from_secs(20);

/// Feeds scripts to both programs; true if they print the same, byte for byte.
pub fn compare(a: &str, b: &str, scripts: u64, seed: u64) -> bool {
    let start = Instant::now();
    let mut random = Random::new(seed);
    let mut lines = 0;
    for number in 0..scripts {
        let script = Script::random(&mut random, number);
        lines += script.lines.len();
        if agreed(a, b, script).is_none() {
            return false;
        }
    }
    let prompt = [a, b]
        .iter()
        .all(|program| answers_before_it_waits(program));
    println!(
        "seed {seed}: {scripts} scripts of {lines} lines, {} differences, {:.1} s",
        u8::from(!prompt),
        start.elapsed().as_secs_f64()
    );
    prompt
}

/// What both programs print of a script; none, and the difference is shown, if they don't agree.
pub fn agreed(a: &str, b: &str, script: Script) -> Option<Vec<u8>> {
    match both(a, b, &script) {
        Ok([a, b]) if a.same(&b) => return Some(a.printed),
        Ok(_) => show(a, b, script),
        Err(error) => println!("a program can't be run: {error}"),
    }
    None
}

/// A script and whether its last line ends in LF.
#[derive(Clone)]
pub struct Script {
    pub lines: Vec<Vec<u8>>,
    pub ended: bool,
}

impl Script {
    fn random(random: &mut Random, number: u64) -> Script {
        let length = random.pick(&[0, 1, 2, 10, 100, 1_000, 3_000]);
        let mut lines = Vec::new();
        // Some scripts are all valid, some damaged now and then, some mostly so.
        let damage = [0, 50, 3][(number % 3) as usize];
        while lines.len() < length {
            for mut line in frames(random) {
                if damage > 0 && random.once_in(damage) {
                    spoil(random, &mut line);
                }
                lines.push(line);
            }
        }
        Script {
            lines,
            ended: !random.once_in(3),
        }
    }

    /// The script as it is fed.
    pub fn bytes(&self) -> Vec<u8> {
        let mut bytes = self.lines.join(&b'\n');
        if self.ended && !self.lines.is_empty() {
            bytes.push(b'\n');
        }
        bytes
    }
}

/// One frame, or a few that belong together.
pub fn frames(random: &mut Random) -> Vec<Vec<u8>> {
    let lines = match random.below(100) {
        0 => [start(random), look(random)].concat(),
        1 => vec!["00".into()],
        2..=8 => vec![row(random)],
        9..=40 => vec![format!("01{:04X}", address(random))],
        41..=50 => vec![format!("02{:04X}{:02X}", address(random), random.byte())],
        51..=60 => vec![format!("02A000{:02X}", random.byte())],
        61..=64 => vec![format!("024000{:02X}", random.pick(&[0, 0x10, 0x1F, 0x0F]))],
        65..=66 => vec![format!("020000{:02X}", random.pick(&[0, 0x0A, 0x0A, 0x33]))],
        67..=68 => vec![format!("03{:08X}", random.next() as u32)],
        69..=75 => vec![format!("03{:08X}", random.below(40_000))],
        _ => vec![format!("03{:08X}", random.below(1_000))],
    };
    lines.into_iter().map(String::into_bytes).collect()
}

fn address(random: &mut Random) -> u16 {
    match random.below(4) {
        0 => random.next() as u16,
        1 => 0xA000 + random.below(0x2000) as u16,
        _ => 0xA100 + random.below(0xE00) as u16,
    }
}

fn row(random: &mut Random) -> String {
    let row = if random.once_in(20) {
        random.byte()
    } else {
        random.byte() & 0x7F
    };
    let pixels: String = (0..128).map(|_| format!("{:02X}", random.byte())).collect();
    format!("04{row:02X}{pixels}")
}

/// Registers and a start.
fn start(random: &mut Random) -> Vec<String> {
    let mut lines = vec!["02400010".into(), "02A00000".into()];
    for register in 1..54 {
        let value = if register == 2 {
            random.byte() & 3
        } else {
            random.byte()
        };
        lines.push(format!("02A0{register:02X}{value:02X}"));
    }
    lines.push(format!("02A000{:02X}", random.byte() | 1));
    lines
}

/// Some of the picture, part of the way and at the end.
fn look(random: &mut Random) -> Vec<String> {
    let mut lines = Vec::new();
    for cycles in [random.below(60_000), 0x20_0000] {
        lines.extend([
            format!("03{cycles:08X}"),
            "02A00002".into(),
            "02400000".into(),
        ]);
        lines.extend((0..12).map(|_| format!("01{:04X}", 0xA100 + random.below(0xE00))));
        lines.extend(["02400010".into(), "02A00003".into()]);
    }
    lines
}

/// Damages a line in one way.
pub fn spoil(random: &mut Random, line: &mut Vec<u8>) {
    let place = random.below(line.len() as u32) as usize;
    match random.below(10) {
        0 => line[place] = random.byte(),
        1 => drop(line.remove(place)),
        2 => line.insert(place, b'0'),
        3 => line.push(b'\r'),
        4 => line.make_ascii_lowercase(),
        5 => line.clear(),
        6 => line[place] = random.pick(&[0, 0xFF, b' ', b'G', b'@', b'/', b':', b'a', b'\r']),
        7 => line.resize(random.pick(&[257, 258, 259, 260, 261, 262, 263]), b'0'),
        8 => line.resize(
            random.pick(&[500, 4_096, 65_535, 65_536, 65_537, 100_000]),
            b'0',
        ),
        _ => line.truncate(place),
    }
    // A random byte may be an LF, which would make two lines of one.
    line.iter_mut()
        .filter(|byte| **byte == b'\n')
        .for_each(|byte| *byte = b'\t');
}

/// Starts a program, named with its arguments in words apart by spaces, on pipes.
fn start_program(program: &str, said: Stdio) -> io::Result<Child> {
    let mut words = program.split_whitespace();
    Command::new(words.next().unwrap_or_default())
        .args(words)
        .stdin(Stdio::piped())
        .stdout(Stdio::piped())
        .stderr(said)
        .spawn()
}

/// What a program does with some input.
struct Ran {
    printed: Vec<u8>,
    status: Option<i32>,
    /// Its sentences about what is not as it must be.
    said: Vec<u8>,
}

impl Ran {
    /// The same is printed, byte for byte, and both end alike; each has its own words for why.
    fn same(&self, other: &Ran) -> bool {
        self.printed == other.printed
            && self.status == other.status
            && self.said.is_empty() == other.said.is_empty()
    }
}

fn run(program: &str, input: Vec<u8>) -> io::Result<Ran> {
    let mut child = start_program(program, Stdio::piped())?;
    let mut stdin = child.stdin.take().expect("its input is piped");
    // A program that ends early shows in its output.
    let writer = thread::spawn(move || drop(stdin.write_all(&input)));
    let output = child.wait_with_output()?;
    writer.join().expect("the writer ends");
    Ok(Ran {
        printed: output.stdout,
        status: output.status.code(),
        said: output.stderr,
    })
}

fn both(a: &str, b: &str, script: &Script) -> io::Result<[Ran; 2]> {
    Ok([run(a, script.bytes())?, run(b, script.bytes())?])
}

/// Shows the shortest script found that still differs.
fn show(a: &str, b: &str, script: Script) {
    println!(
        "DIFFERENCE in a script of {} lines, being made shorter",
        script.lines.len()
    );
    let ended = script.ended;
    let fails = |lines: &[Vec<u8>]| {
        let script = Script {
            lines: lines.to_vec(),
            ended,
        };
        both(a, b, &script).is_ok_and(|[a, b]| !a.same(&b))
    };
    let lines = shrink(script.lines, fails);
    let script = Script { lines, ended };
    println!("script{}:", if ended { "" } else { ", without a last LF" });
    script
        .lines
        .iter()
        .for_each(|line| println!("  {}", line.escape_ascii()));
    for program in [a, b] {
        match run(program, script.bytes()) {
            Ok(ran) => println!(
                "{program} ends with {:?}, says {:?} and prints:\n  {}",
                ran.status,
                String::from_utf8_lossy(&ran.said),
                ran.printed.escape_ascii()
            ),
            Err(error) => println!("{program}: {error}"),
        }
    }
}

/// Whether each line is answered while the program waits for the next.
fn answers_before_it_waits(program: &str) -> bool {
    let prompt = prompt_answers(program).unwrap_or(false);
    if !prompt {
        println!("DIFFERENCE: {program} waits for input before it has answered");
    }
    prompt
}

fn prompt_answers(program: &str) -> io::Result<bool> {
    let mut child = start_program(program, Stdio::inherit())?;
    let mut stdin = child.stdin.take().expect("its input is piped");
    let stdout = BufReader::new(child.stdout.take().expect("its output is piped"));
    let (sender, receiver) = mpsc::channel();
    let reader = thread::spawn(move || {
        stdout
            .lines()
            .map_while(Result::ok)
            .for_each(|line| drop(sender.send(line)))
    });
    let mut prompt = true;
    for (line, wanted) in [
        ("01A0FF\n", "00FF"),
        ("03FFFFFFFF\n", "0000000000"),
        ("\n", "06"),
        ("018000\n", "05"),
    ] {
        stdin.write_all(line.as_bytes())?;
        stdin.flush()?;
        if receiver.recv_timeout(PATIENCE) != Ok(wanted.into()) {
            prompt = false;
            break;
        }
    }
    drop(stdin);
    prompt &= child.wait()?.success();
    drop(reader.join());
    Ok(prompt)
}
