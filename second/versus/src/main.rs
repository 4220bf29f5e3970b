//! The archive against the second program, call by call.
//!
//! `versus [CALLS [SEED]]` plays random histories and sweeps on both and compares every answer,
//! state and lent byte. `versus script PROGRAM_A PROGRAM_B [SCRIPTS [SEED]]` feeds random scripts
//! to two programs and compares what they print; each is named with its arguments in one word of
//! the shell, apart by spaces. `versus audit PROGRAM_A PROGRAM_B [RECORDINGS [SEED]]` compares so what
//! two programs say of random recordings; where their arguments have the word SAVE, the name of a
//! battery save stands in its place. `versus answers FILE [CALLS [SEED]]` compares as the first does, and
//! writes every call with the second program's answer to a file, for another caller to replay.
//!
//! The modules from the bottom up, each of which uses only those named before it:
//! call, random, shrink, script, recordings, files, sides, answers, lines, sweep, photos, plates, rows, salvages, saves, judged, steps, history.

#![forbid(unsafe_code)]

mod answers;
mod call;
mod files;
mod history;
mod judged;
mod lines;
mod photos;
mod plates;
mod random;
mod recordings;
mod rows;
mod salvages;
mod saves;
mod script;
mod shrink;
mod sides;
mod steps;
mod sweep;

use answers::Answers;
use call::Call;
use history::History;
use random::Random;
use sides::{Beginning, Pair};
use std::fmt::Display;
use std::process::ExitCode;
use std::time::Instant;
use sweep::Tally;

/// Calls compared in random histories unless told otherwise.
const CALLS: u64 = 1_200_000;
/// Calls of one history.
const HISTORY: u64 = 2_000;
/// Differences shown before giving up.
const SHOWN: usize = 3;
/// Calls of the histories whose answers are written unless told otherwise.
const ANSWERED: u64 = 120_000;
/// Scripts fed unless told otherwise.
const SCRIPTS: u64 = 300;
/// Recordings audited unless told otherwise.
const RECORDINGS: u64 = 400;

fn main() -> ExitCode {
    let arguments: Vec<String> = std::env::args().skip(1).collect();
    let number = |place: usize, default| match arguments.get(place) {
        Some(word) => word.parse().ok(),
        None => Some(default),
    };
    let same = match arguments.first().map(String::as_str) {
        Some("script") => match (arguments.get(1..3), number(3, SCRIPTS), number(4, 1)) {
            (Some([a, b]), Some(scripts), Some(seed)) => script::compare(a, b, scripts, seed),
            _ => return usage(),
        },
        Some("audit") => match (arguments.get(1..3), number(3, RECORDINGS), number(4, 1)) {
            (Some([a, b]), Some(count), Some(seed)) => recordings::compare(a, b, count, seed),
            _ => return usage(),
        },
        Some("answers") => match (arguments.get(1), number(2, ANSWERED), number(3, 1)) {
            (Some(file), Some(calls), Some(seed)) => write_answers(file, calls, seed),
            _ => return usage(),
        },
        _ => match (number(0, CALLS), number(1, 1)) {
            (Some(calls), Some(seed)) => compare(calls, seed, None).is_some(),
            _ => return usage(),
        },
    };
    if same {
        ExitCode::SUCCESS
    } else {
        ExitCode::FAILURE
    }
}

fn usage() -> ExitCode {
    eprintln!("usage: versus [CALLS [SEED]]");
    eprintln!("       versus script PROGRAM_A PROGRAM_B [SCRIPTS [SEED]]");
    eprintln!("       versus audit PROGRAM_A PROGRAM_B [RECORDINGS [SEED]]");
    eprintln!("       versus answers FILE [CALLS [SEED]]");
    ExitCode::from(2)
}

/// Sweeps and histories with their answers written to a file or a pipe; true if nothing differs.
fn write_answers(path: &str, calls: u64, seed: u64) -> bool {
    let written = Answers::new(path).and_then(|answers| {
        compare(calls, seed, Some(answers))
            .flatten()
            .map(Answers::finish)
            .transpose()
    });
    match written {
        Ok(whole) => whole.is_some(),
        Err(error) => {
            eprintln!("versus: {path} can't be written: {error}");
            false
        }
    }
}

/// Sweeps and histories; gives the answers back, if they were asked for, where nothing differs.
fn compare(calls: u64, seed: u64, answers: Option<Answers>) -> Option<Option<Answers>> {
    let start = Instant::now();
    let mut random = Random::new(seed);
    let mut tally = Tally {
        answers,
        ..Tally::default()
    };
    sweeps(&mut tally, &mut random);
    tally
        .differences
        .iter()
        .take(SHOWN)
        .for_each(|difference| println!("DIFFERENCE: {difference}"));
    let mut differences = tally.differences.len();
    let (mut compared, mut captures, mut halves, mut placed, mut readings) = (0, 0, 0, [0; 2], 0);
    let (mut salvaged, mut restored) = (0, [0; 2]);
    while compared < calls && differences < SHOWN {
        let mut history = History::new(&mut random);
        if let Err(difference) = history.play(HISTORY.min(calls - compared), tally.answers.as_mut())
        {
            differences += 1;
            report(&history.beginning, history.calls.clone(), &difference);
        }
        compared += history.compared;
        captures += history.captures;
        halves += history.halves;
        placed = [0, 1].map(|what| placed[what] + history.placed[what]);
        readings += history.readings;
        salvaged += history.salvaged;
        restored = [0, 1].map(|what| restored[what] + history.restored[what]);
    }
    println!(
        "histories: {compared} calls compared, {captures} whole captures, \
         {halves} files made while a capture was running, {} plates placed and {} turned away \
         while a capture was held, {readings} files made of readings, {salvaged} scripts salvaged, \
         {} saves restored and {} files turned away that are none",
        placed[0], placed[1], restored[0], restored[1]
    );
    println!(
        "seed {seed}: {} calls compared in all, {captures} whole captures, {differences} differences, {:.1} s",
        compared + tally.compared,
        start.elapsed().as_secs_f64()
    );
    (differences == 0).then_some(tally.answers)
}

/// Every sweep there is, and a line about each.
fn sweeps(tally: &mut Tally, random: &mut Random) {
    told(tally, "refusal combinations", |tally| {
        sweep::refusals(tally);
        ""
    });
    told(tally, "picture settings", |tally| {
        sweep::pictures(tally, random);
        ""
    });
    told(tally, "lines written", |tally| {
        compare_lines(tally, random);
        ""
    });
    told(tally, "plates as files and shades", |tally| {
        sweep::exports(tally, random);
        ""
    });
    told(tally, "plates placed", |tally| {
        let placed = plates::compare(tally, random);
        format!(", {placed} of them of files that are placed")
    });
    told(tally, "readings", |tally| {
        sweep::readings(tally, random);
        ""
    });
    told(tally, "captures begun by a start", |tally| {
        sweep::starts(tally, random);
        ""
    });
    told(tally, "rows outside 7 to 120", |tally| {
        let [first, last] = rows::compare(tally, random);
        format!("; row 7 changes the picture in {first} of 64 settings, row 120 in {last}")
    });
    told(tally, "choices", |tally| {
        sweep::choices(tally);
        ""
    });
    told(tally, "photographs", |tally| {
        let read = photos::compare(tally, random);
        format!(", {read} of them of files that are read")
    });
    told(tally, "scripts salvaged", |tally| {
        let [salvaged, halved] = salvages::compare(tally, random);
        format!(
            ", {salvaged} of them not refused, and {halved} of these with lines dropped as repeated"
        )
    });
    told(tally, "saves", |tally| {
        let restored = saves::compare(tally, random);
        format!(", {restored} of them of files that are read")
    });
    told(tally, "plates judged", |tally| {
        let [whole, mixed] = judged::compare(tally, random);
        format!(", {whole} of them of a frame's own plate and {mixed} of one that is so in part")
    });
    told(tally, "steps", |tally| {
        let [done, refused] = steps::compare(tally, random);
        format!(", {done} of them answered 00 and {refused} answered with a refusal of the line")
    });
}

/// Makes a sweep and says how many calls it compared, and what it has to say itself.
fn told<More: Display>(tally: &mut Tally, name: &str, sweep: impl FnOnce(&mut Tally) -> More) {
    let before = tally.compared;
    let more = sweep(tally);
    println!("{name}: {} calls compared{more}", tally.compared - before);
}

/// Frames written as lines: some with all that is lent around them, and every one there is.
fn compare_lines(tally: &mut Tally, random: &mut Random) {
    sweep::lines(tally, random);
    match lines::compare(random) {
        Ok(compared) => tally.compared += compared,
        Err(difference) => tally.differences.push(difference),
    }
}

/// Where a list of calls makes the sides part, if it does.
fn replay(beginning: &Beginning, calls: &[Call]) -> Option<(usize, String)> {
    let mut pair = Pair::new(beginning);
    calls
        .iter()
        .enumerate()
        .find_map(|(place, call)| pair.play(call).err().map(|difference| (place, difference)))
}

/// Shows the shortest list of calls found that still fails.
fn report(beginning: &Beginning, calls: Vec<Call>, difference: &str) {
    println!(
        "DIFFERENCE after {} steps, being made shorter: {difference}",
        calls.len()
    );
    let fails = |calls: &[Call]| replay(beginning, calls).is_some();
    let calls = merge_ticks(shrink::shrink(calls, fails), fails);
    println!("{beginning:?}");
    calls.iter().for_each(|call| println!("  {call}"));
    if let Some((place, difference)) = replay(beginning, &calls) {
        println!("  at step {}: {difference}", place + 1);
    }
}

/// Makes one tick of two that follow each other while the list still fails.
fn merge_ticks(mut calls: Vec<Call>, fails: impl Fn(&[Call]) -> bool) -> Vec<Call> {
    let mut place = 0;
    while let [first, second, ..] = &calls[place..] {
        let merged = match (first, second) {
            (Call::Tick { cycles: a }, Call::Tick { cycles: b }) => a.checked_add(*b),
            _ => None,
        };
        let shorter = merged.map(|cycles| {
            [
                &calls[..place],
                &[Call::Tick { cycles }],
                &calls[place + 2..],
            ]
            .concat()
        });
        match shorter.filter(|calls| fails(calls)) {
            Some(shorter) => calls = shorter,
            None => place += 1,
        }
    }
    calls
}
