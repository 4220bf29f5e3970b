//! Scripts cleaned, beside a slow reading of the request.

use super::random::Random;
use crate::{salvage, Frame, Refusal, Salvaged};

/// What the buffers hold before.
const BEFORE: u8 = 0xA5;

/// The lines of a script by the paper; a last one without LF counts if it has a byte.
fn lines(script: &[u8]) -> Vec<&[u8]> {
    let mut lines: Vec<&[u8]> = script.split(|&byte| byte == b'\n').collect();
    if lines.last().is_some_and(|line| line.is_empty()) {
        lines.pop();
    }
    lines
}

/// Whether a line is accepted, by its kind, length and digits.
fn is_accepted(line: &[u8]) -> bool {
    let text = String::from_utf8_lossy(line);
    let digits = text.bytes().all(|byte| b"0123456789ABCDEF".contains(&byte));
    let lengths = [("00", 2), ("01", 6), ("02", 8), ("03", 10), ("04", 260)];
    let fits = lengths
        .iter()
        .any(|&(kind, length)| text.starts_with(kind) && line.len() == length);
    digits && fits && !(text.starts_with("04") && line[2] >= b'8')
}

/// The cleaned text and the report, from lists of lines.
fn slow_salvage(script: &[u8]) -> (Vec<u8>, Vec<u8>) {
    let lines = lines(script);
    let mut kept: Vec<usize> = (0..lines.len())
        .filter(|&number| is_accepted(lines[number]))
        .collect();
    loop {
        let half = kept.len() / 2;
        let line = |number: &usize| lines[*number];
        let twice = kept.len() % 2 == 0
            && kept[..half]
                .iter()
                .map(line)
                .eq(kept[half..].iter().map(line));
        if !twice || half == 0 || lines[kept[0]] != b"00" || lines[kept[half]] != b"00" {
            break;
        }
        kept.truncate(half);
    }
    let mut text = Vec::new();
    for &number in &kept {
        text.extend(lines[number]);
        text.push(b'\n');
    }
    let about = |number| match (is_accepted(lines[number]), kept.contains(&number)) {
        (false, _) => 1,
        (true, true) => 0,
        (true, false) => 2,
    };
    (text, (0..lines.len()).map(about).collect())
}

/// Cleans a script with buffers of some room more than needed, and sees that the rest stays.
fn salvaged(script: &[u8]) -> (Vec<u8>, Vec<u8>) {
    let room = script.len() + 9;
    let (mut text, mut report) = (vec![BEFORE; room], vec![BEFORE; room]);
    let Salvaged { length, lines } = salvage(script, &mut text, &mut report).unwrap();
    assert!(text[length..].iter().all(|&byte| byte == BEFORE));
    assert!(report[lines..].iter().all(|&byte| byte == BEFORE));
    text.truncate(length);
    report.truncate(lines);
    (text, report)
}

fn check(script: &str, text: &str, report: &[u8]) {
    let wanted = (text.as_bytes().to_vec(), report.to_vec());
    assert_eq!(salvaged(script.as_bytes()), wanted, "{script:?}");
    assert_eq!(slow_salvage(script.as_bytes()), wanted, "{script:?}");
}

#[test]
fn by_hand() {
    check("", "", &[]);
    check("\n", "", &[1]);
    check("00", "00\n", &[0]);
    check("00\n", "00\n", &[0]);
    check("00\n\n", "00\n", &[0, 1]);
    check("01A000\n01A000\n", "01A000\n01A000\n", &[0, 0]);
    check("00\n01A000\n00\n01A000", "00\n01A000\n", &[0, 0, 2, 2]);
    check("00\nxx\n00\n01A0\n", "00\n", &[0, 1, 2, 1]);
    check("00\n00\n00\n", "00\n00\n00\n", &[0, 0, 0]);
    check("00\n00\n00\n00\n", "00\n", &[0, 2, 2, 2]);
    check(
        "00\n00\n00\n00\n00\n00\n",
        "00\n00\n00\n",
        &[0, 0, 0, 2, 2, 2],
    );
    // The repetition is seen only once the broken lines are gone.
    check(
        "00\n02A0\n0300000001\n00\r\n00\n0300000001\n01a000",
        "00\n0300000001\n",
        &[0, 1, 0, 1, 2, 2, 1],
    );
    // A longer second half, or another one, is no repetition.
    check(
        "00\n018000\n00\n018001",
        "00\n018000\n00\n018001\n",
        &[0; 4],
    );
    check(
        "018000\n00\n018000\n00\n",
        "018000\n00\n018000\n00\n",
        &[0; 4],
    );
    // Halved, halved again, and then the halves differ.
    check(
        &"00\n00\n018000\n".repeat(4),
        "00\n00\n018000\n",
        &[0, 0, 0, 2, 2, 2, 2, 2, 2, 2, 2, 2],
    );
}

#[test]
fn lines_of_every_length() {
    let row = format!("047F{}", "5A".repeat(128));
    check(&format!("{row}\n"), &format!("{row}\n"), &[0]);
    check(&format!("{row}0\n00"), "00\n", &[1, 0]);
    check(&format!("0480{}\n", "5A".repeat(128)), "", &[1]);
    check(&format!("{}\n00\n", "0".repeat(30_000)), "00\n", &[1, 0]);
    check(&"0".repeat(32_768), "", &[1]);
}

#[test]
fn the_largest_script() {
    let mut script = "00\n".repeat(10_922).into_bytes();
    assert_eq!(script.len(), 32_766);
    script.extend(b"\n\n");
    let (text, report) = salvaged(&script);
    // 10,922 is twice an odd number.
    assert!(text == b"00\n".repeat(5_461));
    assert_eq!(report.len(), 10_924);
    assert!(report[..5_461].iter().all(|&about| about == 0));
    assert!(report[5_461..10_922].iter().all(|&about| about == 2));
    assert_eq!(report[10_922..], [1, 1]);
    assert!(salvaged(&[b'\n'; 32_768]) == (vec![], vec![1; 32_768]));
    for length in [32_769, 40_000, 100_000] {
        let script = vec![b'\n'; length];
        let (mut text, mut report) = ([BEFORE; 9], vec![BEFORE; length]);
        let refused = salvage(&script, &mut text, &mut report);
        assert_eq!(refused, Err(Refusal::Script));
        assert!(text == [BEFORE; 9] && report == vec![BEFORE; length]);
        assert_eq!(salvage(&script, &mut [], &mut []), Err(Refusal::Script));
    }
}

#[test]
fn the_longest_text() {
    // Nothing is dropped, and the last line gains its LF.
    let script = "0300000001\n".repeat(2_974) + &"00\n".repeat(16) + "018000";
    assert_eq!(script.len(), 32_768);
    check(&script, &format!("{script}\n"), &[0; 2_991]);
}

#[test]
fn buffers() {
    let script = b"00\n01A000\nxx\n00\n01A000\n\n\n";
    let wanted = salvaged(script);
    let (length, lines) = (wanted.0.len(), wanted.1.len());
    assert_eq!((length, lines), (10, 7));
    for room in 0..14 {
        for report_room in 0..10 {
            let (mut text, mut report) = (vec![BEFORE; room], vec![BEFORE; report_room]);
            let answer = salvage(script, &mut text, &mut report);
            if room < length || report_room < lines {
                assert_eq!(answer, Err(Refusal::Buffer));
                assert_eq!(text, vec![BEFORE; room]);
                assert_eq!(report, vec![BEFORE; report_room]);
            } else {
                assert_eq!(answer, Ok(Salvaged { length, lines }));
                assert_eq!(text[..length], wanted.0);
                assert_eq!(report[..lines], wanted.1);
            }
        }
    }
    let nothing = Salvaged {
        length: 0,
        lines: 0,
    };
    assert_eq!(salvage(b"", &mut [], &mut []), Ok(nothing));
}

/// A line, mostly accepted, from so few that sequences repeat by chance.
fn random_line(random: &mut Random) -> Vec<u8> {
    match random.below(12) {
        0..=4 => b"00".to_vec(),
        5..=7 => b"01A000".to_vec(),
        8 => b"0200000A".to_vec(),
        9 => format!("04{:02X}{}", random.below(144), "77".repeat(128)).into_bytes(),
        10 => b"0300000001".to_vec(),
        _ => {
            let mut line = b"01A000".to_vec();
            match random.below(4) {
                0 => line.clear(),
                1 => line.push(b'\r'),
                2 => line[random.below(6) as usize] = random.byte(),
                _ => line = vec![b'0'; 250 + random.below(20) as usize],
            }
            line
        }
    }
}

#[test]
fn random_scripts() {
    let mut random = Random::new(29);
    let (mut dropped, mut twice) = (0, 0);
    for _ in 0..20_000 {
        let count = random.below(6);
        let mut lines: Vec<Vec<u8>> = (0..count).map(|_| random_line(&mut random)).collect();
        if random.below(2) == 0 {
            lines.insert(0, b"00".to_vec());
        }
        for _ in 0..random.below(4) {
            lines.extend(lines.clone());
        }
        for _ in 0..random.below(3) {
            let place = random.below(lines.len() as u64 + 1) as usize;
            lines.insert(place, random_line(&mut random));
        }
        let mut script = lines.join(&b'\n');
        if random.below(2) == 0 {
            script.push(b'\n');
        }
        let (text, report) = salvaged(&script);
        assert_eq!((text.clone(), report.clone()), slow_salvage(&script));
        let kept = report.iter().filter(|&&about| about == 0).count();
        let repeated = report.iter().filter(|&&about| about == 2).count();
        dropped += usize::from(repeated > 0);
        twice += usize::from(repeated > kept);
        // Cleaning the result again keeps all of it.
        assert_eq!(salvaged(&text), (text.clone(), vec![0; kept]));
        let lines = text.split_inclusive(|&byte| byte == b'\n');
        assert!(lines
            .map(|line| &line[..line.len() - 1])
            .all(|line| Frame::parse(line).is_some()));
    }
    assert!(dropped > 3_000 && twice > 1_000, "{dropped}, {twice}");
}
