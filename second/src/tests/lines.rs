//! Lines of every kind, whole and in pieces.

use crate::{Frame, Lines, Session};

/// What a fresh session answers to a stream fed in pieces of a given size.
fn answers(stream: &[u8], piece: usize) -> String {
    let (mut lines, mut session, mut out) = (Lines::new(), Session::new(), Vec::new());
    for piece in stream.chunks(piece) {
        lines.feed(piece, |line| session.answer(line, &mut out));
    }
    lines.finish(|line| session.answer(line, &mut out));
    String::from_utf8(out).unwrap()
}

/// Checks the answers, whatever the pieces the stream comes in.
fn check(stream: &[u8], wanted: &str) {
    for piece in [1, 2, 3, 7, 259, 260, 261, 262, 65_536, usize::MAX] {
        assert_eq!(answers(stream, piece), wanted, "in pieces of {piece}");
    }
}

fn row_line(row: u8) -> Vec<u8> {
    format!("04{row:02X}{}", "5A".repeat(128)).into_bytes()
}

#[test]
fn lengths() {
    for length in [1, 2, 258, 259, 261, 262, 1_000, 100_000] {
        let mut stream = vec![b'0'; length];
        let wanted = if length == 2 { "00\n" } else { "06\n" };
        check(&stream, wanted);
        stream.push(b'\n');
        check(&stream, wanted);
        stream.extend(b"01A000\n");
        check(&stream, &format!("{wanted}00FF\n"));
    }
    check(b"", "");
    check(b"\n", "06\n");
    check(b"\n\n00", "06\n06\n00\n");
}

#[test]
fn the_longest_line() {
    for row in 0..=255 {
        let line = row_line(row);
        assert_eq!(line.len(), 260);
        let answer = if row <= 0x7F { "00\n" } else { "06\n" };
        assert_eq!(answers(&line, usize::MAX), answer);
    }
    let mut stream = row_line(0x7F);
    stream.extend(b"\n");
    stream.extend(row_line(0x80));
    stream.extend(b"\n");
    stream.extend(row_line(0x00));
    stream.extend(b"A\n00\n");
    stream.extend(&row_line(1)[..259]);
    check(&stream, "00\n06\n06\n00\n06\n");
}

#[test]
fn rows_reach_the_image() {
    // Only the first of the four matrix columns and rows has thresholds; only sensor row 8 is bright.
    let mut stream = b"02400010\n02A00201\n02A00690\n02A00790\n02A00890\n".to_vec();
    stream.extend(format!("0408{}\n", "FF".repeat(128)).bytes());
    stream.extend(b"02A00003\n0300100000\n02400000\n01A100\n01A102\n01A108\n01A109\n");
    let wanted = "00\n".repeat(7) + "00000090BE\n00\n0000\n0000\n0088\n0088\n";
    check(&stream, &wanted);
}

#[test]
fn malformed() {
    for line in [
        "0",
        "000",
        "0000",
        "05",
        "FF",
        "10",
        "01",
        "01A00",
        "01A0000",
        "01a000",
        "01A00g",
        "02A000",
        "02A0000",
        "02A000000",
        "03",
        "030000000",
        "03000000000",
        "04",
        "0400",
        " 00",
        "00 ",
        "-0",
        "0x",
        "00\r",
        "01A000\r",
        "01A0\u{0}0",
        "01:000",
        "01@000",
        "01G000",
        "01/000",
        "0b",
    ] {
        check(format!("{line}\n00\n{line}").as_bytes(), "06\n00\n06\n");
    }
    check(b"01A0\xFF0\n\xFF\n\0\n\0\0\n00", "06\n06\n06\n06\n00\n");
    let mut line = row_line(3);
    for place in 0..260 {
        for byte in [b'a', 0, 0xFF, b'\r'] {
            let good = std::mem::replace(&mut line[place], byte);
            assert_eq!(answers(&line, usize::MAX), "06\n");
            line[place] = good;
        }
    }
}

#[test]
fn only_upper_case_digits() {
    for byte in 0..=255 {
        let line = [b'0', b'1', b'A', b'0', b'0', byte];
        let good = byte.is_ascii_digit() || (b'A'..=b'F').contains(&byte);
        assert_eq!(Frame::parse(&line).is_some(), good);
    }
}

#[test]
fn frames() {
    assert_eq!(Frame::parse(b"00"), Some(Frame::Reset));
    assert_eq!(
        Frame::parse(b"01BCDE"),
        Some(Frame::Read { address: 0xBCDE })
    );
    assert_eq!(
        Frame::parse(b"02F0129A"),
        Some(Frame::Write {
            address: 0xF012,
            value: 0x9A
        })
    );
    assert_eq!(
        Frame::parse(b"03FFFFFFFF"),
        Some(Frame::Tick { cycles: u32::MAX })
    );
    let row = Frame::Row {
        row: 0x7F,
        pixels: [0x5A; 128],
    };
    assert_eq!(Frame::parse(&row_line(0x7F)), Some(row));
    assert_eq!(Frame::parse(&row_line(0x80)), None);
}

#[test]
fn answers_of_every_kind() {
    check(b"03FFFFFFFF\n", "0000000000\n");
    check(b"018000\n01C000\n029FFF00\n02FFFF00\n", "05\n05\n05\n05\n");
    check(
        b"0200000A\n02A1235B\n01A123\n01A122\n017FFF",
        "00\n00\n005B\n00FF\n00FF\n",
    );
}
