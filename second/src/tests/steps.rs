//! One line on lent memory: the answers of a session, the refusals, and what is left alone.

use super::random::Random;
use crate::{
    step, Lines, Refusal, Session, State, FRAME_BYTES, LONGEST_ANSWER, RAM_BANK, RECORD_BYTES,
    ROM_BANK,
};

/// What the buffer holds before.
const BEFORE: u8 = 0xA5;

/// A record and memory as a session begins with them.
#[derive(Clone, Debug, PartialEq, Eq)]
pub struct Lent {
    pub record: Vec<u8>,
    pub rom: Vec<u8>,
    pub ram: Vec<u8>,
    pub store: Vec<u8>,
    pub image: Vec<u8>,
}

impl Lent {
    pub fn fresh() -> Self {
        Lent {
            record: State::RESET.to_bytes().into(),
            rom: vec![0xFF; ROM_BANK],
            ram: vec![0xFF; RAM_BANK],
            store: vec![0; FRAME_BYTES],
            image: vec![0; FRAME_BYTES],
        }
    }

    pub fn state(&self) -> State {
        State::from_bytes(&self.record).expect("it is a record")
    }

    fn play(&mut self, line: &[u8], out: &mut [u8]) -> Result<usize, Refusal> {
        step(
            &mut self.record,
            &self.rom,
            &mut self.ram,
            &mut self.store,
            &mut self.image,
            line,
            out,
        )
    }

    /// The answer to a line, in a buffer whose later bytes stay.
    pub fn answer(&mut self, line: &[u8]) -> String {
        let mut out = [BEFORE; LONGEST_ANSWER + 3];
        let length = self.play(line, &mut out).expect("it is not refused");
        assert!(out[length..].iter().all(|&byte| byte == BEFORE));
        let answer = out[..length].strip_suffix(b"\n").expect("its LF");
        String::from_utf8(answer.to_vec()).expect("digits")
    }
}

#[test]
fn the_session_of_the_paper() {
    let mut lent = Lent::fresh();
    for (line, answer) in [
        ("00", "00"),
        ("01A0FF", "00FF"),
        ("02400010", "00"),
        ("02A00003", "00"),
        ("01A000", "0003"),
        ("03000008BA", "00000008BA"),
        ("02A00002", "00"),
        ("02400000", "00"),
        ("01A100", "007F"),
        ("01A101", "007F"),
        ("02400010", "00"),
        ("02A00003", "00"),
        ("0300010000", "0000007804"),
        ("01A000", "0002"),
        ("02400000", "00"),
        ("01A100", "0000"),
        ("01AF00", "00FF"),
        ("018000", "05"),
        ("01a000", "06"),
        ("", "06"),
        ("00\n", "06"),
        ("00\n00", "06"),
    ] {
        assert_eq!(lent.answer(line.as_bytes()), answer, "{line}");
    }
    for length in [259, 260, 261, 100_000] {
        assert_eq!(lent.answer(&vec![b'0'; length]), "06");
    }
}

#[test]
fn a_row_goes_to_the_image() {
    let mut lent = Lent::fresh();
    let line = |row: u8| format!("04{row:02X}{}", "5A".repeat(128)).into_bytes();
    assert_eq!(lent.answer(&line(0x7F)), "00");
    let mut wanted = Lent::fresh();
    wanted.image[127 * 128..].fill(0x5A);
    assert_eq!(lent, wanted);
    assert_eq!(lent.answer(&line(0x80)), "06");
    let mut spoiled = line(3);
    spoiled[259] = b'a';
    assert_eq!(lent.answer(&spoiled), "06");
    assert_eq!(lent, wanted);
}

#[test]
fn a_session_line_by_line() {
    let mut random = Random::new(31);
    let mut text = Vec::new();
    for number in 0..6_000 {
        let line = match random.below(9) {
            0 => format!("04{:02X}{}", random.below(140), "9C".repeat(128)),
            1 => format!("02A000{:02X}", random.byte()),
            2 => format!("024000{:02X}", [0, 0x10, 0x10, 3][random.below(4) as usize]),
            3 => format!("01{:04X}", random.next() as u16),
            4 => format!("02{:04X}{:02X}", random.next() as u16, random.byte()),
            5 => format!("02A0{:02X}{:02X}", random.below(64), random.byte() & 3),
            6 => format!("03{:08X}", random.below(60_000)),
            7 if number % 50 == 0 => "00".into(),
            7 => "0200000A".into(),
            _ => "01A10".into(),
        };
        text.extend_from_slice(line.as_bytes());
        text.push(b'\n');
    }
    let (mut lines, mut session, mut lent) = (Lines::new(), Session::new(), Lent::fresh());
    lines.feed(&text, |line| {
        let mut answer = Vec::new();
        session.answer(line, &mut answer);
        let answer = String::from_utf8(answer).expect("digits");
        assert_eq!(lent.answer(line.expect("it is short")) + "\n", answer);
    });
}

#[test]
fn refusals() {
    // A buffer of 11 bytes is asked for, however short the answer; bytes that are no record come first.
    for room in 0..=LONGEST_ANSWER {
        let mut lent = Lent::fresh();
        let mut out = vec![BEFORE; room];
        let wanted = if room < 11 {
            Err(Refusal::Buffer)
        } else {
            Ok(3)
        };
        assert_eq!(lent.play(b"0200000A", &mut out), wanted);
        assert_eq!(lent.state().ram_enabled, room == 11);
        assert!(out.iter().skip(3).all(|&byte| byte == BEFORE));
    }
    let mut wrong = vec![
        vec![],
        vec![0; RECORD_BYTES - 1],
        vec![0; RECORD_BYTES + 1],
        vec![0; RECORD_BYTES],
    ];
    for flag in [1, 4] {
        let mut record = State::RESET.to_bytes();
        record[flag] = 2;
        wrong.push(record.to_vec());
    }
    for record in wrong {
        for (line, room) in [("00", 0), ("00", 11), ("01A000", 20), ("xx", 11)] {
            let mut lent = Lent::fresh();
            lent.record = record.clone();
            let before = lent.clone();
            let mut out = vec![BEFORE; room];
            let answer = lent.play(line.as_bytes(), &mut out);
            assert_eq!(answer, Err(Refusal::State));
            assert!(lent == before && out == vec![BEFORE; room]);
        }
    }
}

#[test]
fn a_refusal_of_the_line_is_its_answer() {
    let row = format!("0400{}", "11".repeat(128));
    let lines = ["00", "018000", "0280000A", "0300000001", &row, "0"];
    let answers = |change: &dyn Fn(&mut Lent)| {
        lines.map(|line| {
            let mut lent = Lent::fresh();
            change(&mut lent);
            let before = lent.clone();
            let answer = lent.answer(line.as_bytes());
            if answer.len() == 2 && answer != "00" {
                assert!(lent == before, "{line}");
            }
            answer
        })
    };
    // A record that can't exist is a record: a call refuses it, and a reset mends it.
    assert_eq!(
        answers(&|lent| lent.record[2] = 64),
        ["00", "01", "01", "01", "00", "06"]
    );
    assert_eq!(
        answers(&|lent| lent.rom.truncate(9)),
        ["00", "02", "05", "0000000000", "00", "06"]
    );
    assert_eq!(
        answers(&|lent| lent.ram.truncate(9)),
        ["00", "03", "03", "03", "00", "06"]
    );
    assert_eq!(
        answers(&|lent| lent.store.truncate(9)),
        ["00", "05", "04", "04", "00", "06"]
    );
    assert_eq!(
        answers(&|lent| lent.image.truncate(9)),
        ["00", "05", "04", "0000000000", "04", "06"]
    );
    let mut lent = Lent::fresh();
    lent.record[2] = 64;
    assert_eq!(lent.answer(b"00"), "00");
    assert_eq!(lent, Lent::fresh());
}
