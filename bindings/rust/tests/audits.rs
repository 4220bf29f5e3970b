//! What is said of recordings and plates: events, lines carried out one by one, and rows that are a frame's.

mod common;

use common::{begin, frame, registers};
use gulxinett::{
    bytes, judge, picture, Audit, Cartridge, Refusal, ANSWER_BYTES, FRAME_BYTES, LINE_BYTES,
    PICTURE_BYTES, PICTURE_ROWS, RAM_BANK, REGISTERS, ROM_BANK, ROW_BYTES,
};

const SCRIPT: &[u8] = include_bytes!("../../../crates/audit/stdin");
const EVENTS: &str = include_str!("../../../crates/audit/stdout");

/// The events of a recording that is fed in pieces of a length.
fn events(mut audit: Audit, script: &[u8], length: usize) -> Vec<String> {
    let mut events = Vec::new();
    let mut event = |event: &[u8]| events.push(String::from_utf8(event.to_vec()).unwrap());
    script
        .chunks(length)
        .for_each(|piece| audit.feed(piece, &mut event));
    audit.finish(&mut event);
    events
}

#[test]
fn recordings_in_pieces() {
    let due: Vec<&str> = EVENTS.split_inclusive('\n').collect();
    for length in [1, 2, 7, 260, 261, SCRIPT.len()] {
        assert_eq!(events(Audit::default(), SCRIPT, length), due, "{length}");
    }
    let summary = "event summary malformed 0 refused 0 captures 0 ended 0 whole 0 touched 0 dropped 0 held 0\n";
    let due = ["line 0 event unchanged\n", &format!("line 0 {summary}")];
    assert_eq!(events(Audit::default(), b"", 1), due);
}

#[test]
fn events_come_with_their_lines() {
    let mut audit = Audit::default();
    let mut count = 0;
    audit.feed(b"02400010\n02A00003", |_| count += 1);
    assert_eq!(count, 0);
    audit.feed(b"\n", |event| {
        assert!(event.starts_with(b"line 2 event start serial 1 "));
        count += 1;
    });
    assert_eq!(count, 1);
}

#[test]
fn recordings_over_a_battery_save() {
    // RAM writing on, a byte in the last of sixteen banks, one in the first that is rewritten the same
    let script = b"0200000A\n0240000F\n02BFFF01\n02400000\n02A00000";
    let audit = Audit::from_battery(vec![0; 16 * RAM_BANK]).unwrap();
    let said = events(audit, script, 5);
    assert_eq!(said[0], "line 5 event changed bank F from 1FFF to 1FFF\n");
    assert_eq!(said.len(), 2);
    for length in [0, RAM_BANK - 1, 3 * RAM_BANK] {
        let refused = Audit::from_battery(vec![0; length]).map(|_| ());
        assert_eq!(refused, Err(Refusal::Ram));
    }
}

/// What a script is played over.
struct Memory {
    state: Vec<u8>,
    rom: Vec<u8>,
    ram: Vec<u8>,
    store: Vec<u8>,
    image: Vec<u8>,
}

impl Memory {
    fn new() -> Self {
        let parts = Cartridge::default().parts();
        Memory {
            state: parts.state,
            rom: vec![0xFF; ROM_BANK],
            ram: parts.ram,
            store: parts.store,
            image: vec![0; FRAME_BYTES],
        }
    }

    fn lent(&mut self) -> bytes::Session<'_> {
        bytes::Session {
            state: &mut self.state,
            rom: &self.rom,
            ram: &mut self.ram,
            store: &mut self.store,
            image: &mut self.image,
        }
    }
}

#[test]
fn audits_that_are_refused() {
    let mut memory = Memory::new();
    let (mut book, mut line, mut out) = ([0; 14], [0; LINE_BYTES + 1], [0xA5; 512]);
    for (words, length, room) in [
        (12, LINE_BYTES, 512),
        (14, LINE_BYTES, 512),
        (13, LINE_BYTES - 1, 512),
        (13, LINE_BYTES + 1, 512),
        (13, LINE_BYTES, 511),
    ] {
        let (book, line) = (&mut book[..words], &mut line[..length]);
        let refused = bytes::audit(book, line, memory.lent(), b"00\n", &mut out[..room]);
        assert_eq!(refused.result(), Err(Refusal::Room));
        let refused = bytes::audit_end(book, line, memory.lent(), &mut out[..room]);
        assert_eq!(refused.result(), Err(Refusal::Room));
    }
    memory.state[0] = 2;
    let (book, line) = (&mut book[..13], &mut line[..LINE_BYTES]);
    let refused = bytes::audit(book, line, memory.lent(), b"00\n", &mut out);
    assert_eq!(refused.result(), Err(Refusal::State));
    assert_eq!((book, out), (&mut [0; 13][..], [0xA5; 512]));
}

#[test]
fn lines_are_carried_out() {
    let mut cartridge = Cartridge::default();
    for (line, answer) in [
        ("02400010", "00\n"),
        ("02A00003", "00\n"),
        ("01A000", "0003\n"),
        ("0300010000", "00000080BE\n"),
        ("018000", "05\n"),
        ("", "06\n"),
        ("01a000", "06\n"),
        ("00\n", "06\n"),
        ("00", "00\n"),
    ] {
        assert_eq!(
            cartridge.step(line.as_bytes()),
            answer.as_bytes(),
            "{line:?}"
        );
    }
    assert_eq!(cartridge.step(&[b'0'; 1000]), b"06\n");
    assert_eq!((cartridge.started(), cartridge.ended()), (0, 0));
}

/// Stepping through a recording is the session that was recorded, and its recording is the same.
#[test]
fn recordings_are_stepped_through() {
    let mut session = Cartridge::default();
    session.record();
    begin(&mut session, 10_000);
    session.write(0xA000, 2).unwrap();
    let mut player = Cartridge::default();
    player.record();
    let script = session.recording().to_vec();
    for line in script
        .strip_suffix(b"\n")
        .unwrap()
        .split(|&byte| byte == b'\n')
    {
        assert_eq!(player.step(line)[..2], *b"00");
        player.step(b"xx");
    }
    assert!(player.recording() == script);
    assert!(player.parts() == session.parts() && player.picture() == session.picture());
    // a row that was stepped through is an image that a script does not begin with
    let row = format!("0405{}", "5A".repeat(ROW_BYTES));
    let mut cartridge = Cartridge::default();
    assert_eq!(cartridge.step(row.as_bytes()), b"00\n");
    cartridge.record();
    cartridge.step(b"02400010");
    let recording = String::from_utf8(cartridge.recording().to_vec()).unwrap();
    assert_eq!(recording.lines().count(), 129);
    assert!(recording.contains(&row) && recording.ends_with("02400010\n"));
}

#[test]
fn steps_that_are_refused() {
    let mut memory = Memory::new();
    let mut out = [0xA5; ANSWER_BYTES];
    let refused = bytes::step(memory.lent(), b"00", &mut out[1..]).result();
    assert_eq!(refused, Err(Refusal::Room));
    memory.state[0] = 2;
    let refused = bytes::step(memory.lent(), b"00", &mut out).result();
    assert_eq!((refused, out), (Err(Refusal::State), [0xA5; ANSWER_BYTES]));
}

/// The places of a picture row's bytes: two of each of its sixteen tiles.
fn row_places(row: usize) -> impl Iterator<Item = usize> {
    (0..32).map(move |k| 256 * (row / 8) + 2 * (row % 8) + 16 * (k / 2) + k % 2)
}

#[test]
fn rows_of_two_frames() {
    let (one, mut registers) = (frame(), registers());
    // exposed so that no row is the same in both
    registers[2] = 2;
    let other: Vec<u8> = one.iter().map(|light| !light).collect();
    let [mut area, others] = [&one, &other].map(|frame| picture(frame, &registers).unwrap());
    assert_eq!(judge(&area, &one, &registers), Ok([true; PICTURE_ROWS]));
    for place in (56..PICTURE_ROWS).flat_map(row_places) {
        area[place] = others[place];
    }
    let upper = std::array::from_fn(|row| row < 56);
    let lower = upper.map(|row: bool| !row);
    assert_eq!(judge(&area, &one, &registers), Ok(upper));
    assert_eq!(judge(&area, &other, &registers), Ok(lower));
    // a bit of a row is enough, and of no other
    for row in [0, 7, 8, 111] {
        let mut touched = picture(&one, &registers).unwrap();
        touched[row_places(row).last().unwrap()] ^= 1;
        let due = std::array::from_fn(|place| place != row);
        assert_eq!(judge(&touched, &one, &registers), Ok(due));
    }
}

#[test]
fn judgements_that_are_refused() {
    let (area, registers) = ([0; PICTURE_BYTES], [0; REGISTERS]);
    for length in [0, FRAME_BYTES - 1, FRAME_BYTES + 1] {
        let refused = judge(&area, &vec![0; length], &registers);
        assert_eq!(refused, Err(Refusal::Frame));
    }
    let mut rows = [0xA5; PICTURE_ROWS + 1];
    let short = &mut rows[2..];
    let refused = bytes::judge(&area, &[0; FRAME_BYTES], &registers, short).result();
    assert_eq!(
        (refused, rows),
        (Err(Refusal::Room), [0xA5; PICTURE_ROWS + 1])
    );
    let equal = bytes::judge(&area, &[0; FRAME_BYTES], &registers, &mut rows).result();
    assert_eq!((equal, rows[PICTURE_ROWS]), (Ok(112), 0xA5));
}
