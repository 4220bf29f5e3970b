//! Recordings audited: each event and verdict worked out by hand, and a slow reading of the text.

use super::random::Random;
use super::steps::Lent;
use crate::{crc32, export, judge, Audit, Lines, Refusal, State, GREY_FILE_BYTES, RAM_BANK};

/// CRC-32 of images and of plates as files, as zlib has them.
const IMAGE_OF_00: &str = "AB54D286";
const IMAGE_WITH_ROW_0_OF_5A: &str = "094A0706";
const IMAGE_WITH_ROW_127_OF_C3_TOO: &str = "99EB9182";
const WHITE_PLATE: &str = "899F3566";
const FIRST_PIXEL_LIGHT: &str = "002635BF";
const LAST_OCTET_BLACK: &str = "CDF93513";

/// A RAM as a session begins with it.
const FRESH: [u8; RAM_BANK] = [0xFF; RAM_BANK];

/// What an audit prints of a text that comes in pieces of a given size.
fn in_pieces(ram: &[u8], text: &[u8], piece: usize) -> String {
    let mut audit = Audit::with_ram(ram.to_vec()).expect("the RAM has an allowed size");
    let (mut lines, mut out) = (Lines::new(), Vec::new());
    for piece in text.chunks(piece) {
        lines.feed(piece, |line| audit.line(line, &mut out));
    }
    lines.finish(|line| audit.line(line, &mut out));
    audit.finish(&mut out);
    String::from_utf8(out).expect("plain text")
}

/// Checks what is printed, whatever the pieces, and what the slow reading says.
fn check_text(ram: &[u8], text: &[u8], wanted: &[&str]) {
    let wanted = wanted.join("\n") + "\n";
    for piece in [1, 2, 7, 261, usize::MAX] {
        assert_eq!(in_pieces(ram, text, piece), wanted, "in pieces of {piece}");
    }
    assert_eq!(slow_audit(ram, text), wanted);
}

/// The same of lines that each end in LF.
fn check(ram: &[u8], lines: &[&str], wanted: &[&str]) {
    check_text(ram, (lines.join("\n") + "\n").as_bytes(), wanted);
}

/// The event of a start with an image of 00; all registers but the first few are 00.
fn start(line: usize, serial: usize, registers: &str) -> String {
    format!("line {line} event start serial {serial} image {IMAGE_OF_00} row 0 registers {registers:0<108}")
}

/// The last line, of the numbers in their order.
fn summary(line: usize, numbers: [usize; 8]) -> String {
    let [malformed, refused, captures, ended, whole, touched, dropped, held] = numbers;
    format!(
        "line {line} event summary malformed {malformed} refused {refused} captures {captures} ended {ended} \
         whole {whole} touched {touched} dropped {dropped} held {held}"
    )
}

/// A line that lends a row.
fn row(row: u8, pixel: u8) -> String {
    format!("04{row:02X}{}", format!("{pixel:02X}").repeat(128))
}

#[test]
fn a_whole_capture() {
    check(
        &FRESH,
        &["02400010", "02A00003", "0300010000"],
        &[
            &start(2, 1, "03"),
            &format!("line 3 event end serial 1 cycles 32958 plate {WHITE_PLATE} verdict whole"),
            "line 3 event unchanged",
            "line 3 event summary malformed 0 refused 0 captures 1 ended 1 whole 1 touched 0 dropped 0 held 0",
        ],
    );
}

#[test]
fn nothing_and_almost_nothing() {
    for (text, lines, malformed, refused) in [
        (&b""[..], 0, 0, 0),
        (b"\n", 1, 1, 0),
        (b"\n\n", 2, 2, 0),
        (b"00", 1, 0, 0),
        (b"00\n", 1, 0, 0),
        (b"00\n0", 2, 1, 0),
        (b"00\r\n01a000\n01A00\nxyz", 4, 4, 0),
        (b"018000\n029FFF00\n02C0000A\n01FFFF\n01BFFF", 5, 0, 4),
        (b"01c000\n01C000\n", 2, 1, 1),
        (&[b'0'; 261], 1, 1, 0),
        (&[b'\n'; 1_000], 1_000, 1_000, 0),
    ] {
        check_text(
            &FRESH,
            text,
            &[
                &format!("line {lines} event unchanged"),
                &summary(lines, [malformed, refused, 0, 0, 0, 0, 0, 0]),
            ],
        );
    }
}

#[test]
fn stopped_touched_and_resumed() {
    // The first pixel is drawn at cycle 2,234; of the byte written then only that pixel's bit stays.
    check(
        &FRESH,
        &[
            "0200000A",
            "02400010",
            "02A00003",
            "02A00007",
            "03000008BA",
            "02A00002",
            "02A00000",
            "02400000",
            "02A100FF",
            "02A0FF11",
            "02AEFF22",
            "02AF0033",
            "02BFFF44",
            "02A00055",
            "01A100",
            "02400010",
            "02A08001",
            "0300010000",
        ],
        &[
            &start(3, 1, "03"),
            "line 6 event stop serial 1 cycles 2234",
            "line 9 event write serial 1 area inside bank 0 offset 0100 byte FF",
            "line 10 event write serial 1 area outside bank 0 offset 00FF byte 11",
            "line 11 event write serial 1 area inside bank 0 offset 0EFF byte 22",
            "line 12 event write serial 1 area outside bank 0 offset 0F00 byte 33",
            "line 13 event write serial 1 area outside bank 0 offset 1FFF byte 44",
            "line 14 event write serial 1 area outside bank 0 offset 0000 byte 55",
            "line 17 event resume serial 1 cycles 2234",
            &format!(
                "line 18 event end serial 1 cycles 32958 plate {FIRST_PIXEL_LIGHT} \
                 verdict touched writes 2 first 9 last 11"
            ),
            "line 18 event changed bank 0 from 0000 to 0000",
            "line 18 event changed bank 0 from 00FF to 00FF",
            "line 18 event changed bank 0 from 0F00 to 0F00",
            "line 18 event changed bank 0 from 1FFF to 1FFF",
            &summary(18, [0, 0, 1, 1, 0, 1, 0, 0]),
        ],
    );
}

#[test]
fn a_write_tells_and_not_the_plate() {
    // Written before the capture's own pixels, which are drawn over it; the next capture is whole again.
    check(
        &FRESH,
        &[
            "0200000A",
            "02400010",
            "02A00003",
            "02A00000",
            "02400000",
            "02A77700",
            "02400010",
            "02A00001",
            "03FFFFFFFF",
            "02A00003",
            "03FFFFFFFF",
        ],
        &[
            &start(3, 1, "03"),
            "line 4 event stop serial 1 cycles 0",
            "line 6 event write serial 1 area inside bank 0 offset 0777 byte 00",
            "line 8 event resume serial 1 cycles 0",
            &format!(
                "line 9 event end serial 1 cycles 32958 plate {WHITE_PLATE} \
                 verdict touched writes 1 first 6 last 6"
            ),
            &start(10, 2, "03"),
            &format!("line 11 event end serial 2 cycles 32958 plate {WHITE_PLATE} verdict whole"),
            "line 11 event unchanged",
            &summary(11, [0, 0, 2, 2, 1, 1, 0, 0]),
        ],
    );
}

#[test]
fn written_after_its_own_pixels() {
    // With N set the last of 16,128 pixels is drawn at cycle 32,440, and 32,446 is the total.
    check(
        &FRESH,
        &[
            "0200000A",
            "02400010",
            "02A00180",
            "02A00001",
            "0300007EB8",
            "02A00000",
            "02400000",
            "02AEFEFF",
            "02AEFFFF",
            "02400010",
            "02A00001",
            "0300000005",
            "0300000001",
        ],
        &[
            &start(4, 1, "0180"),
            "line 6 event stop serial 1 cycles 32440",
            "line 8 event write serial 1 area inside bank 0 offset 0EFE byte FF",
            "line 9 event write serial 1 area inside bank 0 offset 0EFF byte FF",
            "line 11 event resume serial 1 cycles 32440",
            &format!(
                "line 13 event end serial 1 cycles 32446 plate {LAST_OCTET_BLACK} \
                 verdict touched writes 2 first 8 last 9"
            ),
            "line 13 event unchanged",
            &summary(13, [0, 0, 1, 1, 0, 1, 0, 0]),
        ],
    );
}

#[test]
fn what_lands_nowhere() {
    // Not enabled, running, the registers shown, outside of the window; and before and after a capture.
    check(
        &FRESH,
        &[
            "02400010",
            "02A00003",
            "02A00002",
            "02400000",
            "02A10000", // not enabled
            "0200000A",
            "02400010",
            "02A00003",
            "02400000",
            "02A10000", // running
            "02400010",
            "02A00002",
            "02A10000", // a register that there is, by its mirror
            "02A17F00", // and one that there is not
            "02600000",
            "02C10000", // refused
            "02a10000", // malformed
            "02A00003",
            "0300010000",
            "02400000",
            "02A00012", // lands, and no capture is held
            "02A10012",
        ],
        &[
            &start(2, 1, "03"),
            "line 3 event stop serial 1 cycles 0",
            "line 8 event resume serial 1 cycles 0",
            "line 12 event stop serial 1 cycles 0",
            "line 18 event resume serial 1 cycles 0",
            &format!("line 19 event end serial 1 cycles 32958 plate {WHITE_PLATE} verdict whole"),
            "line 22 event changed bank 0 from 0000 to 0000",
            &summary(22, [1, 1, 1, 1, 1, 0, 0, 0]),
        ],
    );
}

#[test]
fn dropped_and_held() {
    check(
        &FRESH,
        &[
            "00",
            "02400010",
            "02A00003",
            "0300000064",
            "02A00002",
            "0300000064",
            "02A00003",
            "0300000001",
            "00",
            "00",
            "02A00003",
            "02400010",
            "02A00405",
            "02A00001",
            "03000000FF",
            "0300000001",
        ],
        &[
            &start(3, 1, "03"),
            "line 5 event stop serial 1 cycles 100",
            "line 7 event resume serial 1 cycles 100",
            "line 9 event dropped serial 1 cycles 101",
            &start(14, 1, "0100000005"),
            "line 16 event held serial 1 cycles 256",
            "line 16 event unchanged",
            &summary(16, [0, 0, 2, 0, 0, 0, 1, 1]),
        ],
    );
    // A capture that stands still is dropped and held as one that runs.
    check(
        &FRESH,
        &[
            "02400010", "02A00001", "02A00000", "00", "02400010", "02A00001", "02A00000",
        ],
        &[
            &start(2, 1, "01"),
            "line 3 event stop serial 1 cycles 0",
            "line 4 event dropped serial 1 cycles 0",
            &start(6, 1, "01"),
            "line 7 event stop serial 1 cycles 0",
            "line 7 event held serial 1 cycles 0",
            "line 7 event unchanged",
            &summary(7, [0, 0, 2, 0, 0, 0, 1, 1]),
        ],
    );
}

#[test]
fn rows_and_images() {
    let begun = |line: usize, serial: usize, image: &str, row: usize| {
        format!(
            "line {line} event start serial {serial} image {image} row {row} registers {:0<108}",
            "03"
        )
    };
    let end = |line: usize, serial: usize| {
        format!(
            "line {line} event end serial {serial} cycles 32958 plate {WHITE_PLATE} verdict whole"
        )
    };
    // A row that is malformed lends nothing; one lent while a capture is held is the next one's; a reset keeps the image.
    let spoiled = row(5, 0x77).replace('7', "g");
    check(
        &FRESH,
        &[
            &row(0, 0x5A),
            &row(0x80, 0x5A),
            &spoiled,
            "02400010",
            "02A00003",
            &row(0x7F, 0xC3),
            "0300010000",
            "02A00003",
            "0300010000",
            "00",
            "02400010",
            "02A00003",
            "0300010000",
        ],
        &[
            &begun(5, 1, IMAGE_WITH_ROW_0_OF_5A, 1),
            &end(7, 1),
            &begun(8, 2, IMAGE_WITH_ROW_127_OF_C3_TOO, 6),
            &end(9, 2),
            &begun(12, 1, IMAGE_WITH_ROW_127_OF_C3_TOO, 6),
            &end(13, 1),
            "line 13 event unchanged",
            &summary(13, [2, 0, 3, 3, 3, 0, 0, 0]),
        ],
    );
}

#[test]
fn a_preempted_job() {
    // The second worker goes on with state, RAM and frame store of the first, so its recording goes on too.
    let first = "0200000A\n02400010\n02A00003\n0300000FA0\n02A00002\n02400000\n02A10101\n";
    let second = "02400010\n02A00003\n0300001000\n02A00002\n02400000\n02A10102\n02400010\n02A00003\n0300010000\n";
    let of_first = [
        &start(3, 1, "03"),
        "line 5 event stop serial 1 cycles 4000",
        "line 7 event write serial 1 area inside bank 0 offset 0101 byte 01",
    ];
    let alone = [
        "line 7 event held serial 1 cycles 4000",
        "line 7 event unchanged",
        &summary(7, [0, 0, 1, 0, 0, 0, 0, 1]),
    ];
    check_text(&FRESH, first.as_bytes(), &[of_first, alone].concat());
    let mut both = of_first.to_vec();
    let plate = plate_with(&[(0x101, 2)]);
    let end = format!(
        "line 16 event end serial 1 cycles 32958 plate {plate} verdict touched writes 2 first 7 last 13"
    );
    let end_summary = summary(16, [0, 0, 1, 1, 0, 1, 0, 0]);
    both.extend([
        "line 9 event resume serial 1 cycles 4000",
        "line 11 event stop serial 1 cycles 8096",
        "line 13 event write serial 1 area inside bank 0 offset 0101 byte 02",
        "line 15 event resume serial 1 cycles 8096",
        &end,
        "line 16 event unchanged",
        &end_summary,
    ]);
    check_text(&FRESH, format!("{first}{second}").as_bytes(), &both);
}

/// The checksum of a plate that is white but for some bytes of the picture area.
fn plate_with(bytes: &[(usize, u8)]) -> String {
    let mut ram = vec![0; RAM_BANK];
    bytes.iter().for_each(|&(place, byte)| ram[place] = byte);
    plate(&ram)
}

/// The checksum of the picture area as a file.
fn plate(ram: &[u8]) -> String {
    let mut file = [0; GREY_FILE_BYTES];
    export(ram, &mut file).expect("RAM and buffer are right");
    format!("{:08X}", crc32(&file))
}

#[test]
fn banks() {
    let script = |select: u8| {
        [
            "0200000A".to_string(),
            "02400010".into(),
            "02A00003".into(),
            "02A00002".into(),
            format!("024000{select:02X}"),
            "02A1FE00".into(),
            "02A0FF00".into(),
            "02A10000".into(),
        ]
    };
    for (banks, select, bank) in [
        (1, 0, "0"),
        (1, 15, "0"),
        (2, 0, "0"),
        (2, 1, "1"),
        (2, 14, "0"),
        (2, 15, "1"),
        (4, 7, "3"),
        (8, 8, "0"),
        (8, 15, "7"),
        (16, 8, "8"),
        (16, 10, "A"),
        (16, 15, "F"),
    ] {
        let inside = bank == "0";
        let area = if inside { "inside" } else { "outside" };
        let write = |line: usize, area: &str, offset: &str| {
            format!(
                "line {line} event write serial 1 area {area} bank {bank} offset {offset} byte 00"
            )
        };
        let changed =
            |from: &str, to: &str| format!("line 8 event changed bank {bank} from {from} to {to}");
        let lines = script(select);
        let lines = lines.each_ref().map(String::as_str);
        let mut wanted = vec![
            start(3, 1, "03"),
            "line 4 event stop serial 1 cycles 0".into(),
            write(6, area, "01FE"),
            write(7, "outside", "00FF"),
            write(8, area, "0100"),
            "line 8 event held serial 1 cycles 0".into(),
        ];
        if inside {
            wanted.push(changed("00FF", "00FF"));
        } else {
            wanted.extend([changed("00FF", "0100"), changed("01FE", "01FE")]);
        }
        wanted.push(summary(8, [0, 0, 1, 0, 0, 0, 0, 1]));
        let wanted: Vec<&str> = wanted.iter().map(String::as_str).collect();
        check(&vec![0xFF; RAM_BANK * banks], &lines, &wanted);
    }
}

/// Lines that write bytes of a bank each.
fn writes(bank: u8, offsets: impl IntoIterator<Item = u16>, byte: u8) -> Vec<String> {
    let select = format!("024000{bank:02X}");
    let writes = offsets
        .into_iter()
        .map(|offset| format!("02{:04X}{byte:02X}", 0xA000 + offset));
    std::iter::once(select).chain(writes).collect()
}

/// The stretches that a script leaves, as bank, first and last offset.
fn stretches(ram: &[u8], lines: &[String]) -> Vec<String> {
    let text = lines.join("\n");
    let printed = in_pieces(ram, text.as_bytes(), usize::MAX);
    assert_eq!(slow_audit(ram, text.as_bytes()), printed);
    let about = format!("line {} event ", text.split('\n').count());
    let mut events: Vec<String> = printed
        .lines()
        .map(|line| line.strip_prefix(&about).expect("of the last line").into())
        .collect();
    assert!(events
        .pop()
        .is_some_and(|last| last.starts_with("summary ")));
    events
}

#[test]
fn stretches_and_their_borders() {
    let enable = vec!["0200000A".to_string()];
    let two = vec![0xFF; 2 * RAM_BANK];
    let all = || 0..0x2000_u16;
    let left = |ram: &[u8], parts: &[Vec<String>]| {
        stretches(
            ram,
            &[std::slice::from_ref(&enable), parts].concat().concat(),
        )
    };
    // All of a bank: the area is left out of bank 0 alone.
    assert_eq!(
        left(&FRESH, &[writes(0, all(), 0)]),
        [
            "changed bank 0 from 0000 to 00FF",
            "changed bank 0 from 0F00 to 1FFF"
        ]
    );
    assert_eq!(
        left(&two, &[writes(0, all(), 0), writes(1, all(), 1)]),
        [
            "changed bank 0 from 0000 to 00FF",
            "changed bank 0 from 0F00 to 1FFF",
            "changed bank 1 from 0000 to 1FFF"
        ]
    );
    // In order by place, whatever the order of the writes.
    assert_eq!(
        left(
            &two,
            &[
                writes(1, [1, 0, 0xFF, 0x100], 0),
                writes(2, [0x1FFF, 0x1FFE], 0)
            ]
        ),
        [
            "changed bank 0 from 1FFE to 1FFF",
            "changed bank 1 from 0000 to 0001",
            "changed bank 1 from 00FF to 0100"
        ]
    );
    // The area's edges, and only the area.
    assert_eq!(
        left(
            &FRESH,
            &[writes(
                0,
                [0xFE, 0xFF, 0x100, 0x101, 0xEFE, 0xEFF, 0xF00, 0xF01],
                7
            )]
        ),
        [
            "changed bank 0 from 00FE to 00FF",
            "changed bank 0 from 0F00 to 0F01"
        ]
    );
    assert_eq!(left(&FRESH, &[writes(0, 0x100..0xF00, 7)]), ["unchanged"]);
    // The same byte, and another byte that is put right again.
    assert_eq!(left(&FRESH, &[writes(0, all(), 0xFF)]), ["unchanged"]);
    assert_eq!(
        left(&FRESH, &[writes(0, [9, 10], 0), writes(0, [10], 0xFF)]),
        ["changed bank 0 from 0009 to 0009"]
    );
    // Against what a battery save held.
    let mut saved = vec![0; 16 * RAM_BANK];
    saved[15 * RAM_BANK + 3] = 0x44;
    assert_eq!(
        left(&saved, &[writes(15, [2, 3, 4], 0x44)]),
        [
            "changed bank F from 0002 to 0002",
            "changed bank F from 0004 to 0004"
        ]
    );
    // Every other byte is a stretch of its own.
    let alone = left(&two, &[writes(1, all().step_by(2), 0)]);
    assert_eq!(alone.len(), 4_096);
    assert_eq!(alone[4_095], "changed bank 1 from 1FFE to 1FFE");
}

#[test]
fn serials_wrap_and_captures_do_not() {
    let mut audit = Audit::new();
    let mut out = Vec::new();
    // The shortest captures: a start and a tick that reaches the end.
    audit.line(Some(b"02400010"), &mut out);
    audit.line(Some(b"02A00180"), &mut out);
    for _ in 0..65_537 {
        out.clear();
        audit.line(Some(b"02A00001"), &mut out);
        audit.line(Some(b"0300007EBE"), &mut out);
    }
    audit.finish(&mut out);
    let text = String::from_utf8(out).expect("plain text");
    let last: Vec<&str> = text.lines().collect();
    assert!(last[0].starts_with("line 131075 event start serial 1 image "));
    assert!(last[1].starts_with("line 131076 event end serial 1 cycles 32446 plate "));
    assert_eq!(
        last[3],
        summary(131_076, [0, 0, 65_537, 65_537, 65_537, 0, 0, 0])
    );
}

#[test]
fn sizes_of_a_save() {
    for banks in 0..=33 {
        for length in [
            RAM_BANK * banks,
            RAM_BANK * banks + 1,
            (RAM_BANK * banks).saturating_sub(1),
        ] {
            let allowed = length == RAM_BANK * banks && [1, 2, 4, 8, 16].contains(&banks);
            let refused = Audit::with_ram(vec![0; length]).map(drop);
            assert_eq!(refused, if allowed { Ok(()) } else { Err(Refusal::Ram) });
        }
    }
}

/// The lines of a text; a last one without LF counts if it has a byte.
fn lines(text: &[u8]) -> Vec<&[u8]> {
    let mut lines: Vec<&[u8]> = text.split(|&byte| byte == b'\n').collect();
    if lines.last().is_some_and(|line| line.is_empty()) {
        lines.pop();
    }
    lines
}

/// What the slow reading keeps of a capture.
struct Held {
    serial: u16,
    image: Vec<u8>,
    taken: [u8; 54],
    cycles: u64,
    /// The lines whose writes landed in the picture area.
    inside: Vec<usize>,
}

impl Held {
    fn told(&self) -> String {
        format!("serial {} cycles {}", self.serial, self.cycles)
    }
}

/// The audit by its table: from the states before and after each line.
struct Slow {
    lent: Lent,
    row: usize,
    capture: Option<Held>,
    /// In the order of the summary, the last two left out.
    malformed: usize,
    refused: usize,
    captures: usize,
    whole: usize,
    touched: usize,
    dropped: usize,
}

impl Slow {
    fn new(ram: &[u8]) -> Self {
        Slow {
            lent: Lent {
                ram: ram.to_vec(),
                ..Lent::fresh()
            },
            row: 0,
            capture: None,
            malformed: 0,
            refused: 0,
            captures: 0,
            whole: 0,
            touched: 0,
            dropped: 0,
        }
    }

    /// The event of line n, without what each begins with.
    fn event(&mut self, n: usize, line: &[u8]) -> Option<String> {
        let before = self.lent.state();
        let answer = self.lent.answer(line);
        let after = self.lent.state();
        match (answer.as_str(), answer.len()) {
            ("06", _) => self.malformed += 1,
            ("00", _) => {}
            (_, 2) => self.refused += 1,
            _ => {}
        }
        if let (10, Some(capture)) = (answer.len(), &mut self.capture) {
            capture.cycles += u64::from_str_radix(&answer[2..], 16).expect("digits");
        }
        let landed = self.landed(&before, line, &answer);
        let event = match (before.held, after.held) {
            (false, false) => None,
            (false, true) => Some(self.start(&after)),
            (true, true) => self.meanwhile(n, before.running(), after.running(), landed),
            (true, false) => Some(self.end(line == b"00")),
        };
        if line.starts_with(b"04") && answer == "00" {
            self.row = n;
        }
        event
    }

    /// Bank, offset and byte of a line's write that landed, by the state before it.
    fn landed(&self, state: &State, line: &[u8], answer: &str) -> Option<(usize, usize, u8)> {
        if !line.starts_with(b"02") || answer != "00" {
            return None;
        }
        let digits = std::str::from_utf8(line).expect("it was accepted");
        let number = |digits| usize::from_str_radix(digits, 16).expect("it was accepted");
        let (address, byte) = (number(&digits[2..6]), number(&digits[6..]));
        let lands = state.ram_enabled
            && state.registers[0] % 2 == 0
            && state.ram_select / 16 == 0
            && (0xA000..=0xBFFF).contains(&address);
        let bank = usize::from(state.ram_select) % (self.lent.ram.len() / RAM_BANK);
        lands.then(|| (bank, address - 0xA000, byte as u8))
    }

    fn start(&mut self, after: &State) -> String {
        self.captures += 1;
        let image = self.lent.image.clone();
        let registers: String = after.taken.iter().map(|r| format!("{r:02X}")).collect();
        let event = format!(
            "start serial {} image {:08X} row {} registers {registers}",
            after.started,
            crc32(&image),
            self.row
        );
        self.capture = Some(Held {
            serial: after.started,
            image,
            taken: after.taken,
            cycles: 0,
            inside: vec![],
        });
        event
    }

    fn meanwhile(
        &mut self,
        n: usize,
        before: bool,
        after: bool,
        landed: Option<(usize, usize, u8)>,
    ) -> Option<String> {
        let capture = self.capture.as_mut().expect("one is held");
        match (before, after) {
            (true, false) => return Some(format!("stop {}", capture.told())),
            (false, true) => return Some(format!("resume {}", capture.told())),
            _ => {}
        }
        let (bank, offset, byte) = landed?;
        assert_eq!(self.lent.ram[bank * RAM_BANK + offset], byte);
        let inside = bank == 0 && (0x100..=0xEFF).contains(&offset);
        if inside {
            capture.inside.push(n);
        }
        Some(format!(
            "write serial {} area {} bank {bank:X} offset {offset:04X} byte {byte:02X}",
            capture.serial,
            if inside { "inside" } else { "outside" }
        ))
    }

    fn end(&mut self, reset: bool) -> String {
        let capture = self.capture.take().expect("one was held");
        let told = capture.told();
        if reset {
            self.dropped += 1;
            return format!("dropped {told}");
        }
        let plate = plate(&self.lent.ram);
        let inside = &capture.inside;
        if let (Some(first), Some(last)) = (inside.first(), inside.last()) {
            self.touched += 1;
            let writes = inside.len();
            return format!("end {told} plate {plate} verdict touched writes {writes} first {first} last {last}");
        }
        self.whole += 1;
        let area = self.lent.ram[0x100..0xF00].try_into().expect("its bytes");
        let same = judge(&area, &capture.image, &capture.taken, &mut [0; 112]);
        assert_eq!(same, Ok(112));
        format!("end {told} plate {plate} verdict whole")
    }

    /// What is said at the end of the text, without what each line begins with.
    fn last(&self, first: &[u8]) -> Vec<String> {
        let mut out = Vec::new();
        if let Some(capture) = &self.capture {
            out.push(format!("held {}", capture.told()));
        }
        let changed: Vec<usize> = (0..first.len())
            .filter(|place| !(0x100..=0xEFF).contains(place))
            .filter(|&place| first[place] != self.lent.ram[place])
            .collect();
        let goes_on = |a: &usize, b: &usize| a + 1 == *b && b % RAM_BANK != 0;
        for stretch in changed.chunk_by(goes_on) {
            let bank = stretch[0] / RAM_BANK;
            let [from, to] = [stretch[0], stretch[stretch.len() - 1]].map(|p| p % RAM_BANK);
            out.push(format!("changed bank {bank:X} from {from:04X} to {to:04X}"));
        }
        if changed.is_empty() {
            out.push("unchanged".into());
        }
        out
    }

    fn numbers(&self) -> [usize; 8] {
        let held = usize::from(self.capture.is_some());
        let ended = self.whole + self.touched;
        assert_eq!(self.captures, ended + self.dropped + held);
        [
            self.malformed,
            self.refused,
            self.captures,
            ended,
            self.whole,
            self.touched,
            self.dropped,
            held,
        ]
    }
}

/// All that the slow reading prints.
fn slow_audit(ram: &[u8], text: &[u8]) -> String {
    let mut slow = Slow::new(ram);
    let mut out = String::new();
    let lines = lines(text);
    for (place, line) in lines.iter().enumerate() {
        let n = place + 1;
        if let Some(event) = slow.event(n, line) {
            out += &format!("line {n} event {event}\n");
        }
    }
    let n = lines.len();
    for event in slow.last(ram) {
        out += &format!("line {n} event {event}\n");
    }
    out + &summary(n, slow.numbers()) + "\n"
}

/// A few lines that belong together, mostly about one capture.
fn random_lines(random: &mut Random) -> Vec<String> {
    let offset = |random: &mut Random| match random.below(3) {
        0 => [0, 0xFE, 0xFF, 0x100, 0xEFF, 0xF00, 0x1FFE, 0x1FFF][random.below(8) as usize],
        1 => 0x100 + random.below(0xE00),
        _ => random.below(0x2000),
    };
    match random.below(20) {
        0 => vec!["00".into(), "0200000A".into()],
        1 => vec![row(random.below(140) as u8, random.byte())],
        2 => vec![
            "02400010".into(),
            format!("02A0{:02X}{:02X}", random.below(54), random.byte()),
        ],
        3..=6 => vec!["02400010".into(), format!("02A000{:02X}", random.byte())],
        7..=9 => vec![format!("03{:08X}", random.below(20_000))],
        10 => vec![format!("03{:08X}", random.next() as u32)],
        11 => vec![format!(
            "020000{:02X}",
            [0, 0x0A, 0x0A, 0x0A][random.below(4) as usize]
        )],
        12..=16 => vec![
            "02400010".into(),
            "02A00002".into(),
            format!(
                "024000{:02X}",
                [0, 0, 1, random.below(16)][random.below(4) as usize]
            ),
            format!("02{:04X}{:02X}", 0xA000 + offset(random), random.byte()),
        ],
        17 => vec![format!("01{:04X}", random.next() as u16)],
        18 => vec![["", "0", "02A0000", "01a000", "03\t", "00\r"][random.below(6) as usize].into()],
        _ => vec![format!(
            "02{:04X}{:02X}",
            random.next() as u16,
            random.byte()
        )],
    }
}

#[test]
fn random_recordings() {
    let mut random = Random::new(43);
    let mut seen = std::collections::BTreeMap::new();
    for case in 0..150 {
        let ram = random.bytes(RAM_BANK << [0, 0, 1, 2, 4][case % 5]);
        let mut text = (0..random.below(120))
            .flat_map(|_| random_lines(&mut random))
            .collect::<Vec<_>>()
            .join("\n")
            .into_bytes();
        if case % 3 == 0 {
            // Cut anywhere.
            text.truncate(random.below(text.len() as u64 + 1) as usize);
        }
        let wanted = slow_audit(&ram, &text);
        let piece = 1 + random.below(700) as usize;
        assert_eq!(in_pieces(&ram, &text, piece), wanted);
        for line in wanted.lines() {
            let words: Vec<&str> = line.split(' ').collect();
            let kind = match words[3] {
                "write" => words[7],
                "end" => words[11],
                other => other,
            };
            *seen.entry(kind.to_string()).or_insert(0) += 1;
        }
    }
    for kind in [
        "start",
        "stop",
        "resume",
        "inside",
        "outside",
        "whole",
        "touched",
        "dropped",
        "held",
        "changed",
        "unchanged",
    ] {
        assert!(
            seen.get(kind).is_some_and(|&count| count >= 10),
            "{kind}: {seen:?}"
        );
    }
}
