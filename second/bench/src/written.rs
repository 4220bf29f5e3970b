//! What is written into lent memory: frames as script lines, a plate as a file and back, its shades, the
//! readings before them, a photograph as an image, scripts salvaged, a plate judged, and a script line carried out.

use crate::table::Table;
use crate::timing::{here, race, Effort};
use gulxinett::bytes;
use second::{
    Frame, Plate, State, FRAME_BYTES, GREY_FILE_BYTES, LONGEST_SCRIPT, PICTURE_HEIGHT, PIXELS,
    RECORD_BYTES, REGISTERS, ROM_BANK,
};
use std::hint::black_box;

const LINE: usize = 261;
const ROW: usize = 128;
/// Rows of the pictures that are those of their frame.
const ROWS: [usize; 2] = [PICTURE_HEIGHT, PICTURE_HEIGHT - 1];

/// Writes something with a number in it.
type Writer = fn(&mut Lent, u32);

/// What a writer is lent.
struct Lent {
    row: [u8; ROW],
    /// The records of no capture and of one held, as bytes and as the second program has them.
    bytes: [[u8; RECORD_BYTES]; 2],
    records: [State; 2],
    rom: Vec<u8>,
    ram: Vec<u8>,
    room: [u8; GREY_FILE_BYTES],
    plate: Vec<u8>,
    photo: Vec<u8>,
    image: Vec<u8>,
    /// Read as lit values, or as a frame.
    store: Vec<u8>,
    /// The picture of that frame under the registers taken of the capture held, and the same with a bit that is not.
    pictures: [Plate; 2],
    /// A read of the picture area and a row.
    lines: [Vec<u8>; 2],
    scripts: [Script; 3],
    text: Vec<u8>,
    report: Vec<u8>,
}

/// Times both on a row of the image, a write, a plate out and in, its shades, readings, a photograph, the
/// largest scripts salvaged, a plate judged, and steps.
pub fn measure(effort: Effort, table: &mut Table) {
    let pairs: [(&str, Writer, Writer); 13] = [
        ("a row's line", proved_row, second_row),
        ("a write's line", proved_write, second_write),
        ("export of a plate", proved_file, second_file),
        ("placing of a plate", proved_place, second_place),
        ("shades of a plate", proved_shades, second_shades),
        ("readings", proved_readings, second_readings),
        ("import of a photograph", proved_photo, second_photo),
        (
            "salvage of short lines",
            proved_salvage::<0>,
            second_salvage::<0>,
        ),
        ("salvage of rows", proved_salvage::<1>, second_salvage::<1>),
        (
            "salvage of `00` lines",
            proved_salvage::<2>,
            second_salvage::<2>,
        ),
        ("judging of a plate", proved_judge, second_judge),
        ("a step: a read", proved_step::<0>, second_step::<0>),
        ("a step: a row", proved_step::<1>, second_step::<1>),
    ];
    for (what, proved, second) in pairs {
        compare(what, effort, [proved, second], table);
    }
}

fn compare(what: &str, effort: Effort, writers: [Writer; 2], table: &mut Table) {
    let store: Vec<u8> = (0..FRAME_BYTES)
        .map(|place| (place * place / 13) as u8)
        .collect();
    let picture = second::picture(&store, &held().taken).expect("a frame has its size");
    let mut touched = picture;
    touched[0x700] ^= 1;
    let lent = || Lent {
        row: std::array::from_fn(|place| place as u8 * 37),
        bytes: [State::RESET, held()].map(|state| bytes_of(&state)),
        records: [State::RESET, held()],
        rom: vec![0xFF; ROM_BANK],
        ram: (0..8_192).map(|place| (place * place / 7) as u8).collect(),
        room: [0; GREY_FILE_BYTES],
        plate: plate(),
        photo: photograph(),
        image: vec![0; FRAME_BYTES],
        store: store.clone(),
        pictures: [picture, touched],
        lines: [b"01A100".to_vec(), row_lines()[3..][..LINE - 1].to_vec()],
        scripts: [
            Script::new(short_lines(), 2),
            Script::new(row_lines(), 2),
            // 13 halvings
            Script::new(b"00\n".to_vec(), 1 << 13),
        ],
        text: vec![0; LONGEST_SCRIPT + 1],
        report: vec![0; LONGEST_SCRIPT],
    };
    let mut all = writers.map(|writer| {
        let mut lent = lent();
        here(move |runs| {
            for number in 0..runs {
                writer(black_box(&mut lent), number);
                black_box(&lent);
            }
        })
    });
    let times = race(effort, &mut all);
    table.add(what, &times[0], &times[1], None, None);
}

fn proved_row(lent: &mut Lent, number: u32) {
    let answer = bytes::record_row(number as u8 & 0x7F, &lent.row, &mut lent.room);
    assert_eq!(answer.0, LINE as u64);
}

fn second_row(lent: &mut Lent, number: u32) {
    let row = number as u8 & 0x7F;
    let pixels = &lent.row[..];
    let written = Frame::Row { row, pixels }.write_line(&mut lent.room);
    assert_eq!(written, Ok(LINE));
}

fn proved_write(lent: &mut Lent, number: u32) {
    let answer = bytes::record_write(number as u16, number as u8, &mut lent.room);
    assert_eq!(answer.0, 9);
}

fn second_write(lent: &mut Lent, number: u32) {
    let (address, value) = (number as u16, number as u8);
    let written = Frame::<&[u8]>::Write { address, value }.write_line(&mut lent.room);
    assert_eq!(written, Ok(9));
}

fn proved_file(lent: &mut Lent, number: u32) {
    lent.ram[0x100] = number as u8;
    let answer = bytes::export(&lent.ram, &mut lent.room);
    assert_eq!(answer.0, GREY_FILE_BYTES as u64);
}

fn second_file(lent: &mut Lent, number: u32) {
    lent.ram[0x100] = number as u8;
    let written = second::export(&lent.ram, &mut lent.room);
    assert_eq!(written, Ok(()));
}

/// A plate with some of every grey.
fn plate() -> Vec<u8> {
    let header = b"P5\n128 112\n255\n".iter().copied();
    let greys = (0..PIXELS).map(|place| [255, 170, 85, 0][place * place / 11 % 4]);
    header.chain(greys).collect()
}

fn proved_place(lent: &mut Lent, number: u32) {
    lent.plate[0x100] = if number % 2 == 0 { 85 } else { 170 };
    let answer = bytes::place(&lent.bytes[0], &mut lent.ram, &lent.plate);
    assert_eq!(answer.0, 0);
}

fn second_place(lent: &mut Lent, number: u32) {
    lent.plate[0x100] = if number % 2 == 0 { 85 } else { 170 };
    let placed = second::place(&lent.records[0], &mut lent.ram, &lent.plate);
    assert_eq!(placed, Ok(()));
}

fn proved_shades(lent: &mut Lent, number: u32) {
    lent.ram[0x100] = number as u8;
    let answer = bytes::shades(&lent.ram, &mut lent.room);
    assert_eq!(answer.0, PIXELS as u64);
}

fn second_shades(lent: &mut Lent, number: u32) {
    lent.ram[0x100] = number as u8;
    let read = second::shades(&lent.ram, &mut lent.room);
    assert_eq!(read, Ok(()));
}

/// A capture held in mode E at 75 per cent.
fn held() -> State {
    let mut taken = [0; REGISTERS];
    (taken[0], taken[1], taken[2], taken[4]) = (3, 0xE0, 1, 0x10);
    State {
        held: true,
        registers: taken,
        taken,
        ..State::RESET
    }
}

/// The archive's bytes for such a record, which it writes itself: reset, registers and start.
fn bytes_of(state: &State) -> [u8; RECORD_BYTES] {
    let mut record = [0; RECORD_BYTES];
    let (mut ram, image) = (vec![0; 8_192], [0; FRAME_BYTES]);
    let mut store = image;
    assert_eq!(bytes::reset(&mut record).0, 0);
    let registers = (0xA000..).zip(state.registers).skip(1);
    let start = [(0x4000, 0x10), (0xA000, state.registers[0])];
    for (address, value) in [start[0]].into_iter().chain(registers).chain([start[1]]) {
        let answer = bytes::write(&mut record, &mut ram, &mut store, &image, address, value);
        assert_eq!(answer.0, 0);
    }
    record
}

fn proved_readings(lent: &mut Lent, number: u32) {
    lent.store[0x1000] = number as u8;
    let answer = bytes::readings(&lent.bytes[1], &lent.store, &mut lent.room);
    assert_eq!(answer.0, GREY_FILE_BYTES as u64);
}

fn second_readings(lent: &mut Lent, number: u32) {
    lent.store[0x1000] = number as u8;
    let written = second::export_readings(&lent.records[1], &lent.store, &mut lent.room);
    assert_eq!(written, Ok(()));
}

/// A colour photograph, with a comment as scanners write them.
fn photograph() -> Vec<u8> {
    let header = b"P6\n# a scan\n128 128\n255\n".iter().copied();
    let pixels = (0..3 * FRAME_BYTES).map(|place| (place * place / 11) as u8);
    header.chain(pixels).collect()
}

fn proved_photo(lent: &mut Lent, number: u32) {
    lent.photo[0x100] = number as u8;
    let answer = bytes::import_photo(&lent.photo, &mut lent.image);
    assert_eq!(answer.0, 0);
}

fn second_photo(lent: &mut Lent, number: u32) {
    lent.photo[0x100] = number as u8;
    let read = second::import(&mut lent.image, &lent.photo);
    assert_eq!(read, Ok(()));
}

/// A script of the most bytes that is salvaged, and what is answered.
struct Script {
    bytes: Vec<u8>,
    due: u64,
}

impl Script {
    /// So many copies of a text, and empty lines up to the most bytes.
    fn new(text: Vec<u8>, copies: usize) -> Self {
        let mut bytes = text.repeat(copies);
        assert!(bytes.len() <= LONGEST_SCRIPT);
        bytes.resize(LONGEST_SCRIPT, b'\n');
        let lines = bytes.iter().filter(|&&byte| byte == b'\n').count();
        Script {
            bytes,
            due: (lines * 65_536 + text.len()) as u64,
        }
    }
}

/// A reset, then reads, writes and ticks: half of the most bytes.
fn short_lines() -> Vec<u8> {
    let mut lines = b"00\n".to_vec();
    for number in 0.. {
        let line = match number % 3 {
            0 => format!("01{:04X}\n", 0xA100 + number),
            1 => format!("02{:04X}{:02X}\n", 0xA000 + number % 54, number % 251),
            _ => format!("03{:08X}\n", number),
        };
        if lines.len() + line.len() > LONGEST_SCRIPT / 2 {
            break;
        }
        lines.extend(line.bytes());
    }
    lines
}

/// A reset, then rows: half of the most bytes.
fn row_lines() -> Vec<u8> {
    let mut lines = b"00\n".to_vec();
    for row in 0..62 {
        let pixels = [4 * row; ROW];
        let mut line = [0; LINE];
        let written = Frame::Row { row, pixels }.write_line(&mut line);
        assert_eq!(written, Ok(LINE));
        lines.extend(line);
    }
    lines
}

fn proved_salvage<const KIND: usize>(lent: &mut Lent, _: u32) {
    let script = &lent.scripts[KIND];
    let answer = bytes::salvage(&script.bytes, &mut lent.text, &mut lent.report);
    assert_eq!(answer.0, script.due);
}

fn second_salvage<const KIND: usize>(lent: &mut Lent, _: u32) {
    let script = &lent.scripts[KIND];
    let salvaged = second::salvage(&script.bytes, &mut lent.text, &mut lent.report);
    let answer = salvaged.map(|salvaged| (salvaged.lines * 65_536 + salvaged.length) as u64);
    assert_eq!(answer, Ok(script.due));
}

fn proved_judge(lent: &mut Lent, number: u32) {
    let (plate, registers) = (&lent.pictures[number as usize % 2], &lent.records[1].taken);
    let answer = bytes::judge(plate, &lent.store, registers, &mut lent.room);
    assert_eq!(answer.0, ROWS[number as usize % 2] as u64);
}

fn second_judge(lent: &mut Lent, number: u32) {
    let (plate, registers) = (&lent.pictures[number as usize % 2], &lent.records[1].taken);
    let judged = second::judge(plate, &lent.store, registers, &mut lent.room);
    assert_eq!(judged, Ok(ROWS[number as usize % 2]));
}

/// Bytes of the answers to a read and to a row.
const ANSWERS: [usize; 2] = [5, 3];

fn proved_step<const KIND: usize>(lent: &mut Lent, number: u32) {
    lent.ram[0x100] = number as u8;
    let session = bytes::Session {
        state: &mut lent.bytes[0],
        rom: &lent.rom,
        ram: &mut lent.ram,
        store: &mut lent.store,
        image: &mut lent.image,
    };
    let answer = bytes::step(session, &lent.lines[KIND], &mut lent.room);
    assert_eq!(answer.0, ANSWERS[KIND] as u64);
}

fn second_step<const KIND: usize>(lent: &mut Lent, number: u32) {
    lent.ram[0x100] = number as u8;
    let answered = second::step(
        &mut lent.bytes[0],
        &lent.rom,
        &mut lent.ram,
        &mut lent.store,
        &mut lent.image,
        &lent.lines[KIND],
        &mut lent.room,
    );
    assert_eq!(answered, Ok(ANSWERS[KIND]));
}
